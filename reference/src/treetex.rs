//! The profiles of a layout: the plain one, and that of TreeTeX with an extra space.
//!
//! TreeTeX's admits at most two children a node. Its extra space parts the children of a significant
//! node, so that families stand out in print.

use crate::table::Children;

/// The greatest extra space.
pub const MOST_EXTRA: u16 = 1_024;

#[derive(Clone, Copy, Debug, PartialEq, Eq)]
pub enum Profile {
    Plain,
    TreeTex { extra: u16 },
}

impl Profile {
    /// What is added at a significant node.
    pub fn extra(self) -> u16 {
        match self {
            Profile::Plain => 0,
            Profile::TreeTex { extra } => extra,
        }
    }

    /// Whether no node has more children than the profile admits.
    pub fn admits(self, children: &Children) -> bool {
        match self {
            Profile::Plain => true,
            Profile::TreeTex { .. } => children.iter().all(|family| family.len() <= 2),
        }
    }
}

#[cfg(test)]
mod tests {
    use super::*;
    use crate::layout::tests::{expect_under, lay_out_under};
    use crate::layout::{layout_under, Given, Slices};
    use crate::shapes::{binary, chain, star, table_of_levels};

    /// Holds a layout against places worked out by hand. A node is given by its level, its
    /// half-width and its place, in Renumber's order.
    fn expect(separation: u16, extra: u16, dots: &[(usize, u16, i32)]) {
        expect_under(Profile::TreeTex { extra }, separation, dots);
    }

    #[test]
    fn the_perfect_tree_of_seven_nodes() {
        // D = 2. Both children have their leaves at -1 and 1. The second starts at 2; its first leaf
        // then stands at 1, as does the first child's last: s = 2. The children stand at 0 and 4,
        // and with E at 0 and 4 + E; the root halfway, rounded down.
        for (extra, places) in [
            (0, [0, -2, -3, -1, 2, 1, 3]),
            (1, [0, -2, -3, -1, 3, 2, 4]),
            (2, [0, -3, -4, -2, 3, 2, 4]),
            (3, [0, -3, -4, -2, 4, 3, 5]),
            (1_024, [0, -514, -515, -513, 514, 513, 515]),
        ] {
            let levels = [0, 1, 2, 2, 1, 2, 2];
            let dots: Vec<_> = (0..7).map(|node| (levels[node], 0, places[node])).collect();
            expect(2, extra, &dots);
        }
    }

    #[test]
    fn two_conflicts_and_one_extra_space() {
        // D = 2. The first child has a leaf at -1 and a node at 1, whose leaves stand at 0 and 2;
        // the second is its mirror. It starts at 2 and meets the first one level down, s = 2, and
        // two levels down, s = 2 again. So it stands at 6, with E = 3 at 9, and the root at 4.
        expect(
            2,
            3,
            &[
                (0, 0, 0),
                (1, 0, -4),
                (2, 0, -5),
                (2, 0, -3),
                (3, 0, -4),
                (3, 0, -2),
                (1, 0, 5),
                (2, 0, 4),
                (3, 0, 3),
                (3, 0, 5),
                (2, 0, 6),
            ],
        );
    }

    #[test]
    fn a_conflict_above_the_last_level() {
        // D = 2. Of the first child's children at -1 and 1 the first has a child, of the second's
        // the second. They meet one level down, s = 2, and are 6 apart two levels down. The
        // children stand at 0 and 4, with E = 3 at 0 and 7, and the root at 3.
        expect(
            2,
            3,
            &[
                (0, 0, 0),
                (1, 0, -3),
                (2, 0, -4),
                (3, 0, -4),
                (2, 0, -2),
                (1, 0, 4),
                (2, 0, 3),
                (2, 0, 5),
                (3, 0, 5),
            ],
        );
    }

    #[test]
    fn without_a_conflict_nothing_is_added() {
        expect(5, 1_024, &[(0, 256, 0)]);
        expect(5, 1_024, &[(0, 9, 0), (1, 9, 0), (2, 9, 0)]);
        expect(3, 1_024, &[(0, 0, 0), (1, 0, -1), (1, 0, 2)]);
        // Two chains side by side: at the second level the distance is just what is needed, at the
        // third it is more.
        expect(
            4,
            1_024,
            &[
                (0, 0, 0),
                (1, 1, -3),
                (2, 1, -3),
                (3, 0, -3),
                (1, 1, 3),
                (2, 1, 3),
                (3, 0, 3),
            ],
        );
    }

    #[test]
    fn an_extra_space_that_makes_the_node_above_significant() {
        // D = 2. P, of half-width 3, is the root of a perfect tree; beside it is Q, a chain of
        // three, which starts at 5. With E = 0 P's last child and last leaf stand at 2 and 3: there
        // is no conflict, and the root stands at 2.
        let dots = |places: [i32; 11]| -> Vec<(usize, u16, i32)> {
            let levels = [0, 1, 2, 3, 3, 2, 3, 3, 1, 2, 3];
            let width = |node| if node == 1 { 3 } else { 0 };
            (0..11)
                .map(|node| (levels[node], width(node), places[node]))
                .collect()
        };
        expect(2, 0, &dots([0, -2, -4, -5, -3, 0, -1, 1, 3, 3, 3]));
        // With E = 3 they stand at 4 and 5: s = 1 twice, so Q stands at 7, and with E at 10. The
        // root stands at 5.
        expect(2, 3, &dots([0, -5, -8, -9, -7, -1, -2, 0, 5, 5, 5]));
    }

    #[test]
    fn an_extra_space_below_the_shallower_subtree() {
        // D = 2, E = 3. X has the children S, with two leaves, and T, whose children at -1 and 1
        // have, the first of them, a chain of two. T stands at 2 + 2 + 3 from S, X at 3. From X: S
        // -3, its leaves -4 and -2, T 4, its children 3 and 5, the chain 3. Beside X, to the left,
        // is Z, a chain of three over two leaves that need 2 + 8: they stand at -5 and 5. X starts
        // at 2 and meets Z's chain, s = 3, s = 1, so it is at 6. Then Z's last leaf at 5 meets T's
        // chain at 9, where 2 + 8 are needed: s = 6. X stands at 12, with E at 15, the root at 7.
        expect(
            2,
            3,
            &[
                (0, 0, 0),
                (1, 0, -7),
                (2, 0, -7),
                (3, 0, -7),
                (4, 0, -12),
                (4, 8, -2),
                (1, 0, 8),
                (2, 0, 5),
                (3, 0, 4),
                (3, 0, 6),
                (2, 0, 12),
                (3, 0, 11),
                (4, 0, 11),
                (5, 0, 11),
                (3, 0, 13),
            ],
        );
    }

    #[test]
    fn three_children_and_too_much_extra_space() {
        let number = |table: &[u16], extra| {
            let half_widths = vec![0; table.len() / 2];
            let given = Given {
                profile: Profile::TreeTex { extra },
                ..Given::plain(table, 5, &half_widths)
            };
            lay_out_under(&given).number
        };
        assert_eq!(number(&star(3), 0), 0);
        assert_eq!(number(&star(3), 1_024), 0);
        assert_eq!(number(&star(3), 1_025), 24);
        assert_eq!(number(&star(3), 65_535), 24);
        assert_eq!(number(&star(4), 0), 23);
        assert_eq!(number(&star(4), 1_025), 23);
        assert_eq!(number(&table_of_levels(&[0, 1, 2, 3, 3, 3]), 0), 23);
        assert_eq!(number(&binary(1_024), 7), 0);
        assert_eq!(number(&star(1_025), 7), 1);
        assert_eq!(number(&chain(1_024), 7), 0);
    }

    #[test]
    fn the_first_condition_decides() {
        let number = |table: &[u16], separation, half_width, extra, places, work| {
            let nodes = table.len() / 2;
            let given = Given {
                table,
                separation,
                half_widths: &vec![half_width; nodes],
                profile: Profile::TreeTex { extra },
            };
            let lent = Slices {
                places: &vec![9; places],
                levels: &vec![9; nodes],
                record: &vec![9; 2 * nodes],
                work: &vec![9; work],
            };
            layout_under(&given, &lent).number
        };
        let (pair, three) = (star(3), star(4));
        assert_eq!(number(&[1, 1, 2, 3], 0, 257, 1_025, 0, 0), 2);
        assert_eq!(number(&three, 0, 257, 1_025, 3, 63), 23);
        assert_eq!(number(&pair, 0, 257, 1_025, 2, 47), 6);
        assert_eq!(number(&pair, 1, 257, 1_025, 2, 47), 17);
        assert_eq!(number(&pair, 1, 256, 1_025, 2, 47), 24);
        assert_eq!(number(&pair, 1, 256, 1_024, 2, 47), 7);
        assert_eq!(number(&pair, 1, 256, 1_024, 3, 47), 8);
        assert_eq!(number(&pair, 1, 256, 1_024, 3, 48), 0);
    }
}
