//! The model of the lists of all small trees.
//!
//! Trees are made by their shape: under the root there are none, or a first tree and then others.
//! Each is written as its levels, and the lists of levels are sorted. No tree is looked for by
//! counting those before it.

use crate::table::{over_start, table_of, Children};

/// The most nodes of a small tree.
pub const MOST_NODES: usize = 8;

/// What a call must give.
#[derive(Debug, PartialEq, Eq)]
pub struct Written {
    pub number: u16,
    pub table: Vec<u16>,
}

/// A tree's levels in Renumber's order, and its table, numbered in the same order.
#[derive(Clone, Debug, PartialEq, Eq)]
pub struct SmallTree {
    pub levels: Vec<u16>,
    pub table: Vec<u16>,
}

/// The lists of the trees of 1 to 8 nodes.
pub struct Lists {
    of: Vec<Vec<SmallTree>>,
}

impl Lists {
    /// Makes them, once for many calls.
    pub fn all() -> Self {
        Lists {
            of: (1..=MOST_NODES).map(list).collect(),
        }
    }

    /// The list of the trees of so many nodes, if that is from 1 to 8.
    pub fn of(&self, nodes: usize) -> Option<&[SmallTree]> {
        self.of.get(nodes.checked_sub(1)?).map(Vec::as_slice)
    }

    /// `table` is the slice as it is lent.
    pub fn small_tree(&self, nodes: u16, place: u16, table: &[u16]) -> Written {
        match self.tree(nodes, place, table.len()) {
            Err(number) => Written {
                number,
                table: table.to_vec(),
            },
            Ok(tree) => Written {
                number: 0,
                table: over_start(table, &tree.table),
            },
        }
    }

    /// The tree at a place, or the first of 20, 21 and 7 that holds.
    fn tree(&self, nodes: u16, place: u16, table_len: usize) -> Result<&SmallTree, u16> {
        let list = self.of(usize::from(nodes)).ok_or(20_u16)?;
        let tree = list.get(usize::from(place)).ok_or(21_u16)?;
        let fits = 2 * usize::from(nodes) <= table_len;
        fits.then_some(tree).ok_or(7)
    }
}

/// Every tree of so many nodes, at least one. Lists of one length are compared by their first
/// difference.
pub fn list(nodes: usize) -> Vec<SmallTree> {
    let mut list: Vec<SmallTree> = every_shape(nodes).iter().map(Shape::written).collect();
    list.sort_by(|left, right| left.levels.cmp(&right.levels));
    list
}

/// A tree by the trees under its root, left to right.
#[derive(Clone)]
struct Shape(Vec<Shape>);

/// Every tree of so many nodes, at least one.
fn every_shape(nodes: usize) -> Vec<Shape> {
    every_row(nodes - 1).into_iter().map(Shape).collect()
}

/// Every row of trees of so many nodes in all: the row of none, or a first tree before another row.
fn every_row(nodes: usize) -> Vec<Vec<Shape>> {
    if nodes == 0 {
        return vec![vec![]];
    }
    let mut rows = Vec::new();
    for of_first in 1..=nodes {
        for first in every_shape(of_first) {
            for others in every_row(nodes - of_first) {
                rows.push([vec![first.clone()], others].concat());
            }
        }
    }
    rows
}

impl Shape {
    fn written(&self) -> SmallTree {
        let (mut levels, mut children) = (Vec::new(), Vec::new());
        self.number_from(0, &mut levels, &mut children);
        SmallTree {
            table: table_of(&children),
            levels,
        }
    }

    /// Numbers the root, which is on this level, and then the subtrees of its children left to
    /// right. Gives the root's number.
    fn number_from(&self, level: u16, levels: &mut Vec<u16>, children: &mut Children) -> usize {
        let root = levels.len();
        levels.push(level);
        children.push(vec![]);
        for child in &self.0 {
            let number = child.number_from(level + 1, levels, children);
            children[root].push(number);
        }
        root
    }
}

#[cfg(test)]
mod tests {
    use super::*;
    use crate::shapes::{chain, every_tree, star};
    use crate::table::{refusal, renumber, NONE};

    #[test]
    fn the_lists_have_the_lengths_of_the_paper() {
        let lists = Lists::all();
        for (count, nodes) in [1, 1, 2, 5, 14, 42, 132, 429].into_iter().zip(1..) {
            assert_eq!(lists.of(nodes).map(<[_]>::len), Some(count));
        }
        assert!(lists.of(0).is_none() && lists.of(9).is_none());
    }

    #[test]
    fn the_lists_of_three_and_four_by_hand() {
        let levels = |nodes| -> Vec<Vec<u16>> {
            let trees = list(nodes).into_iter();
            trees.map(|tree| tree.levels).collect()
        };
        assert_eq!(levels(3), [[0, 1, 1], [0, 1, 2]]);
        assert_eq!(
            levels(4),
            [
                [0, 1, 1, 1],
                [0, 1, 1, 2],
                [0, 1, 2, 1],
                [0, 1, 2, 2],
                [0, 1, 2, 3]
            ]
        );
        let tables: Vec<Vec<u16>> = list(4).into_iter().map(|tree| tree.table).collect();
        assert_eq!(
            tables,
            [
                [1, NONE, NONE, 2, NONE, 3, NONE, NONE],
                [1, NONE, NONE, 2, 3, NONE, NONE, NONE],
                [1, NONE, 2, 3, NONE, NONE, NONE, NONE],
                [1, NONE, 2, NONE, NONE, 3, NONE, NONE],
                [1, NONE, 2, NONE, 3, NONE, NONE, NONE]
            ]
        );
    }

    #[test]
    fn the_star_is_first_and_the_chain_last() {
        for nodes in 1..=MOST_NODES {
            let list = list(nodes);
            assert_eq!(list[0].table, star(nodes));
            assert_eq!(list[list.len() - 1].table, chain(nodes));
        }
    }

    #[test]
    fn every_tree_occurs_at_one_place() {
        for nodes in 1..=MOST_NODES {
            let list = list(nodes);
            for pair in list.windows(2) {
                let (left, right) = (&pair[0].levels, &pair[1].levels);
                let first = (0..nodes).find(|&node| left[node] != right[node]);
                let first = first.expect("no two trees have the same levels");
                assert!(left[first] < right[first], "{left:?} before {right:?}");
            }
            // Lists of levels that grow by a level at a time come in the same order.
            let tables: Vec<Vec<u16>> = list.into_iter().map(|tree| tree.table).collect();
            assert_eq!(tables, every_tree(nodes));
            for table in tables {
                assert_eq!(refusal(&table), 0);
                assert_eq!(renumber(&table, &table, &vec![0; nodes]).out, table);
            }
        }
    }

    #[test]
    fn the_first_number_that_holds() {
        let lists = Lists::all();
        let number = |nodes, place, len| {
            let lent = vec![9; len];
            let written = lists.small_tree(nodes, place, &lent);
            assert!(written.number == 0 || written.table == lent);
            written.number
        };
        for nodes in [0, 9, 256, 257, 65_535] {
            for len in [0, 16, 2_048] {
                assert_eq!(number(nodes, 0, len), 20);
                assert_eq!(number(nodes, 429, len), 20);
            }
        }
        for (nodes, place) in [(1, 1), (3, 2), (8, 429), (8, 65_535)] {
            for len in [0, 15, 16] {
                assert_eq!(number(nodes, place, len), 21);
            }
        }
        assert_eq!(number(8, 428, 15), 7);
        assert_eq!(number(8, 428, 16), 0);
        assert_eq!(number(1, 0, 1), 7);
        assert_eq!(number(1, 0, 2), 0);
        let written = lists.small_tree(3, 0, &[9; 8]);
        assert_eq!(written.table, [1, NONE, NONE, 2, NONE, NONE, 9, 9]);
    }
}
