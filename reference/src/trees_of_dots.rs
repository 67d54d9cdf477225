//! The model of the trees of dots.
//!
//! Every tree of a list is laid out by the literal steps, and its nodes' levels and places are one
//! set. A tree fits where that set is the set of the dots.

use crate::layout::{layout, Slices};
use crate::small_trees::{Lists, SmallTree, MOST_NODES};
use std::collections::{BTreeMap, BTreeSet};

/// The greatest level of a small tree.
pub const GREATEST_LEVEL: i32 = MOST_NODES as i32 - 1;

/// A level and a place.
pub type Dot = (i32, i32);

/// What a call must give.
#[derive(Clone, Copy, Debug, Default, PartialEq, Eq)]
pub struct Found {
    pub number: u16,
    pub lowest: u16,
    pub count: u16,
}

/// The trees of one list under one separation: of each set of dots that a tree has, the places of
/// all trees that have it, rising.
pub type Classes = BTreeMap<BTreeSet<Dot>, Vec<u16>>;

/// The lists of small trees, with the dots of those that were asked for.
pub struct Drawings {
    lists: Lists,
    /// By count of nodes and separation.
    known: BTreeMap<(u16, u16), Classes>,
}

impl Drawings {
    /// For many calls: a list is laid out once for each separation.
    pub fn new() -> Self {
        Drawings {
            lists: Lists::all(),
            known: BTreeMap::new(),
        }
    }

    pub fn trees_of_dots(&mut self, nodes: u16, dots: &[i32], separation: u16) -> Found {
        match refusal(nodes, dots, separation) {
            0 => self.found(nodes, dots, separation),
            number => Found {
                number,
                ..Found::default()
            },
        }
    }

    /// The list of so many nodes, from 1 to 8.
    pub fn list(&self, nodes: u16) -> &[SmallTree] {
        self.lists.of(usize::from(nodes)).expect("there is a list")
    }

    /// The list of so many nodes, from 1 to 8, under a separation from 1 to 1,024.
    pub fn classes(&mut self, nodes: u16, separation: u16) -> &Classes {
        let Drawings { lists, known } = self;
        known.entry((nodes, separation)).or_insert_with(|| {
            let list = lists.of(usize::from(nodes)).expect("there is a list");
            let mut classes = Classes::new();
            for (tree, place) in list.iter().zip(0..) {
                let dots = dots_of(&tree.table, separation, &vec![0; usize::from(nodes)]);
                classes.entry(dots).or_default().push(place);
            }
            classes
        })
    }

    /// Forgets what was laid out.
    pub fn forget(&mut self) {
        self.known.clear();
    }

    fn found(&mut self, nodes: u16, dots: &[i32], separation: u16) -> Found {
        let dots: BTreeSet<Dot> = pairs(dots).collect();
        match self.classes(nodes, separation).get(&dots) {
            None => Found::default(),
            Some(places) => Found {
                number: 0,
                lowest: places[0],
                count: places.len() as u16,
            },
        }
    }
}

impl Default for Drawings {
    fn default() -> Self {
        Drawings::new()
    }
}

/// Level and place, from a slice of an even count of entries.
fn pairs(dots: &[i32]) -> impl Iterator<Item = Dot> + '_ {
    dots.chunks_exact(2).map(|pair| (pair[0], pair[1]))
}

/// The first of the conditions 20, 22 and 6 that holds, or 0.
fn refusal(nodes: u16, dots: &[i32], separation: u16) -> u16 {
    if !(1..=MOST_NODES).contains(&usize::from(nodes)) {
        20
    } else if dots.len() != 2 * usize::from(nodes) || level_outside(dots) || !rising(dots) {
        22
    } else if !(1..=1_024).contains(&separation) {
        6
    } else {
        0
    }
}

fn level_outside(dots: &[i32]) -> bool {
    pairs(dots).any(|(level, _)| !(0..=GREATEST_LEVEL).contains(&level))
}

/// Whether each dot is on a greater level than the one before, or on the same and farther right.
fn rising(dots: &[i32]) -> bool {
    let dots: Vec<Dot> = pairs(dots).collect();
    dots.windows(2).all(|two| {
        let [(level, place), (next_level, next_place)] = [two[0], two[1]];
        level < next_level || level == next_level && place < next_place
    })
}

/// The levels and places of a well-formed table's nodes, as a set.
pub fn dots_of(table: &[u16], separation: u16, half_widths: &[u16]) -> BTreeSet<Dot> {
    let nodes = table.len() / 2;
    let slices = Slices {
        places: &vec![0; nodes],
        levels: &vec![0; nodes],
        record: &vec![0; 2 * nodes],
        work: &vec![0; 16 * nodes],
    };
    let laid = layout(table, separation, half_widths, &slices);
    assert_eq!(laid.number, 0, "the tree is laid out");
    let levels = laid.levels.into_iter().map(i32::from);
    levels.zip(laid.places).collect()
}

/// The entries of a set of dots, which rise by level and then place.
pub fn entries(dots: &BTreeSet<Dot>) -> Vec<i32> {
    dots.iter()
        .flat_map(|&(level, place)| [level, place])
        .collect()
}

#[cfg(test)]
mod tests {
    use super::*;

    fn found(lowest: u16, count: u16) -> Found {
        Found {
            number: 0,
            lowest,
            count,
        }
    }

    fn refused(number: u16) -> Found {
        Found {
            number,
            ..Found::default()
        }
    }

    #[test]
    fn families_worked_out_by_hand() {
        let mut drawings = Drawings::new();
        let mut find = |nodes, dots: &[i32], separation| {
            let found = drawings.trees_of_dots(nodes, dots, separation);
            assert_eq!(found.number, 0);
            found
        };
        assert_eq!(find(1, &[0, 0], 1_024), found(0, 1));
        assert_eq!(find(1, &[0, 1], 1_024), found(0, 0));
        assert_eq!(find(1, &[7, 0], 1_024), found(0, 0));
        assert_eq!(find(2, &[0, 0, 1, 0], 3), found(0, 1));
        // Two leaves 3 apart, half of 3 rounded down; and the chain.
        assert_eq!(find(3, &[0, 0, 1, -1, 1, 2], 3), found(0, 1));
        assert_eq!(find(3, &[0, 0, 1, -1, 1, 2], 4), found(0, 0));
        assert_eq!(find(3, &[0, 0, 1, -2, 1, 1], 3), found(0, 0));
        assert_eq!(find(3, &[0, 0, 1, 0, 2, 0], 3), found(1, 1));
        // Levels 0, 1, 1, 2 and 0, 1, 2, 1: under the right leaf, and under the left one.
        assert_eq!(find(4, &[0, 0, 1, -1, 1, 1, 2, 1], 2), found(1, 1));
        assert_eq!(find(4, &[0, 0, 1, -1, 1, 1, 2, -1], 2), found(2, 1));
    }

    /// The places and the levels of the trees that have just these dots.
    fn fitting(nodes: u16, dots: &[i32], separation: u16) -> Vec<(u16, Vec<u16>)> {
        let mut drawings = Drawings::new();
        let dots: BTreeSet<Dot> = pairs(dots).collect();
        let places = drawings.classes(nodes, separation)[&dots].clone();
        let list = drawings.list(nodes);
        let levels = |place: u16| list[usize::from(place)].levels.clone();
        places
            .into_iter()
            .map(|place| (place, levels(place)))
            .collect()
    }

    #[test]
    fn a_conflict_by_hand() {
        // D = 2. Of three children the second has two leaves and the third has one. The children
        // stand at 0, 2, 4, the leaves at 1, 3 and 4: the third child moves by 1. Half of 5 is 2.
        let dots = [0, 0, 1, -2, 1, 0, 1, 3, 2, -1, 2, 1, 2, 3];
        let [(_, levels)] = &fitting(7, &dots, 2)[..] else {
            panic!("one tree has these dots");
        };
        assert_eq!(levels, &[0, 1, 1, 2, 2, 1, 2]);
    }

    #[test]
    fn the_pair_of_seven_nodes() {
        // Three children D apart and three leaves below them: all three under the second child, or
        // one under each.
        let pair = [
            (21, vec![0, 1, 1, 2, 2, 2, 1]),
            (48, vec![0, 1, 2, 1, 2, 1, 2]),
        ];
        for separation in [2, 3, 1_024] {
            let d = i32::from(separation);
            let dots = [0, 0, 1, -d, 1, 0, 1, d, 2, -d, 2, 0, 2, d];
            assert_eq!(fitting(7, &dots, separation), pair);
            let answer = Drawings::new().trees_of_dots(7, &dots, separation);
            assert_eq!(answer, found(21, 2));
        }
    }

    #[test]
    fn the_first_condition_decides() {
        let mut drawings = Drawings::new();
        let mut number = |nodes, dots: &[i32], separation| {
            let found = drawings.trees_of_dots(nodes, dots, separation);
            assert_eq!(found, refused(found.number));
            found.number
        };
        assert_eq!(number(0, &[], 0), 20);
        assert_eq!(number(9, &[0, 0], 0), 20);
        assert_eq!(number(65_535, &[0, 0], 1), 20);
        assert_eq!(number(1, &[], 0), 22);
        assert_eq!(number(1, &[0], 1), 22);
        assert_eq!(number(1, &[0, 0, 1], 1), 22);
        assert_eq!(number(1, &[0, 0, 1, 0], 1), 22);
        assert_eq!(number(1, &[-1, 0], 1), 22);
        assert_eq!(number(1, &[8, 0], 1_025), 22);
        assert_eq!(number(2, &[0, 0, 0, 0], 1), 22);
        assert_eq!(number(2, &[1, 0, 0, 0], 1), 22);
        assert_eq!(number(2, &[1, 5, 1, -5], 0), 22);
        assert_eq!(number(2, &[1, -5, 1, 5], 0), 6);
        assert_eq!(number(1, &[7, i32::MAX], 1_025), 6);
        assert_eq!(number(1, &[0, i32::MIN], 65_535), 6);
    }

    #[test]
    fn each_tree_is_in_one_class_and_fits_its_own_dots() {
        let mut drawings = Drawings::new();
        for separation in [1, 2, 3, 5, 1_024] {
            for nodes in 1..=MOST_NODES as u16 {
                let classes = drawings.classes(nodes, separation).clone();
                let mut places: Vec<u16> = classes.values().flatten().copied().collect();
                places.sort_unstable();
                assert!(places
                    .iter()
                    .copied()
                    .eq(0..drawings.list(nodes).len() as u16));
                for (dots, places) in &classes {
                    assert_eq!(dots.len(), usize::from(nodes));
                    assert!(places.is_sorted());
                    let found = drawings.trees_of_dots(nodes, &entries(dots), separation);
                    assert_eq!(usize::from(found.count), places.len());
                    assert_eq!(found.lowest, places[0]);
                }
            }
        }
    }
}
