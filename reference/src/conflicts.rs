//! A tally of the conflicts in the trees of a comparison, so that it can be held to every kind.

use crate::layout::{conflicts, Conflict};
use crate::shapes::MOST_GAPS;
use std::collections::{BTreeMap, BTreeSet};
use std::fmt;

/// What tells conflicts apart, by the paper's names.
#[derive(Clone, Copy, Debug, PartialEq, Eq, PartialOrd, Ord)]
struct Kind {
    k: i64,
    r: i64,
    q_is_0: bool,
    with_first_child: bool,
    under_root: bool,
}

/// The kinds that occurred, and how often a go-between took odd units.
#[derive(Default)]
pub struct Tally {
    kinds: BTreeSet<Kind>,
    /// In conflicts with the first child, the first default ancestor of document 004.
    with_first: usize,
    /// With a later default ancestor.
    with_later_default: usize,
    /// With another child, the ancestor of the node that is met.
    with_ancestor: usize,
    /// The most such conflicts of one child, each over another count of gaps.
    most_of_one_child: usize,
}

impl Tally {
    /// Adds the conflicts of a well-formed table.
    pub fn add(&mut self, table: &[u16], separation: u16, half_widths: &[u16]) {
        let mut gaps_of_child: BTreeMap<_, BTreeSet<i64>> = BTreeMap::new();
        for conflict in conflicts(table, separation, half_widths) {
            self.kinds.insert(kind_of(&conflict));
            // With r = 1 the odd unit falls in the gap before child j.
            if conflict.r() > 1 {
                *self.counter(&conflict) += 1;
                let child = (conflict.parent, conflict.j);
                let gaps = gaps_of_child.entry(child).or_default();
                gaps.insert(conflict.k());
                self.most_of_one_child = self.most_of_one_child.max(gaps.len());
            }
        }
    }

    /// A child that alone has the level was deeper than all before it: it is the default ancestor.
    fn counter(&mut self, conflict: &Conflict) -> &mut usize {
        match (conflict.alone, conflict.i) {
            (true, 0) => &mut self.with_first,
            (true, _) => &mut self.with_later_default,
            (false, _) => &mut self.with_ancestor,
        }
    }

    /// Fails unless every kind has occurred, and often.
    pub fn expect_every_kind(&self) {
        for kind in every_kind() {
            assert!(self.kinds.contains(&kind), "no conflict is a {kind:?}");
        }
        assert!(self.with_first > 1_000, "{self}");
        assert!(self.with_later_default > 1_000, "{self}");
        assert!(self.with_ancestor > 1_000, "{self}");
        assert!(self.most_of_one_child > 10, "{self}");
    }
}

fn kind_of(conflict: &Conflict) -> Kind {
    Kind {
        k: conflict.k(),
        r: conflict.r(),
        q_is_0: conflict.q() == 0,
        with_first_child: conflict.i == 0,
        under_root: conflict.parent == 0,
    }
}

fn every_kind() -> Vec<Kind> {
    let mut kinds = Vec::new();
    for k in 1..=MOST_GAPS as i64 {
        for r in 0..k {
            for bits in 0..8 {
                kinds.push(Kind {
                    k,
                    r,
                    q_is_0: bits & 1 != 0,
                    with_first_child: bits & 2 != 0,
                    under_root: bits & 4 != 0,
                });
            }
        }
    }
    // s is above 0.
    kinds.retain(|kind| !(kind.r == 0 && kind.q_is_0));
    kinds
}

impl fmt::Display for Tally {
    fn fmt(&self, f: &mut fmt::Formatter) -> fmt::Result {
        write!(
            f,
            "go-betweens take odd units in {} conflicts with the first child, {} with a later \
             default ancestor and {} with another child; one child has up to {} of them",
            self.with_first, self.with_later_default, self.with_ancestor, self.most_of_one_child
        )
    }
}
