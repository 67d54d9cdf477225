//! The published linear method with pointers between nodes, in whole units: the speed baseline.
//!
//! The names are those of document 004: a preliminary place, a modifier for everything below a
//! node, threads along the contours, shift and change for the go-betweens, ancestor and default
//! ancestor. Whole units change one step: a share is rounded down, and of what remains of a shift
//! the rightmost gaps take one unit each. The walks go along parent links instead of calling
//! themselves, so that depth costs no stack. The table is taken as well-formed. With an extra space,
//! as for TreeTeX, no node may have more than two children.

use crate::table::NONE;

#[derive(Clone, Copy)]
struct Node {
    prelim: i32,
    modifier: i32,
    shift: i32,
    change: i32,
    half_width: i32,
    parent: u16,
    first_child: u16,
    last_child: u16,
    left_sibling: u16,
    next_sibling: u16,
    /// Its place in the list of families.
    number: u16,
    thread: u16,
    ancestor: u16,
    /// The default ancestor among its children.
    default_ancestor: u16,
}

const FRESH: Node = Node {
    prelim: 0,
    modifier: 0,
    shift: 0,
    change: 0,
    half_width: 0,
    parent: NONE,
    first_child: NONE,
    last_child: NONE,
    left_sibling: NONE,
    next_sibling: NONE,
    number: 0,
    thread: NONE,
    ancestor: NONE,
    default_ancestor: NONE,
};

/// What a layout reports besides its slices.
#[derive(Clone, Copy, Debug, PartialEq, Eq)]
pub struct Extent {
    pub level_count: u16,
    pub least: i32,
    pub greatest: i32,
    pub pairs: u16,
}

/// The nodes of one tree, kept so that one layout after another needs no new memory.
pub struct Pointers {
    /// What is added at a significant node.
    pub extra: u16,
    nodes: Vec<Node>,
    /// All nodes but the root, siblings side by side. It leads from a child to the one so many
    /// places to its left in one step; along the links a conflict would cost as many steps.
    families: Vec<u16>,
}

/// The layout of one tree under way.
struct Walk<'a, const RECORD: bool> {
    nodes: &'a mut [Node],
    families: &'a [u16],
    separation: i32,
    extra: i32,
    record: &'a mut [u16],
    pairs: usize,
}

impl Pointers {
    /// With no extra space.
    pub fn new(most_nodes: usize) -> Self {
        Pointers {
            extra: 0,
            nodes: vec![FRESH; most_nodes],
            families: vec![NONE; most_nodes],
        }
    }

    /// Writes places and levels by node number and, with `RECORD`, the pairs in the order in which
    /// the walk measures them.
    pub fn lay_out<const RECORD: bool>(
        &mut self,
        table: &[u16],
        separation: u16,
        half_widths: &[u16],
        places: &mut [i32],
        levels: &mut [u16],
        record: &mut [u16],
    ) -> Extent {
        let count = table.len() / 2;
        let nodes = &mut self.nodes[..count];
        let families = &mut self.families[..count];
        link(nodes, families, table, half_widths);
        let mut walk: Walk<RECORD> = Walk {
            nodes,
            families,
            separation: i32::from(separation),
            extra: i32::from(self.extra),
            record,
            pairs: 0,
        };
        walk.first_walk();
        walk.second_walk(&mut places[..count], &mut levels[..count])
    }
}

/// Fresh nodes with the links that the table gives, and the list of families.
fn link(nodes: &mut [Node], families: &mut [u16], table: &[u16], half_widths: &[u16]) {
    let rows = table.chunks_exact(2).zip(half_widths);
    for (node, (links, (entries, half_width))) in nodes.iter_mut().zip(rows).enumerate() {
        *links = Node {
            half_width: i32::from(*half_width),
            first_child: entries[0],
            next_sibling: entries[1],
            ancestor: node as u16,
            default_ancestor: entries[0],
            ..FRESH
        };
    }
    let mut number = 0;
    for parent in 0..nodes.len() {
        let mut elder = NONE;
        let mut child = nodes[parent].first_child;
        while child != NONE {
            let links = &mut nodes[usize::from(child)];
            links.parent = parent as u16;
            links.left_sibling = elder;
            links.number = number;
            families[usize::from(number)] = child;
            number += 1;
            elder = child;
            child = links.next_sibling;
        }
        nodes[parent].last_child = elder;
    }
}

impl<const RECORD: bool> Walk<'_, RECORD> {
    #[inline(always)]
    fn at(&self, node: u16) -> &Node {
        &self.nodes[usize::from(node)]
    }

    #[inline(always)]
    fn at_mut(&mut self, node: u16) -> &mut Node {
        &mut self.nodes[usize::from(node)]
    }

    #[inline(always)]
    fn next_left(&self, node: u16) -> u16 {
        let node = self.at(node);
        if node.first_child != NONE {
            node.first_child
        } else {
            node.thread
        }
    }

    #[inline(always)]
    fn next_right(&self, node: u16) -> u16 {
        let node = self.at(node);
        if node.last_child != NONE {
            node.last_child
        } else {
            node.thread
        }
    }

    /// The distance that two neighbours need.
    #[inline(always)]
    fn needed(&self, left: u16, right: u16) -> i32 {
        self.separation + self.at(left).half_width + self.at(right).half_width
    }

    #[inline(always)]
    fn measure(&mut self, left: u16, right: u16) {
        if RECORD {
            self.record[2 * self.pairs] = left;
            self.record[2 * self.pairs + 1] = right;
            self.pairs += 1;
        }
    }

    /// Preliminary places and modifiers, children before their parents.
    fn first_walk(&mut self) {
        let mut node = 0;
        loop {
            while self.at(node).first_child != NONE {
                node = self.at(node).first_child;
            }
            // A leaf stands at 0 or beside its elder sibling.
            let elder = self.at(node).left_sibling;
            if elder != NONE {
                self.at_mut(node).prelim = self.at(elder).prelim + self.needed(elder, node);
            }
            // Up from each last child to its parent, which is then complete.
            loop {
                let parent = self.at(node).parent;
                if parent == NONE {
                    return;
                }
                self.apportion(node, parent);
                let next = self.at(node).next_sibling;
                if next != NONE {
                    node = next;
                    break;
                }
                self.execute_shifts(parent);
                self.centre(parent);
                node = parent;
            }
        }
    }

    /// A parent stands halfway between its first and last child, or beside its elder sibling with
    /// everything below it moved along.
    fn centre(&mut self, parent: u16) {
        let Node {
            first_child,
            last_child,
            left_sibling,
            ..
        } = *self.at(parent);
        let first = self.at(first_child).prelim;
        let last = self.at(last_child).prelim;
        let middle = first + (last - first) / 2;
        if left_sibling == NONE {
            self.at_mut(parent).prelim = middle;
        } else {
            let place = self.at(left_sibling).prelim + self.needed(left_sibling, parent);
            let node = self.at_mut(parent);
            node.prelim = place;
            node.modifier = place - middle;
        }
    }

    /// Walks down the inner contours of a new subtree and the forest to its left, moves the
    /// subtree where it comes too close, and then once by the extra space if it ever did, and
    /// threads the shallower outer contour to the deeper.
    fn apportion(&mut self, subtree: u16, parent: u16) {
        let elder = self.at(subtree).left_sibling;
        if elder == NONE {
            return;
        }
        self.measure(elder, subtree);
        let mut inside_right = subtree;
        let mut outside_right = subtree;
        let mut inside_left = elder;
        let mut outside_left = self.at(parent).first_child;
        let mut inside_right_sum = self.at(inside_right).modifier;
        let mut outside_right_sum = inside_right_sum;
        let mut inside_left_sum = self.at(inside_left).modifier;
        let mut outside_left_sum = self.at(outside_left).modifier;
        let mut left_below = self.next_right(inside_left);
        let mut right_below = self.next_left(inside_right);
        let mut significant = false;
        while left_below != NONE && right_below != NONE {
            inside_left = left_below;
            inside_right = right_below;
            outside_left = self.next_left(outside_left);
            outside_right = self.next_right(outside_right);
            self.at_mut(outside_right).ancestor = subtree;
            self.measure(inside_left, inside_right);
            let shift = (self.at(inside_left).prelim + inside_left_sum)
                - (self.at(inside_right).prelim + inside_right_sum)
                + self.needed(inside_left, inside_right);
            if shift > 0 {
                let ancestor = self.ancestor(inside_left, parent);
                self.move_subtree(ancestor, subtree, shift);
                inside_right_sum += shift;
                outside_right_sum += shift;
                significant = true;
            }
            inside_left_sum += self.at(inside_left).modifier;
            inside_right_sum += self.at(inside_right).modifier;
            outside_left_sum += self.at(outside_left).modifier;
            outside_right_sum += self.at(outside_right).modifier;
            left_below = self.next_right(inside_left);
            right_below = self.next_left(inside_right);
        }
        if significant && self.extra > 0 {
            self.move_subtree(elder, subtree, self.extra);
            inside_right_sum += self.extra;
            outside_right_sum += self.extra;
        }
        if left_below != NONE && self.next_right(outside_right) == NONE {
            let leaf = self.at_mut(outside_right);
            leaf.thread = left_below;
            leaf.modifier += inside_left_sum - outside_right_sum;
        }
        if right_below != NONE && self.next_left(outside_left) == NONE {
            let leaf = self.at_mut(outside_left);
            leaf.thread = right_below;
            leaf.modifier += inside_right_sum - outside_left_sum;
            self.at_mut(parent).default_ancestor = subtree;
        }
    }

    /// The child of `parent` to which a node of the forest's right contour belongs.
    #[inline(always)]
    fn ancestor(&self, node: u16, parent: u16) -> u16 {
        let ancestor = self.at(node).ancestor;
        if self.at(ancestor).parent == parent {
            ancestor
        } else {
            self.at(parent).default_ancestor
        }
    }

    /// Moves a subtree at once and notes the shares of the siblings between. To the left of it they
    /// fall from gap to gap, first by one unit more, as many times as the remainder says.
    fn move_subtree(&mut self, left: u16, subtree: u16, shift: i32) {
        let number = self.at(subtree).number;
        let gaps = i32::from(number - self.at(left).number);
        let share = shift / gaps;
        let remainder = shift % gaps;
        self.at_mut(left).change += share;
        // Without the case the sums would be the same, but slower where neighbours conflict.
        if remainder > 0 {
            let odd_units_end = self.families[usize::from(number) - remainder as usize];
            self.at_mut(odd_units_end).change += 1;
            self.at_mut(subtree).change -= 1;
        }
        let moved = self.at_mut(subtree);
        moved.change -= share;
        moved.shift += shift;
        moved.prelim += shift;
        moved.modifier += shift;
    }

    /// Gives the children of a node their shares, from right to left.
    fn execute_shifts(&mut self, parent: u16) {
        let mut shift = 0;
        let mut change = 0;
        let mut child = self.at(parent).last_child;
        while child != NONE {
            let moved = self.at_mut(child);
            moved.prelim += shift;
            moved.modifier += shift;
            change += moved.change;
            shift += moved.shift + change;
            child = moved.left_sibling;
        }
    }

    /// Adds the modifiers up, parents before their children, with the root at 0.
    fn second_walk(&mut self, places: &mut [i32], levels: &mut [u16]) -> Extent {
        let mut modifier_sum = -self.at(0).prelim;
        let mut extent = Extent {
            level_count: 0,
            least: 0,
            greatest: 0,
            pairs: self.pairs as u16,
        };
        let mut level = 0;
        let mut node = 0;
        loop {
            let here = self.at(node);
            let place = here.prelim + modifier_sum;
            places[usize::from(node)] = place;
            levels[usize::from(node)] = level;
            extent.least = extent.least.min(place);
            extent.greatest = extent.greatest.max(place);
            extent.level_count = extent.level_count.max(level + 1);
            if here.first_child != NONE {
                modifier_sum += here.modifier;
                level += 1;
                node = here.first_child;
                continue;
            }
            while self.at(node).next_sibling == NONE {
                node = self.at(node).parent;
                if node == NONE {
                    return extent;
                }
                modifier_sum -= self.at(node).modifier;
                level -= 1;
            }
            node = self.at(node).next_sibling;
        }
    }
}

#[cfg(test)]
mod tests {
    use super::*;
    use crate::binary_shapes::{self, BINARY};
    use crate::conflicts::Tally;
    use crate::half_widths::{self, of_any_kind};
    use crate::layout::{layout_under, Given, Slices};
    use crate::random::Random;
    use crate::shapes;
    use crate::treetex::Profile;

    /// Holds the baseline against the literal layout in every figure, with half-widths 0.
    fn compare(pointers: &mut Pointers, table: &[u16], separation: u16) {
        compare_wide(pointers, table, separation, &vec![0; table.len() / 2]);
    }

    /// The same with any half-widths.
    fn compare_wide(pointers: &mut Pointers, table: &[u16], separation: u16, half_widths: &[u16]) {
        let nodes = table.len() / 2;
        let given = Given {
            profile: match pointers.extra {
                0 => Profile::Plain,
                extra => Profile::TreeTex { extra },
            },
            ..Given::plain(table, separation, half_widths)
        };
        let mut places = vec![7; nodes];
        let mut levels = vec![7; nodes];
        let mut record = vec![7; 2 * nodes];
        let literal = layout_under(
            &given,
            &Slices {
                places: &places,
                levels: &levels,
                record: &record,
                work: &vec![0; 16 * nodes],
            },
        );
        let extent = pointers.lay_out::<true>(
            table,
            separation,
            half_widths,
            &mut places,
            &mut levels,
            &mut record,
        );
        assert_eq!(literal.number, 0);
        assert_eq!(places, literal.places, "D = {separation}, {table:?}");
        assert_eq!(levels, literal.levels);
        // Sorted by level and place, its pairs are the record.
        let place_of = |node: u16| (levels[usize::from(node)], places[usize::from(node)]);
        let mut pairs: Vec<[u16; 2]> = record[..2 * usize::from(extent.pairs)]
            .chunks_exact(2)
            .map(|pair| [pair[0], pair[1]])
            .collect();
        pairs.sort_unstable_by_key(|pair| place_of(pair[0]));
        assert_eq!(
            pairs.concat(),
            literal.record[..2 * usize::from(literal.pairs)]
        );
        assert_eq!(
            extent,
            Extent {
                level_count: literal.level_count,
                least: literal.least,
                greatest: literal.greatest,
                pairs: literal.pairs,
            }
        );
        let mut plain_places = vec![0; nodes];
        pointers.lay_out::<false>(
            table,
            separation,
            half_widths,
            &mut plain_places,
            &mut levels,
            &mut [],
        );
        assert_eq!(plain_places, places);
    }

    #[test]
    fn agrees_on_every_small_tree() {
        let mut random = Random::new(19);
        let mut pointers = Pointers::new(8);
        for nodes in 1..=8 {
            for table in shapes::every_tree(nodes) {
                for separation in [1, 2, 3, 5, 1_024] {
                    compare(&mut pointers, &table, separation);
                    let half_widths = half_widths::some_of(&[0, 1, 256], nodes, &mut random);
                    compare_wide(&mut pointers, &table, separation, &half_widths);
                }
            }
        }
    }

    #[test]
    fn agrees_on_trees_of_nine_nodes() {
        let mut pointers = Pointers::new(9);
        for table in shapes::every_tree(9) {
            for separation in [1, 2, 3] {
                compare(&mut pointers, &table, separation);
            }
        }
    }

    #[test]
    fn agrees_on_random_trees() {
        let mut random = Random::new(17);
        let mut pointers = Pointers::new(1_024);
        for shape in &shapes::SHAPES {
            let small = (0..400).map(|_| 80);
            for most_nodes in small.chain([300; 12]).chain([1_024; 4]) {
                let nodes = random.between(1, most_nodes);
                let table = (shape.make)(nodes, &mut random);
                let table = shapes::renumbered_at_random(&table, &mut random);
                let separation = match random.below(3) {
                    0 => random.between(1, 6),
                    1 => random.between(1, 1_024),
                    _ => [1, 2, 3, 5, 1_023, 1_024][random.below(6)],
                };
                let half_widths = of_any_kind(nodes, &mut random);
                compare_wide(&mut pointers, &table, separation as u16, &half_widths);
            }
        }
    }

    #[test]
    fn agrees_on_the_families_of_document_004() {
        let mut pointers = Pointers::new(1_024);
        for family in [shapes::contour_family, shapes::share_family] {
            for k in (1..8).chain([12, 16]) {
                for separation in [1, 2, 3, 1_024] {
                    compare(&mut pointers, &family(k), separation);
                }
            }
            compare(&mut pointers, &shapes::largest(family, 1_024), 5);
        }
    }

    #[test]
    fn agrees_under_an_extra_space() {
        let mut random = Random::new(37);
        let mut pointers = Pointers::new(1_024);
        let small = (1..=9).flat_map(binary_shapes::every_tree);
        let tables: Vec<_> = small
            .chain(BINARY.of_many_sizes(20, 10, 1, &mut random))
            .collect();
        for extra in [1, 2, 7, 1_024] {
            pointers.extra = extra;
            for table in &tables {
                let separation = [1, 2, 5, 1_024][random.below(4)];
                compare(&mut pointers, table, separation);
                let half_widths = of_any_kind(table.len() / 2, &mut random);
                compare_wide(&mut pointers, table, separation, &half_widths);
            }
        }
    }

    #[test]
    fn agrees_on_trees_made_for_their_conflicts() {
        let mut random = Random::new(41);
        let mut pointers = Pointers::new(1_024);
        let mut tally = Tally::default();
        for (_, trees) in shapes::made_for_conflicts(&mut random) {
            for (table, separation) in trees {
                let none = vec![0; table.len() / 2];
                compare_wide(&mut pointers, &table, separation, &none);
                tally.add(&table, separation, &none);
                let half_widths = of_any_kind(none.len(), &mut random);
                compare_wide(&mut pointers, &table, separation, &half_widths);
            }
        }
        tally.expect_every_kind();
    }
}
