//! Trees with at most two children a node, as TreeTeX admits: their shapes, the Fibonacci trees of
//! document 003, every small one, and trees that have too many children by one.

use crate::random::Random;
use crate::shapes::{self, binary, chain, comb, contour_family, Growing, Kind, Shape};
use crate::table::children_of;

/// Trees with at most two children a node.
pub const BINARY: Kind = Kind {
    shapes: &SHAPES,
    families: &[
        ("contours", contour_family),
        ("fibonacci", fibonacci),
        ("brothers", brothers),
    ],
};

const SHAPES: [Shape; 12] = [
    Shape {
        name: "chain",
        make: |nodes, _| chain(nodes),
    },
    Shape {
        name: "binary",
        make: |nodes, _| binary(nodes),
    },
    Shape {
        name: "left-comb",
        make: |nodes, _| left_comb(nodes),
    },
    Shape {
        name: "right-comb",
        make: |nodes, _| right_comb(nodes),
    },
    Shape {
        name: "zigzag",
        make: |nodes, _| path_with_leaves(nodes, |step| step % 2 == 0),
    },
    Shape {
        name: "facing",
        make: |nodes, _| facing(nodes),
    },
    Shape {
        name: "comb",
        make: |nodes, _| comb(nodes),
    },
    Shape {
        name: "deep",
        make: deep,
    },
    Shape {
        name: "random",
        make: random,
    },
    Shape {
        name: "extended",
        make: extended,
    },
    Shape {
        name: "divided",
        make: divided,
    },
    Shape {
        name: "hung",
        make: hung,
    },
];

/// A path, each of its nodes with a leaf, which comes first at the steps that `leaf_first` says.
fn path_with_leaves(nodes: usize, leaf_first: fn(usize) -> bool) -> Vec<u16> {
    let mut tree = Growing::root();
    let (mut path, mut step) = (0, 0);
    while tree.nodes() + 2 <= nodes {
        let pair = [tree.add(path), tree.add(path)];
        path = pair[usize::from(leaf_first(step))];
        step += 1;
    }
    if tree.nodes() < nodes {
        tree.add(path);
    }
    tree.table()
}

/// A path along the left side, its leaves to the right.
fn left_comb(nodes: usize) -> Vec<u16> {
    path_with_leaves(nodes, |_| false)
}

/// A path along the right side, its leaves to the left.
fn right_comb(nodes: usize) -> Vec<u16> {
    path_with_leaves(nodes, |_| true)
}

/// A right comb beside a left comb: the two meet on every level.
fn facing(nodes: usize) -> Vec<u16> {
    let mut tree = Growing::root();
    let right = (nodes - 1) / 2;
    let left = nodes - 1 - right;
    if left > 0 {
        tree.add_tree(0, &right_comb(left));
    }
    if right > 0 {
        tree.add_tree(0, &left_comb(right));
    }
    tree.table()
}

/// Each node hangs under one of the latest few that has room.
fn deep(nodes: usize, random: &mut Random) -> Vec<u16> {
    grown(nodes, random, |latest, random| {
        latest - random.between(0, latest.min(5))
    })
}

/// Each node hangs under any earlier one that has room.
fn random(nodes: usize, random: &mut Random) -> Vec<u16> {
    grown(nodes, random, |latest, random| random.between(0, latest))
}

/// Each node hangs under one that `pick` gives, on either side of its sibling.
fn grown(nodes: usize, random: &mut Random, pick: fn(usize, &mut Random) -> usize) -> Vec<u16> {
    let mut tree = Growing::root();
    while tree.nodes() < nodes {
        let parent = pick(tree.nodes() - 1, random);
        if tree.children[parent].len() < 2 {
            tree.add_somewhere(parent, random);
        }
    }
    tree.table()
}

/// Two children or none at each node, under a root with one child if the count is even.
fn extended(nodes: usize, random: &mut Random) -> Vec<u16> {
    let mut tree = Growing::root();
    let mut leaves = vec![0];
    if nodes.is_multiple_of(2) {
        leaves = vec![tree.add(0)];
    }
    while tree.nodes() < nodes {
        let leaf = leaves.swap_remove(random.below(leaves.len()));
        leaves.extend([tree.add(leaf), tree.add(leaf)]);
    }
    tree.table()
}

/// Below each node there are one or two children, who have what is left in any parts.
fn divided(nodes: usize, random: &mut Random) -> Vec<u16> {
    let mut tree = Growing::root();
    let mut open = vec![(0, nodes - 1)];
    while let Some((node, below)) = open.pop() {
        let first = match random.once_in(4) {
            true => below,
            false => random.between(0, below),
        };
        for part in [first, below - first] {
            if part > 0 {
                open.push((tree.add(node), part - 1));
            }
        }
    }
    tree.table()
}

/// A path with a tree of another shape on either side of each of its nodes, or none.
fn hung(nodes: usize, random: &mut Random) -> Vec<u16> {
    let mut tree = Growing::root();
    let mut path = 0;
    while tree.nodes() < nodes {
        let room = nodes - tree.nodes() - 1;
        if room == 0 || random.once_in(4) {
            path = tree.add(path);
            continue;
        }
        let size = random.between(1, room.min(2 * nodes.isqrt()));
        // The last shape is this one: it is left out.
        let shape = &SHAPES[random.below(SHAPES.len() - 1)];
        let other = (shape.make)(size, random);
        let parent = path;
        if random.once_in(2) {
            tree.add_tree(parent, &other);
            path = tree.add(parent);
        } else {
            path = tree.add(parent);
            tree.add_tree(parent, &other);
        }
    }
    tree.table()
}

/// The Fibonacci tree of this height: over those of the two heights below it, the lesser one first.
fn fibonacci(height: usize) -> Vec<u16> {
    let mut tree = Growing::root();
    add_fibonacci(&mut tree, 0, height, false);
    tree.table()
}

/// The same with one more node over each lesser one, so that siblings are equally deep.
fn brothers(height: usize) -> Vec<u16> {
    let mut tree = Growing::root();
    add_fibonacci(&mut tree, 0, height, true);
    tree.table()
}

/// What is below the root of such a tree.
fn add_fibonacci(tree: &mut Growing, root: usize, height: usize, brothers: bool) {
    if height == 0 {
        return;
    }
    let mut lesser = tree.add(root);
    if brothers && height > 1 {
        lesser = tree.add(lesser);
    }
    add_fibonacci(tree, lesser, height.saturating_sub(2), brothers);
    let greater = tree.add(root);
    add_fibonacci(tree, greater, height - 1, brothers);
}

/// Every tree of so many nodes with at most two children a node, numbered as by Renumber.
pub fn every_tree(nodes: usize) -> Vec<Vec<u16>> {
    let mut trees = shapes::every_tree(nodes);
    trees.retain(|table| most_children(table) <= 2);
    trees
}

/// The most children of a node.
pub fn most_children(table: &[u16]) -> usize {
    let children = children_of(table);
    children.iter().map(Vec::len).max().unwrap_or(0)
}

/// The same tree with leaves added, each at any place among its siblings, until one of the nodes
/// that have two children has so many.
pub fn crowded(table: &[u16], most: usize, random: &mut Random) -> Vec<u16> {
    let mut tree = Growing {
        children: children_of(table),
    };
    let pairs: Vec<usize> = (0..tree.nodes())
        .filter(|&node| tree.children[node].len() == 2)
        .collect();
    let parent = pairs[random.below(pairs.len())];
    while tree.children[parent].len() < most {
        tree.add_somewhere(parent, random);
    }
    tree.table()
}

#[cfg(test)]
mod tests {
    use super::*;
    use crate::shapes::{largest, table_of_levels};
    use crate::table::refusal;

    #[test]
    fn no_node_has_three_children() {
        let mut random = Random::new(13);
        for table in BINARY.of_many_sizes(40, 10, 5, &mut random) {
            assert!(most_children(&table) <= 2, "{table:?}");
        }
    }

    #[test]
    fn sizes_of_the_families() {
        for (family, sizes) in [
            (fibonacci as shapes::Family, [3, 5, 9, 15, 25, 41]),
            (brothers, [3, 6, 11, 19, 32, 53]),
        ] {
            for (nodes, height) in sizes.into_iter().zip(1..) {
                let table = family(height);
                assert_eq!((table.len(), refusal(&table)), (2 * nodes, 0));
                assert_eq!(most_children(&table), 2);
            }
        }
        assert_eq!(fibonacci(2), table_of_levels(&[0, 1, 1, 2, 2]));
        assert_eq!(brothers(2), table_of_levels(&[0, 1, 2, 1, 2, 2]));
        assert_eq!(largest(fibonacci, 1_024).len() / 2, 753);
        assert_eq!(largest(brothers, 1_024).len() / 2, 985);
    }

    #[test]
    fn counts_of_all_small_trees() {
        // Motzkin's numbers.
        for (count, nodes) in [1, 1, 2, 4, 9, 21, 51, 127, 323].into_iter().zip(1..) {
            assert_eq!(every_tree(nodes).len(), count);
        }
    }

    #[test]
    fn crowded_trees_have_one_node_of_so_many_children() {
        let mut random = Random::new(3);
        for nodes in 3..60 {
            for most in 3..6 {
                let table = crowded(&binary(nodes), most, &mut random);
                assert_eq!(refusal(&table), 0);
                let children = children_of(&table);
                let counts: Vec<usize> = children.iter().map(Vec::len).collect();
                assert_eq!(counts.iter().filter(|count| **count == most).count(), 1);
                assert_eq!(counts.iter().filter(|count| **count > 2).count(), 1);
            }
        }
    }
}
