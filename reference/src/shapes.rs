//! Makers of tables: shapes of trees, the families of document 004, trees made for their conflicts,
//! every small tree, tables that are refused, and what is done to a table to make another.
//!
//! A maker of a shape gives exactly as many nodes as it is asked for, at least one.

use crate::random::Random;
use crate::table::{
    children_of, parents_first, reached_from, table_of, Children, MOST_NODES, NONE,
};

/// A named maker of trees of a given size.
pub struct Shape {
    pub name: &'static str,
    pub make: fn(usize, &mut Random) -> Vec<u16>,
}

/// A tree for each number from 1, the larger the greater it is.
pub type Family = fn(usize) -> Vec<u16>;

/// Trees of one kind: their shapes, and families of them, by name.
pub struct Kind {
    pub shapes: &'static [Shape],
    pub families: &'static [(&'static str, Family)],
}

/// Trees of any kind.
pub const ANY: Kind = Kind {
    shapes: &SHAPES,
    families: &[("contours", contour_family), ("shares", share_family)],
};

/// The shapes of every comparison.
pub const SHAPES: [Shape; 10] = [
    Shape {
        name: "chain",
        make: |nodes, _| chain(nodes),
    },
    Shape {
        name: "star",
        make: |nodes, _| star(nodes),
    },
    Shape {
        name: "binary",
        make: |nodes, _| binary(nodes),
    },
    Shape {
        name: "broad",
        make: broad,
    },
    Shape {
        name: "deep",
        make: deep,
    },
    Shape {
        name: "caterpillar",
        make: caterpillar,
    },
    Shape {
        name: "comb",
        make: |nodes, _| comb(nodes),
    },
    Shape {
        name: "random",
        make: random,
    },
    Shape {
        name: "uniform",
        make: uniform,
    },
    Shape {
        name: "mixed",
        make: mixed,
    },
];

/// Picks one of a row of siblings.
type Pick = fn(&[usize]) -> Option<&usize>;

/// A tree that grows by one leaf at a time.
#[derive(Clone)]
pub(crate) struct Growing {
    pub(crate) children: Children,
}

impl Growing {
    pub(crate) fn root() -> Self {
        Growing {
            children: vec![vec![]],
        }
    }

    pub(crate) fn nodes(&self) -> usize {
        self.children.len()
    }

    /// A new last child.
    pub(crate) fn add(&mut self, parent: usize) -> usize {
        self.add_at(parent, self.children[parent].len())
    }

    /// A new child with `place` elder siblings.
    fn add_at(&mut self, parent: usize, place: usize) -> usize {
        let node = self.nodes();
        self.children.push(vec![]);
        self.children[parent].insert(place, node);
        node
    }

    /// A new child with some number of elder siblings.
    pub(crate) fn add_somewhere(&mut self, parent: usize, random: &mut Random) -> usize {
        let place = random.between(0, self.children[parent].len());
        self.add_at(parent, place)
    }

    /// A chain of new nodes under `parent`, its first node the new last child.
    fn add_chain(&mut self, parent: usize, length: usize) {
        let mut end = parent;
        for _ in 0..length {
            end = self.add(end);
        }
    }

    /// So many leaves after the other children.
    fn add_leaves(&mut self, parent: usize, count: usize) {
        for _ in 0..count {
            self.add(parent);
        }
    }

    /// A new last child over rows of so many siblings, each row under the one of those above that
    /// `parent_of` picks.
    fn add_rows(&mut self, parent: usize, rows: &[usize], parent_of: Pick) {
        let mut above = self.add(parent);
        for &count in rows {
            self.add_leaves(above, count);
            above = *parent_of(&self.children[above]).expect("a row has nodes");
        }
    }

    /// A new last child with up to two nodes under it, on at most so many levels.
    fn add_small(&mut self, parent: usize, most_levels: usize, random: &mut Random) {
        const ROWS: [&[usize]; 6] = [&[], &[], &[], &[1], &[2], &[1, 1]];
        let rows = ROWS[random.below(ROWS.len())];
        self.add_rows(parent, &rows[..rows.len().min(most_levels)], <[_]>::last);
    }

    /// A path of so many nodes under the root, each among up to four leaves. Gives its end.
    fn add_path(&mut self, length: usize, random: &mut Random) -> usize {
        let mut path = 0;
        for _ in 0..length {
            self.add_leaves(path, random.between(0, 2));
            let next = self.add(path);
            self.add_leaves(path, random.between(0, 2));
            path = next;
        }
        path
    }

    /// A new last child with the subtrees of another tree's root.
    pub(crate) fn add_tree(&mut self, parent: usize, table: &[u16]) {
        let children = children_of(table);
        let mut numbers = vec![0; children.len()];
        numbers[0] = self.add(parent);
        for node in parents_first(&children) {
            for &child in &children[node] {
                numbers[child] = self.add(numbers[node]);
            }
        }
    }

    pub(crate) fn table(&self) -> Vec<u16> {
        table_of(&self.children)
    }
}

/// One child each.
pub fn chain(nodes: usize) -> Vec<u16> {
    let mut tree = Growing::root();
    tree.add_chain(0, nodes - 1);
    tree.table()
}

/// All others are the root's children.
pub fn star(nodes: usize) -> Vec<u16> {
    let mut tree = Growing::root();
    for _ in 1..nodes {
        tree.add(0);
    }
    tree.table()
}

/// Two children each, filled level by level.
pub fn binary(nodes: usize) -> Vec<u16> {
    let mut tree = Growing::root();
    for node in 1..nodes {
        tree.add((node - 1) / 2);
    }
    tree.table()
}

/// Families of 4 to 40, filled level by level.
pub fn broad(nodes: usize, random: &mut Random) -> Vec<u16> {
    let mut tree = Growing::root();
    for parent in 0.. {
        for _ in 0..random.between(4, 40) {
            if tree.nodes() == nodes {
                return tree.table();
            }
            tree.add(parent);
        }
    }
    unreachable!("every family adds a node")
}

/// Each node hangs under one of the latest few.
pub fn deep(nodes: usize, random: &mut Random) -> Vec<u16> {
    let mut tree = Growing::root();
    while tree.nodes() < nodes {
        let latest = tree.nodes() - 1;
        let parent = latest - random.between(0, latest.min(3));
        tree.add_somewhere(parent, random);
    }
    tree.table()
}

/// A path with up to three leaves on each side of each of its nodes.
pub fn caterpillar(nodes: usize, random: &mut Random) -> Vec<u16> {
    let mut tree = Growing::root();
    let mut path = 0;
    while tree.nodes() < nodes {
        let (left, right) = (random.between(0, 3), random.between(0, 3));
        let room = nodes - tree.nodes();
        for _ in 0..left.min(room - 1) {
            tree.add(path);
        }
        let next = tree.add(path);
        for _ in 0..right.min(nodes - tree.nodes()) {
            tree.add(path);
        }
        path = next;
    }
    tree.table()
}

/// A path along the right side, each of its nodes with a chain of one length to the left.
pub fn comb(nodes: usize) -> Vec<u16> {
    let length = nodes.isqrt();
    let mut tree = Growing::root();
    let mut path = 0;
    while tree.nodes() < nodes {
        let room = nodes - tree.nodes();
        tree.add_chain(path, length.min(room - 1));
        path = tree.add(path);
    }
    tree.table()
}

/// Each node hangs under any earlier one, at any place among its siblings.
pub fn random(nodes: usize, random: &mut Random) -> Vec<u16> {
    let mut tree = Growing::root();
    while tree.nodes() < nodes {
        let parent = random.below(tree.nodes());
        tree.add_somewhere(parent, random);
    }
    tree.table()
}

/// Each ordered tree of this size equally likely. A tree is a walk of steps down, one for each
/// node, and up between them; of all rotations of a shuffled list of such steps exactly one never
/// comes back up to where it started.
pub fn uniform(nodes: usize, random: &mut Random) -> Vec<u16> {
    let mut steps: Vec<i32> = (0..2 * nodes - 1)
        .map(|step| if step < nodes { 1 } else { -1 })
        .collect();
    random.shuffle(&mut steps);
    // It starts where the shuffled walk was least deep, for the last time.
    let (mut depth, mut least_depth, mut start) = (0, 0, 0);
    for (step, &change) in steps.iter().enumerate() {
        depth += change;
        if depth <= least_depth {
            least_depth = depth;
            start = step + 1;
        }
    }
    steps.rotate_left(start);
    // The first step down is the root itself.
    let mut tree = Growing::root();
    let mut path = vec![0];
    for &change in &steps[1..] {
        if change == 1 {
            let node = tree.add(path[path.len() - 1]);
            path.push(node);
        } else {
            path.pop();
        }
    }
    tree.table()
}

/// A root over several subtrees of other shapes, with leaves between them: many conflicts.
pub fn mixed(nodes: usize, random: &mut Random) -> Vec<u16> {
    let mut tree = Growing::root();
    while tree.nodes() < nodes {
        let room = nodes - tree.nodes();
        let size = match random.below(4) {
            0 => 1,
            1 => random.between(1, room.min(8)),
            _ => random.between(1, room.div_ceil(2)),
        };
        // The last shape is this one: it is left out.
        let shape = &SHAPES[random.below(SHAPES.len() - 1)];
        tree.add_tree(0, &(shape.make)(size, random));
    }
    tree.table()
}

/// The first family of document 004, section 4: a chain of 2k nodes down the right, whose first k
/// nodes each have a chain to the left that reaches nearly as deep. It has k² + 2k nodes.
pub fn contour_family(k: usize) -> Vec<u16> {
    let mut tree = Growing::root();
    let mut path = 0;
    for i in 1..2 * k {
        if i <= k {
            tree.add_chain(path, 2 * (k - i) + 1);
        }
        path = tree.add(path);
    }
    tree.table()
}

/// The second family: k chains of 1 to k nodes under the root, k leaves between each two of them,
/// and under the first a wide tree with which each later chain conflicts on its last level.
pub fn share_family(k: usize) -> Vec<u16> {
    let mut tree = Growing::root();
    let mut wide = tree.add(0);
    for length in 2..=k {
        for _ in 0..k {
            tree.add(0);
        }
        tree.add_chain(0, length);
    }
    for _ in 1..k {
        let parent = wide;
        for _ in 0..2 * k + 5 {
            wide = tree.add(parent);
        }
    }
    tree.table()
}

/// The member of a family with the greatest k that has at most `most_nodes` nodes.
pub fn largest(family: Family, most_nodes: usize) -> Vec<u16> {
    (1..)
        .map(family)
        .take_while(|table| table.len() <= 2 * most_nodes)
        .last()
        .expect("the member of k = 1 fits")
}

/// Trees with a separation each.
pub type Spaced = Vec<(Vec<u16>, u16)>;

/// Trees made for their conflicts, by what these are.
pub fn made_for_conflicts(random: &mut Random) -> [(&'static str, Spaced); 3] {
    [
        ("conflicts with every remainder", every_remainder(random)),
        (
            "several conflicts of one child",
            families_at_random(add_falling, random),
        ),
        (
            "conflicts with default ancestors",
            families_at_random(add_rising, random),
        ),
    ]
}

/// The most gaps of a conflict of which every remainder is made.
pub const MOST_GAPS: usize = 40;

/// For each count of gaps and each remainder conflicts of less and of more than one unit a gap:
/// with the first child and with a later one, under the root and further down.
fn every_remainder(random: &mut Random) -> Spaced {
    let mut trees = Vec::new();
    for gaps in 1..=MOST_GAPS {
        for remainder in 0..gaps {
            let share = random.between(1, (1_024 - remainder) / gaps);
            for separation in [remainder, gaps * share + remainder] {
                let (elder, depth) = (random.between(1, 4), random.between(1, 4));
                for (elder, depth) in [(0, 0), (elder, 0), (0, depth), (elder, depth)] {
                    let table = one_conflict(gaps, elder, depth, random);
                    trees.push((table, separation as u16));
                }
            }
        }
    }
    trees.retain(|&(_, separation)| separation > 0);
    trees
}

/// A family so many levels down, in which two children so many gaps apart meet with s = D, since
/// their rows reach as far towards each other as these gaps. Leaves stand between the two, and so
/// many small subtrees before them.
fn one_conflict(gaps: usize, elder: usize, depth: usize, random: &mut Random) -> Vec<u16> {
    let mut tree = Growing::root();
    let parent = tree.add_path(depth, random);
    for _ in 0..elder {
        tree.add_small(parent, 2, random);
    }
    let reach = random.between(0, gaps);
    tree.add_rows(parent, &row_on(1, reach), <[_]>::last);
    tree.add_leaves(parent, gaps - 1);
    tree.add_rows(parent, &row_on(1, gaps - reach), <[_]>::last);
    tree.table()
}

/// Rows of one node but for the last of so many, which reaches so many times D to either side.
fn row_on(level: usize, reach: usize) -> Vec<usize> {
    let mut rows = vec![1; level];
    if let Some(row) = rows.last_mut() {
        *row += 2 * reach;
    }
    rows
}

/// Trees with a family of one kind under the root or further down, and up to three more under any
/// of their nodes, with any numbers.
fn families_at_random(add: fn(&mut Growing, usize, &mut Random), random: &mut Random) -> Spaced {
    let mut trees = Vec::new();
    for _ in 0..1_000 {
        let mut tree = Growing::root();
        let depth = random.below(5);
        let parent = tree.add_path(depth, random);
        add(&mut tree, parent, random);
        for _ in 0..random.below(4) {
            let mut larger = tree.clone();
            add(&mut larger, random.below(tree.nodes()), random);
            if larger.nodes() <= MOST_NODES {
                tree = larger;
            }
        }
        let table = renumbered_at_random(&tree.table(), random);
        let greatest = [12, 100, 1_024][random.below(3)];
        trees.push((table, random.between(1, greatest) as u16));
    }
    trees
}

/// Children ever less deep, leaves between them, and a last one as deep as the first, which meets
/// each of the others on the last level of that one.
fn add_falling(tree: &mut Growing, parent: usize, random: &mut Random) {
    let (mut last, mut others) = (Vec::new(), Vec::new());
    // From the last child to the left. The others do not meet, as none reaches to the next. From
    // level to level the last reaches further by what is between two of them, and by the shift.
    let mut gaps = random.between(1, 4);
    let mut reach_before = 0;
    for level in 1..=random.between(2, 24) {
        let gaps_beyond = random.between(1, 4);
        let reach = random.between(0, gaps.min(gaps_beyond - 1));
        let shift = random.between(1, 2);
        let step = reach_before + gaps - reach + shift;
        last.push(2 * step + random.between(1, 2));
        others.push((row_on(level, reach), gaps - 1));
        (gaps, reach_before) = (gaps_beyond, reach);
    }
    for (rows, leaves) in others.into_iter().rev() {
        tree.add_rows(parent, &rows, <[_]>::last);
        tree.add_leaves(parent, leaves);
    }
    tree.add_rows(parent, &last, <[_]>::first);
}

/// Children ever deeper or as deep, small ones before and between them, each of which meets the one
/// before it on the last level of that one: the default ancestor if it was deeper.
fn add_rising(tree: &mut Growing, parent: usize, random: &mut Random) {
    for _ in 0..random.below(4) {
        tree.add_small(parent, 1, random);
    }
    let mut level = random.between(2, 4);
    let mut right = random.between(0, 16);
    tree.add_rows(parent, &row_on(level, right), <[_]>::last);
    for _ in 0..random.between(1, 6) {
        let gaps = random.between(1, 16);
        for _ in 1..gaps {
            tree.add_small(parent, level - 1, random);
        }
        let left = (gaps + random.below(3)).saturating_sub(right);
        let deeper = random.below(4);
        right = if deeper == 0 {
            left
        } else {
            random.between(0, 16)
        };
        let rows = [row_on(level, left), row_on(deeper, right)].concat();
        tree.add_rows(parent, &rows, <[_]>::last);
        level += deeper;
    }
}

/// A well-formed table of any shape, its numbers in any order.
pub fn random_table(nodes: usize, random: &mut Random) -> Vec<u16> {
    ANY.random_table(nodes, random)
}

/// No links at all: refused 5 with two nodes or more.
pub fn strays(nodes: usize) -> Vec<u16> {
    vec![NONE; 2 * nodes]
}

/// A lone root beside a ring of all the others, each the next one's parent: refused 14 with two
/// nodes or more.
pub fn ring(nodes: usize) -> Vec<u16> {
    rings(nodes, nodes, || 0)
}

/// The same with each the next one's elder sibling.
pub fn sibling_ring(nodes: usize) -> Vec<u16> {
    rings(nodes, nodes, || 1)
}

/// A lone root beside rings of so many of the others each, the last one perhaps of fewer. `entry`
/// says by which of a node's two entries its ring goes on.
fn rings(nodes: usize, length: usize, mut entry: impl FnMut() -> usize) -> Vec<u16> {
    let mut table = strays(nodes);
    let others: Vec<usize> = (1..nodes).collect();
    for ring in others.chunks(length) {
        for (place, node) in ring.iter().enumerate() {
            table[2 * node + entry()] = ring[(place + 1) % ring.len()] as u16;
        }
    }
    table
}

/// Cuts off what some entry leads to, and gives the node that it named.
fn cut_off(table: &mut [u16], random: &mut Random) -> u16 {
    let naming: Vec<usize> = (0..table.len())
        .filter(|&entry| table[entry] != NONE)
        .collect();
    std::mem::replace(&mut table[naming[random.below(naming.len())]], NONE)
}

/// Cuts off what some entry leads to, and has its first node named by one of its own free entries.
fn join_to_ring(table: &mut [u16], random: &mut Random) {
    let first = cut_off(table, random);
    let part = reached_from(table, usize::from(first));
    let free: Vec<usize> = (0..table.len())
        .filter(|&entry| part[entry / 2] && table[entry] == NONE)
        .collect();
    table[free[random.below(free.len())]] = first;
}

/// A tree of two nodes or more, parts of which are joined to rings or cut off as strays, and its
/// number: 5 with a stray, or else 14.
pub fn disconnected(tree: &[u16], random: &mut Random) -> (u16, Vec<u16>) {
    let mut table = tree.to_vec();
    let (with_rings, with_strays) = [(true, false), (true, true), (false, true)][random.below(3)];
    if with_rings {
        for _ in 0..random.between(1, 3) {
            join_to_ring(&mut table, random);
        }
    }
    if with_strays {
        let links = tree.len() / 2 - 1;
        for _ in 0..random.between(1, links.min(3)) {
            cut_off(&mut table, random);
        }
    }
    (if with_strays { 5 } else { 14 }, table)
}

/// A tree and, numbered after its nodes, those of another table but for node 0, which names none.
fn beside(tree: &[u16], other: &[u16]) -> Vec<u16> {
    let step = (tree.len() / 2 - 1) as u16;
    let renumbered = other[2..].iter().map(|&entry| match entry {
        NONE => NONE,
        _ => entry + step,
    });
    tree.iter().copied().chain(renumbered).collect()
}

/// A lone root beside strays, or beside rings of all kinds, of two nodes or more in all, each table
/// with its number.
fn beside_a_lone_root(nodes: usize, random: &mut Random) -> Vec<(u16, Vec<u16>)> {
    let any_length = random.between(1, nodes);
    let mixed = [1, 2, any_length, nodes].map(|length| rings(nodes, length, || random.below(2)));
    let alike = [ring(nodes), sibling_ring(nodes)];
    let mut tables = vec![(5, strays(nodes))];
    tables.extend(alike.into_iter().chain(mixed).map(|table| (14, table)));
    tables
}

/// Tables of so many nodes, at least two, that are refused 5 or 14, each with its number: strays
/// and rings of all kinds, alone, beside a tree and made of its parts.
pub fn strays_and_rings(nodes: usize, random: &mut Random) -> Vec<(u16, Vec<u16>)> {
    let mut tables = beside_a_lone_root(nodes, random);
    let others = nodes / 2;
    for (number, table) in beside_a_lone_root(1 + others, random) {
        let tree = random_table(nodes - others, random);
        tables.push((number, beside(&tree, &table)));
    }
    for _ in 0..4 {
        let tree = random_table(nodes, random);
        tables.push(disconnected(&tree, random));
    }
    tables
}

/// Every table of so many nodes of which none of 1 to 4 holds: node 0 has no next sibling and is
/// named by no entry, and each other node by one at most.
pub fn every_linking(nodes: usize) -> Vec<Vec<u16>> {
    let mut tables = vec![strays(nodes)];
    for node in 1..nodes {
        for table in std::mem::take(&mut tables) {
            for entry in (0..table.len()).filter(|&entry| entry != 1 && table[entry] == NONE) {
                let mut linked = table.clone();
                linked[entry] = node as u16;
                tables.push(linked);
            }
            tables.push(table);
        }
    }
    tables
}

/// Every ordered tree of so many nodes, numbered as by Renumber.
pub fn every_tree(nodes: usize) -> Vec<Vec<u16>> {
    // A tree is the list of its levels in that order: each node is at most one level below the
    // node before it and never on the root's level.
    let mut lists = vec![vec![0]];
    for _ in 1..nodes {
        lists = lists
            .into_iter()
            .flat_map(|list: Vec<usize>| {
                let deepest = list[list.len() - 1] + 1;
                (1..=deepest).map(move |level| [&list[..], &[level]].concat())
            })
            .collect();
    }
    lists.iter().map(|list| table_of_levels(list)).collect()
}

/// The tree of a list of levels in Renumber's order.
pub fn table_of_levels(list: &[usize]) -> Vec<u16> {
    let mut tree = Growing::root();
    let mut path = vec![0];
    for &level in &list[1..] {
        path.truncate(level);
        let node = tree.add(path[level - 1]);
        path.push(node);
    }
    tree.table()
}

/// The tree twice under one root; the first follows it in its own order, then the second.
pub fn twice(table: &[u16]) -> Vec<u16> {
    let nodes = table.len() / 2;
    let mut children: Children = vec![vec![1, 1 + nodes]];
    for start in [1, 1 + nodes] {
        for family in children_of(table) {
            children.push(family.iter().map(|child| child + start).collect());
        }
    }
    table_of(&children)
}

/// The same tree with other numbers; node 0 stays the root. Any table whose entries are in range
/// will do.
pub fn renumbered_at_random(table: &[u16], random: &mut Random) -> Vec<u16> {
    let nodes = table.len() / 2;
    let mut numbers: Vec<u16> = (0..nodes as u16).collect();
    random.shuffle(&mut numbers[1..]);
    let mut renumbered = vec![NONE; table.len()];
    for node in 0..nodes {
        for entry in 0..2 {
            let named = table[2 * node + entry];
            renumbered[2 * usize::from(numbers[node]) + entry] = match named {
                NONE => NONE,
                _ => numbers[usize::from(named)],
            };
        }
    }
    renumbered
}

/// A copy with so many entries replaced or exchanged.
pub fn damaged(table: &[u16], count: usize, random: &mut Random) -> Vec<u16> {
    let mut damaged = table.to_vec();
    let nodes = table.len() / 2;
    for _ in 0..count {
        let entry = random.below(table.len());
        damaged[entry] = match random.below(10) {
            0..=3 => random.below(nodes) as u16,
            4 | 5 => NONE,
            6 => 0,
            7 => nodes as u16,
            8 => random.word(),
            _ => {
                let other = random.below(table.len());
                let value = damaged[other];
                damaged[other] = damaged[entry];
                value
            }
        };
    }
    damaged
}

/// Sizes for a table, between 1 and the greatest: all up to `small`, those beside a full block of a sheet file, and so many at random below
/// and above 300.
fn sizes(small: usize, middling: usize, large: usize, random: &mut Random) -> Vec<usize> {
    let mut sizes: Vec<usize> = (1..=small).collect();
    sizes.extend([49, 50, 51, 99, 100, 101, 1_000, 1_001, 1_023, 1_024]);
    sizes.extend((0..middling).map(|_| random.between(small + 1, 300)));
    sizes.extend((0..large).map(|_| random.between(301, 1_024)));
    sizes
}

impl Kind {
    /// A well-formed table of one of its shapes, its numbers in any order.
    pub fn random_table(&self, nodes: usize, random: &mut Random) -> Vec<u16> {
        let shape = &self.shapes[random.below(self.shapes.len())];
        let table = (shape.make)(nodes, random);
        renumbered_at_random(&table, random)
    }

    /// Every shape in many sizes, as it is and with other numbers, and the families.
    pub fn of_many_sizes(
        &self,
        small: usize,
        middling: usize,
        large: usize,
        random: &mut Random,
    ) -> Vec<Vec<u16>> {
        let mut tables = Vec::new();
        for shape in self.shapes {
            for nodes in sizes(small, middling, large, random) {
                let table = (shape.make)(nodes, random);
                tables.push(renumbered_at_random(&table, random));
                tables.push(table);
            }
        }
        for (_, family) in self.families {
            tables.extend((1..8).map(family));
            tables.push(largest(*family, 1_024));
        }
        tables
    }

    /// One tree of each shape and of each family, of at most so many nodes, by name.
    pub fn trees_of_each_shape(
        &self,
        nodes: usize,
        random: &mut Random,
    ) -> Vec<(&'static str, Vec<u16>)> {
        let mut trees: Vec<_> = self
            .shapes
            .iter()
            .map(|shape| (shape.name, (shape.make)(nodes, random)))
            .collect();
        for (name, family) in self.families {
            trees.push((name, largest(*family, nodes)));
        }
        trees
    }
}

/// Every shape in many sizes, as it is and with other numbers, and the families of document 004.
pub fn of_many_sizes(
    small: usize,
    middling: usize,
    large: usize,
    random: &mut Random,
) -> Vec<Vec<u16>> {
    ANY.of_many_sizes(small, middling, large, random)
}

/// One tree of each shape and of both families of document 004, of at most so many nodes, by name.
pub fn trees_of_each_shape(nodes: usize, random: &mut Random) -> Vec<(&'static str, Vec<u16>)> {
    ANY.trees_of_each_shape(nodes, random)
}

#[cfg(test)]
mod tests {
    use super::*;
    use crate::binary_shapes::BINARY;
    use crate::table::{level_by_level, refusal, renumber};
    use std::collections::BTreeSet;

    #[test]
    fn every_shape_is_well_formed_and_of_its_size() {
        let mut source = Random::new(11);
        for shape in ANY.shapes.iter().chain(BINARY.shapes) {
            for nodes in (1..70).chain([256, 1_023, 1_024]) {
                let table = (shape.make)(nodes, &mut source);
                assert_eq!(table.len(), 2 * nodes, "{} of {nodes}", shape.name);
                assert_eq!(refusal(&table), 0, "{} of {nodes}", shape.name);
                let other = renumbered_at_random(&table, &mut source);
                assert_eq!(refusal(&other), 0);
                assert_eq!(straight(&table), straight(&other));
            }
        }
    }

    fn straight(table: &[u16]) -> Vec<u16> {
        renumber(table, table, table).out
    }

    #[test]
    fn sizes_of_the_families() {
        for k in 1..20 {
            let contours = contour_family(k);
            assert_eq!(refusal(&contours), 0);
            assert_eq!(contours.len() / 2, 2 * k + k * (k - 1) + k);
            let shares = share_family(k);
            let nodes = 1 + k * (k + 1) / 2 + (k - 1) * k + (k - 1) * (2 * k + 5);
            assert_eq!(shares.len() / 2, nodes);
            if nodes <= 1_024 {
                assert_eq!(refusal(&shares), 0);
            }
            assert_eq!(level_by_level(&children_of(&shares)).len(), k + 1);
        }
        assert_eq!(largest(contour_family, 1_024).len() / 2, 1_023);
        assert_eq!(largest(share_family, 1_024).len() / 2, 932);
    }

    #[test]
    fn trees_made_for_their_conflicts_are_well_formed() {
        let mut source = Random::new(8);
        let mut most_nodes = 0;
        for (title, trees) in made_for_conflicts(&mut source) {
            for (table, separation) in trees {
                assert_eq!(refusal(&table), 0, "{title}: {table:?}");
                assert!((1..=1_024).contains(&separation), "{title}");
                most_nodes = most_nodes.max(table.len() / 2);
            }
        }
        assert!(most_nodes > 1_000, "{most_nodes} nodes");
    }

    #[test]
    fn counts_of_all_small_trees() {
        for (nodes, count) in [1, 1, 2, 5, 14, 42, 132, 429, 1_430]
            .into_iter()
            .enumerate()
        {
            let trees = every_tree(nodes + 1);
            assert_eq!(trees.len(), count);
            assert!(trees.iter().all(|table| refusal(table) == 0));
            assert!(trees.iter().all(|table| straight(table) == *table));
            assert_eq!(trees.iter().collect::<BTreeSet<_>>().len(), count);
        }
    }

    #[test]
    fn uniform_trees_meet_every_small_one() {
        let mut source = Random::new(5);
        let met: BTreeSet<_> = (0..2_000).map(|_| uniform(6, &mut source)).collect();
        assert_eq!(met.len(), 42);
    }

    #[test]
    fn rings_and_strays_are_refused() {
        let mut source = Random::new(2);
        for nodes in (2..70).chain([1_023, 1_024]) {
            for (number, table) in strays_and_rings(nodes, &mut source) {
                assert_eq!(table.len(), 2 * nodes);
                assert_eq!(refusal(&table), number, "{table:?}");
            }
        }
    }

    #[test]
    fn counts_of_all_small_linkings() {
        for (nodes, count, trees) in [
            (1, 1, 1),
            (2, 4, 1),
            (3, 31, 4),
            (4, 358, 30),
            (5, 5_509, 336),
        ] {
            let tables: BTreeSet<_> = every_linking(nodes).into_iter().collect();
            assert_eq!(tables.len(), count);
            assert!(tables
                .iter()
                .all(|table| [0, 5, 14].contains(&refusal(table))));
            assert_eq!(
                tables.iter().filter(|table| refusal(table) == 0).count(),
                trees
            );
        }
    }

    #[test]
    fn disconnected_trees_meet_every_small_one() {
        let mut source = Random::new(6);
        let met: BTreeSet<_> = (0..20_000)
            .map(|_| {
                let tree = random_table(4, &mut source);
                disconnected(&tree, &mut source)
            })
            .collect();
        let all: BTreeSet<_> = every_linking(4)
            .into_iter()
            .map(|table| (refusal(&table), table))
            .filter(|&(number, _)| number != 0)
            .collect();
        assert_eq!(met, all);
    }
}
