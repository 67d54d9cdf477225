//! The model of the tree table: check, mirror and renumber.
//!
//! Each operation is a function from what is lent to what must come out: the number, the other
//! result fields, and what each slice holds afterwards.

/// The entry that names no node.
pub const NONE: u16 = 65_535;

/// The greatest count of nodes.
pub const MOST_NODES: usize = 1_024;

/// The children of each node, left to right.
pub type Children = Vec<Vec<usize>>;

#[derive(Debug, PartialEq, Eq)]
pub struct Checked {
    pub number: u16,
    pub nodes: u16,
}

#[derive(Debug, PartialEq, Eq)]
pub struct Mirrored {
    pub number: u16,
    pub out: Vec<u16>,
}

#[derive(Debug, PartialEq, Eq)]
pub struct Renumbered {
    pub number: u16,
    pub out: Vec<u16>,
    pub map: Vec<u16>,
}

pub fn check(table: &[u16]) -> Checked {
    match refusal(table) {
        0 => Checked {
            number: 0,
            nodes: (table.len() / 2) as u16,
        },
        number => Checked { number, nodes: 0 },
    }
}

/// `out` is the output slice as it is lent.
pub fn mirror(table: &[u16], out: &[u16]) -> Mirrored {
    let refused = |number| Mirrored {
        number,
        out: out.to_vec(),
    };
    match refusal(table) {
        0 => (),
        number => return refused(number),
    }
    if out.len() < table.len() {
        return refused(7);
    }
    let mut children = children_of(table);
    for family in &mut children {
        family.reverse();
    }
    Mirrored {
        number: 0,
        out: over_start(out, &table_of(&children)),
    }
}

/// `out` and `map` are the slices as they are lent.
pub fn renumber(table: &[u16], out: &[u16], map: &[u16]) -> Renumbered {
    let refused = |number| Renumbered {
        number,
        out: out.to_vec(),
        map: map.to_vec(),
    };
    match refusal(table) {
        0 => (),
        number => return refused(number),
    }
    let nodes = table.len() / 2;
    if out.len() < 2 * nodes || map.len() < nodes {
        return refused(7);
    }
    let children = children_of(table);
    let old_numbers = parents_first(&children);
    let mut new_numbers = vec![0; nodes];
    for (new, &old) in old_numbers.iter().enumerate() {
        new_numbers[old] = new;
    }
    let renumbered: Children = old_numbers
        .iter()
        .map(|&old| children[old].iter().map(|&c| new_numbers[c]).collect())
        .collect();
    let old_entries: Vec<u16> = old_numbers.iter().map(|&old| old as u16).collect();
    Renumbered {
        number: 0,
        out: over_start(out, &table_of(&renumbered)),
        map: over_start(map, &old_entries),
    }
}

/// The first of the conditions 1 to 5 and 14 that holds, or 0.
pub fn refusal(table: &[u16]) -> u16 {
    if wrong_length(table) {
        1
    } else if names_beyond(table) {
        2
    } else if table[1] != NONE {
        3
    } else if named_too_often(table) {
        4
    } else if leaves_unnamed(table) {
        5
    } else if leaves_unreached(table) {
        14
    } else {
        0
    }
}

fn wrong_length(table: &[u16]) -> bool {
    table.len() % 2 == 1 || table.is_empty() || table.len() > 2 * MOST_NODES
}

fn names_beyond(table: &[u16]) -> bool {
    let nodes = table.len() / 2;
    table
        .iter()
        .any(|&entry| entry != NONE && usize::from(entry) >= nodes)
}

/// How many entries name each node.
fn times_named(table: &[u16]) -> Vec<usize> {
    let mut times = vec![0; table.len() / 2];
    for node in table.iter().filter_map(|&entry| named(entry)) {
        times[node] += 1;
    }
    times
}

fn named_too_often(table: &[u16]) -> bool {
    let times = times_named(table);
    times[0] > 0 || times.iter().any(|&count| count > 1)
}

fn leaves_unnamed(table: &[u16]) -> bool {
    times_named(table)[1..].contains(&0)
}

fn leaves_unreached(table: &[u16]) -> bool {
    reached_from(table, 0).contains(&false)
}

/// For each node whether it is reached from this one by steps to a first child or a next sibling,
/// no step at all included.
pub fn reached_from(table: &[u16], start: usize) -> Vec<bool> {
    let mut reached = vec![false; table.len() / 2];
    let mut open = vec![start];
    while let Some(node) = open.pop() {
        if !reached[node] {
            reached[node] = true;
            open.extend(steps_from(table, node));
        }
    }
    reached
}

/// The nodes that a node's two entries name.
fn steps_from(table: &[u16], node: usize) -> impl Iterator<Item = usize> {
    [first_child(table, node), next_sibling(table, node)]
        .into_iter()
        .flatten()
}

fn named(entry: u16) -> Option<usize> {
    (entry != NONE).then_some(usize::from(entry))
}

fn first_child(table: &[u16], node: usize) -> Option<usize> {
    named(table[2 * node])
}

fn next_sibling(table: &[u16], node: usize) -> Option<usize> {
    named(table[2 * node + 1])
}

/// The children of each node of a well-formed table.
pub fn children_of(table: &[u16]) -> Children {
    (0..table.len() / 2)
        .map(|node| {
            std::iter::successors(first_child(table, node), |&child| {
                next_sibling(table, child)
            })
            .collect()
        })
        .collect()
}

/// The table of a tree given by its children.
pub fn table_of(children: &[Vec<usize>]) -> Vec<u16> {
    let mut table = vec![NONE; 2 * children.len()];
    for (node, family) in children.iter().enumerate() {
        if let Some(&first) = family.first() {
            table[2 * node] = first as u16;
        }
        for pair in family.windows(2) {
            table[2 * pair[0] + 1] = pair[1] as u16;
        }
    }
    table
}

/// The nodes in Renumber's order: a parent, then its children's subtrees left to right.
pub fn parents_first(children: &[Vec<usize>]) -> Vec<usize> {
    let mut order = Vec::new();
    let mut open = vec![0];
    while let Some(node) = open.pop() {
        order.push(node);
        open.extend(children[node].iter().rev());
    }
    order
}

/// The nodes level by level, children left to right.
pub fn level_by_level(children: &[Vec<usize>]) -> Vec<Vec<usize>> {
    let mut levels = vec![vec![0]];
    loop {
        let below: Vec<usize> = levels[levels.len() - 1]
            .iter()
            .flat_map(|&node| children[node].iter().copied())
            .collect();
        if below.is_empty() {
            return levels;
        }
        levels.push(below);
    }
}

/// A slice after `written` went over its start.
pub fn over_start<T: Copy>(slice: &[T], written: &[T]) -> Vec<T> {
    let mut after = slice.to_vec();
    after[..written.len()].copy_from_slice(written);
    after
}

#[cfg(test)]
mod tests {
    use super::*;
    use crate::shapes::every_linking;

    // A root with children 3 and 1; node 3 has the children 2, 5 and 4.
    const FAMILY: [u16; 12] = [3, NONE, NONE, NONE, NONE, 5, 2, 1, NONE, NONE, NONE, 4];

    #[test]
    fn cases_of_the_paper() {
        assert_eq!(refusal(&[]), 1);
        assert_eq!(refusal(&[NONE, 1, NONE, NONE]), 3);
        assert_eq!(refusal(&[0, NONE]), 4);
        assert_eq!(refusal(&[NONE; 4]), 5);
        assert_eq!(refusal(&[NONE, NONE, 2, NONE, 1, NONE]), 14);
        assert_eq!(
            check(&[NONE; 2]),
            Checked {
                number: 0,
                nodes: 1
            }
        );
        let chain = |nodes: u16| -> Vec<u16> {
            (0..nodes)
                .flat_map(|node| [if node + 1 < nodes { node + 1 } else { NONE }, NONE])
                .collect()
        };
        assert_eq!(check(&chain(1_024)).nodes, 1_024);
        assert_eq!(refusal(&chain(1_025)), 1);
    }

    #[test]
    fn the_first_condition_that_holds_decides() {
        assert_eq!(refusal(&[9, 9, 9]), 1);
        assert_eq!(refusal(&[2, 1, NONE, NONE]), 2);
        assert_eq!(refusal(&[1, 1, NONE, NONE]), 3);
        assert_eq!(refusal(&[1, NONE, 1, NONE, NONE, NONE]), 4);
        assert_eq!(refusal(&[1, NONE, 0, NONE]), 4);
        assert_eq!(refusal(&[NONE, NONE, 1, NONE, NONE, NONE]), 5);
        assert_eq!(refusal(&[NONE, NONE, 1, NONE]), 14);
        assert_eq!(refusal(&[2, NONE, NONE, 1, NONE, NONE]), 14);
    }

    /// Whether some node that node 0 does not reach is reached from itself by one step or more.
    fn has_ring(table: &[u16]) -> bool {
        let reached = reached_from(table, 0);
        (0..table.len() / 2).any(|node| {
            !reached[node] && steps_from(table, node).any(|next| reached_from(table, next)[node])
        })
    }

    #[test]
    fn a_table_with_unreached_nodes_has_a_stray_or_a_ring() {
        for table in (1..=5).flat_map(every_linking) {
            let number = refusal(&table);
            assert_eq!(number != 0, leaves_unreached(&table), "{table:?}");
            match number {
                0 => assert!(!has_ring(&table), "{table:?}"),
                14 => assert!(has_ring(&table), "{table:?}"),
                _ => assert_eq!(number, 5, "{table:?}"),
            }
        }
    }

    #[test]
    fn a_family_read_and_written() {
        let children = children_of(&FAMILY);
        assert_eq!(
            children,
            [vec![3, 1], vec![], vec![], vec![2, 5, 4], vec![], vec![]]
        );
        assert_eq!(table_of(&children), FAMILY);
        assert_eq!(parents_first(&children), [0, 3, 2, 5, 4, 1]);
        assert_eq!(
            level_by_level(&children),
            [vec![0], vec![3, 1], vec![2, 5, 4]]
        );
    }

    #[test]
    fn a_family_mirrored() {
        let mirrored = mirror(&FAMILY, &[7; 14]);
        assert_eq!(mirrored.number, 0);
        assert_eq!(
            mirrored.out,
            [1, NONE, NONE, 3, NONE, NONE, 4, NONE, NONE, 5, NONE, 2, 7, 7]
        );
        assert_eq!(
            mirror(&FAMILY, &[7; 11]),
            Mirrored {
                number: 7,
                out: vec![7; 11]
            }
        );
    }

    #[test]
    fn a_family_renumbered() {
        let renumbered = renumber(&FAMILY, &[7; 13], &[8; 7]);
        assert_eq!(renumbered.number, 0);
        assert_eq!(
            renumbered.out,
            [1, NONE, 2, 5, NONE, 3, NONE, 4, NONE, NONE, NONE, NONE, 7]
        );
        assert_eq!(renumbered.map, [0, 3, 2, 5, 4, 1, 8]);
        assert_eq!(renumber(&FAMILY, &[7; 12], &[8; 5]).number, 7);
        assert_eq!(renumber(&FAMILY, &[7; 11], &[8; 6]).number, 7);
    }
}
