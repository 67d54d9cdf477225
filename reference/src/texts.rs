//! Makers of Newick texts: those of many trees, texts of a given length, and damaged ones.

use crate::files::random_tape;
use crate::newick::Tree;
use crate::random::Random;
use crate::sheet::words_of;
use crate::table::NONE;

/// The most digits of a label.
pub const MOST_DIGITS: usize = 10;

/// What a text is made of, and bytes that other readers of such texts skip or understand.
const BYTES: &[u8] = b"()(),,;0123456789 \t\r\n:'\"[]_-+.eE/\0\x80\xff";

/// The tree of this table with labels of one kind: small ones, any, or the greatest.
pub fn labelled(table: Vec<u16>, random: &mut Random) -> Tree {
    let kind = random.below(3);
    let labels = (0..table.len() / 2).map(|_| match kind {
        0 => random.below(10) as u32,
        1 => random_tape(random),
        _ => u32::MAX - random.below(8) as u32,
    });
    Tree {
        tapes: words_of(labels),
        table,
    }
}

/// The tree of this table with labels of as many digits each as make its text so long, but for one
/// digit more in some. Nothing where that is less than one digit or more than so many.
pub fn of_length(
    table: Vec<u16>,
    len: usize,
    most_digits: usize,
    random: &mut Random,
) -> Option<Tree> {
    let nodes = table.len() / 2;
    let digits = len.checked_sub(bytes_but_labels(&table))?;
    if !(nodes..=most_digits * nodes).contains(&digits) {
        return None;
    }
    let labels = (0..nodes).map(|node| {
        let count = digits * (node + 1) / nodes - digits * node / nodes;
        label_of_digits(count, random)
    });
    Some(Tree {
        tapes: words_of(labels),
        table,
    })
}

/// Two brackets for each family, a comma before each child but the first, and the semicolon.
fn bytes_but_labels(table: &[u16]) -> usize {
    let families = table.iter().step_by(2).filter(|&&child| child != NONE);
    table.len() / 2 + families.count()
}

fn label_of_digits(count: usize, random: &mut Random) -> u32 {
    let beyond = 10_usize.pow(count as u32);
    random.between(beyond / 10, (beyond - 1).min(u32::MAX as usize)) as u32
}

/// The text of a chain of so many nodes, all labels 0: three bytes a node.
pub fn chain_of_zeros(nodes: usize) -> Vec<u8> {
    [
        &b"(".repeat(nodes - 1)[..],
        b"0",
        &b")0".repeat(nodes - 1),
        b";",
    ]
    .concat()
}

/// A copy with so many changes: a byte replaced, put in or taken out, bytes exchanged, a part
/// doubled, or the text cut.
pub fn changed(text: &[u8], count: usize, random: &mut Random) -> Vec<u8> {
    let mut changed = text.to_vec();
    for _ in 0..count {
        let place = random.between(0, changed.len());
        let byte = BYTES[random.below(BYTES.len())];
        if place == changed.len() {
            changed.push(byte);
            continue;
        }
        match random.below(9) {
            0..=2 => changed[place] = byte,
            3 | 4 => changed.insert(place, byte),
            5 | 6 => _ = changed.remove(place),
            7 => {
                let other = random.below(changed.len());
                changed.swap(place, other);
            }
            _ if random.once_in(2) => changed.truncate(place),
            _ => {
                let end = random.between(place, changed.len());
                changed.extend_from_within(place..end);
            }
        }
    }
    changed
}

#[cfg(test)]
mod tests {
    use super::*;
    use crate::newick::{text_of, tree_of};
    use crate::shapes;

    #[test]
    fn texts_have_the_length_that_is_asked_for() {
        let mut random = Random::new(3);
        for (nodes, least, greatest) in [(1, 2, 11), (10, 21, 119), (1_024, 2_049, 12_287)] {
            for len in [least, (least + greatest) / 2, greatest] {
                let (chain, star) = (shapes::chain(nodes), shapes::star(nodes));
                let made =
                    [chain, star].map(|table| of_length(table, len, MOST_DIGITS, &mut random));
                let texts = made.iter().flatten().map(text_of);
                let lens: Vec<usize> = texts.map(|text| text.len()).collect();
                assert!(!lens.is_empty() && lens.iter().all(|&made| made == len));
            }
            let chain = shapes::chain(nodes);
            assert_eq!(
                of_length(chain, greatest + 1, MOST_DIGITS, &mut random),
                None
            );
        }
    }

    #[test]
    fn a_chain_of_zeros_is_one() {
        for nodes in [1, 2, 30] {
            let tree = tree_of(&chain_of_zeros(nodes)).expect("it is a tree");
            assert_eq!(tree.table, shapes::chain(nodes));
        }
    }
}
