//! Half-widths, one for each node: when they are refused, and makers of them.

use crate::random::Random;

/// The greatest half-width.
pub const MOST_HALF_WIDTH: u16 = 256;

/// Whether condition 17 holds for so many nodes: there are too few, or one of them is too great.
/// Those past the nodes are not looked at.
pub fn refused(half_widths: &[u16], nodes: usize) -> bool {
    match half_widths.get(..nodes) {
        None => true,
        Some(named) => named.iter().any(|&width| width > MOST_HALF_WIDTH),
    }
}

/// A named maker of half-widths for so many nodes.
pub struct Kind {
    pub name: &'static str,
    pub make: fn(usize, &mut Random) -> Vec<u16>,
}

/// The kinds of every comparison, all of them to be accepted.
pub const KINDS: [Kind; 6] = [
    Kind {
        name: "none",
        make: |nodes, _| vec![0; nodes],
    },
    Kind {
        name: "small",
        make: |nodes, random| some_up_to(3, nodes, random),
    },
    Kind {
        name: "any",
        make: |nodes, random| some_up_to(MOST_HALF_WIDTH, nodes, random),
    },
    Kind {
        name: "greatest",
        make: |nodes, _| vec![MOST_HALF_WIDTH; nodes],
    },
    Kind {
        name: "bounds",
        make: |nodes, random| some_of(&[0, 1, MOST_HALF_WIDTH], nodes, random),
    },
    Kind {
        name: "few",
        make: few,
    },
];

/// Half-widths from 0 to the greatest.
pub fn some_up_to(greatest: u16, nodes: usize, random: &mut Random) -> Vec<u16> {
    (0..nodes)
        .map(|_| random.between(0, usize::from(greatest)) as u16)
        .collect()
}

/// Half-widths out of these.
pub fn some_of(choices: &[u16], nodes: usize, random: &mut Random) -> Vec<u16> {
    (0..nodes)
        .map(|_| choices[random.below(choices.len())])
        .collect()
}

/// Long shelf marks, once in eight nodes.
fn few(nodes: usize, random: &mut Random) -> Vec<u16> {
    (0..nodes)
        .map(|_| match random.below(8) {
            0 => random.between(40, usize::from(MOST_HALF_WIDTH)) as u16,
            _ => 0,
        })
        .collect()
}

/// Half-widths of any of the kinds.
pub fn of_any_kind(nodes: usize, random: &mut Random) -> Vec<u16> {
    (KINDS[random.below(KINDS.len())].make)(nodes, random)
}

/// A half-width above the greatest.
pub fn too_great(random: &mut Random) -> u16 {
    let any = random.between(usize::from(MOST_HALF_WIDTH) + 1, usize::from(u16::MAX));
    [MOST_HALF_WIDTH + 1, 512, 32_768, u16::MAX, any as u16][random.below(5)]
}

/// The same with one to three of them too great.
pub fn damaged(half_widths: &[u16], random: &mut Random) -> Vec<u16> {
    let mut damaged = half_widths.to_vec();
    for _ in 0..random.between(1, 3) {
        let node = random.below(damaged.len());
        damaged[node] = too_great(random);
    }
    damaged
}

/// Half-widths that are refused: too few, or one of them or more too great. For no nodes there are
/// none.
pub fn to_be_refused(nodes: usize, random: &mut Random) -> Vec<u16> {
    let mut half_widths = of_any_kind(nodes, random);
    match random.below(4) {
        0 => half_widths.truncate(nodes.saturating_sub(1)),
        1 => half_widths.truncate(random.below(nodes.max(1))),
        _ if nodes > 0 => half_widths = damaged(&half_widths, random),
        _ => (),
    }
    half_widths
}

#[cfg(test)]
mod tests {
    use super::*;

    #[test]
    fn every_kind_is_accepted_and_of_its_size() {
        let mut random = Random::new(4);
        for kind in &KINDS {
            for nodes in (1..70).chain([1_024]) {
                let half_widths = (kind.make)(nodes, &mut random);
                assert_eq!(half_widths.len(), nodes, "{}", kind.name);
                assert!(!refused(&half_widths, nodes), "{}", kind.name);
                assert!(refused(&half_widths, nodes + 1), "{}", kind.name);
                assert!(refused(&damaged(&half_widths, &mut random), nodes));
                assert!(refused(&to_be_refused(nodes, &mut random), nodes));
            }
        }
    }

    #[test]
    fn only_the_first_are_looked_at() {
        assert!(!refused(&[256, 0, 257], 2));
        assert!(refused(&[256, 0, 257], 3));
        assert!(refused(&[256, 0, 65_535], 3));
        assert!(refused(&[257, 0, 0], 1));
        assert!(refused(&[256, 0], 3));
    }
}
