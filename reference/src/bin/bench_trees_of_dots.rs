//! The calls that the benchmark of the trees of dots counts.
//!
//! `bench_trees_of_dots cases KIND` prints one line for each call: two words for what comes of it,
//! the count of nodes, and 1 for the one call. `bench_trees_of_dots run KIND` makes the calls in
//! that order. The kinds are `dots-1`, `dots-2` and `dots-1024`, the dots of every tree of each
//! list by its place under that separation, named by how many are on each level; `none`, the same
//! dots under D = 2 with the last one moved to where no tree has it; `refused`, counts, slices,
//! levels and separations that are refused; and `order`, dots that do not rise.

use reference::ffi;
use reference::small_trees::MOST_NODES;
use reference::trees_of_dots::{dots_of, entries, Drawings};
use std::env;
use std::hint::black_box;

struct Case {
    name: String,
    nodes: u16,
    dots: Vec<i32>,
    separation: u16,
    number: u16,
    fits: bool,
}

/// How many dots are on each level, from the top.
fn counts(dots: &[i32]) -> String {
    let on = |level| dots.chunks(2).filter(|dot| dot[0] == level).count();
    let last = dots[dots.len() - 2];
    let counts: Vec<String> = (0..=last).map(|level| on(level).to_string()).collect();
    counts.join("-")
}

/// A call for each tree of 1 node, then of 2, and so on.
fn trees(separation: u16) -> Vec<Case> {
    let mut cases = Vec::new();
    let drawings = Drawings::new();
    for nodes in 1..=MOST_NODES as u16 {
        cases.extend(drawings.list(nodes).iter().map(|tree| {
            let half_widths = vec![0; usize::from(nodes)];
            let dots = entries(&dots_of(&tree.table, separation, &half_widths));
            Case {
                name: format!("levels {}", counts(&dots)),
                nodes,
                dots,
                separation,
                number: 0,
                fits: true,
            }
        }));
    }
    cases
}

/// The same with the last dot moved to the right until no tree fits.
fn none() -> Vec<Case> {
    let mut drawings = Drawings::new();
    let mut cases = trees(2);
    for case in &mut cases {
        let last = case.dots.len() - 1;
        while drawings.trees_of_dots(case.nodes, &case.dots, 2).count > 0 {
            case.dots[last] += 1;
        }
        case.fits = false;
    }
    cases
}

/// The dots of the last tree of each list, the chain, with at least so many nodes, made so that a
/// call is refused.
fn refused(name: &str, number: u16, least: u16, change: fn(&mut Case)) -> Vec<Case> {
    let chain = |nodes: u16| {
        let mut case = Case {
            name: name.to_string(),
            nodes,
            dots: (0..i32::from(nodes)).flat_map(|level| [level, 0]).collect(),
            separation: 2,
            number,
            fits: false,
        };
        change(&mut case);
        case
    };
    (least..=MOST_NODES as u16).map(chain).collect()
}

fn cases(kind: &str) -> Vec<Case> {
    match kind {
        "dots-1" => trees(1),
        "dots-2" => trees(2),
        "dots-1024" => trees(1_024),
        "none" => none(),
        "refused" => [
            refused("20 count", 20, 1, |case| case.nodes += MOST_NODES as u16),
            refused("22 length", 22, 1, |case| case.dots.push(0)),
            refused("22 first", 22, 1, |case| case.dots[0] = -1),
            refused("22 last", 22, 1, |case| {
                let last = case.dots.len() - 2;
                case.dots[last] = MOST_NODES as i32;
            }),
            refused("6 separation", 6, 1, |case| case.separation = 0),
        ]
        .into_iter()
        .flatten()
        .collect(),
        "order" => [
            refused("22 first", 22, 2, |case| case.dots[0] = 1),
            refused("22 last", 22, 2, |case| {
                let last = case.dots.len() - 2;
                case.dots[last] -= 1;
            }),
        ]
        .into_iter()
        .flatten()
        .collect(),
        _ => panic!("a kind is dots-1, dots-2, dots-1024, none, refused or order"),
    }
}

fn main() {
    let arguments: Vec<String> = env::args().collect();
    let [_, mode, kind] = &arguments[..] else {
        panic!("usage: bench_trees_of_dots cases|run KIND");
    };
    for case in cases(kind) {
        let Case { name, nodes, .. } = &case;
        if mode == "cases" {
            println!("{name} {} 1", case.dots.len() / 2);
            continue;
        }
        let (mut lowest, mut count) = (0, 0);
        let dots = black_box(&case.dots[..]);
        let number = ffi::trees_of_dots(*nodes, dots, case.separation, &mut lowest, &mut count);
        assert_eq!((number, count > 0), (case.number, case.fits));
    }
}
