//! The calls that the benchmark of the small trees counts.
//!
//! `bench_small_trees cases KIND` prints one line for each call: two words for what comes of it,
//! the count of nodes, and 1 for the one call. `bench_small_trees run KIND` makes the calls in that
//! order. The kinds are `trees`, every tree of each list by its place, `places`, places past the
//! lists and tables that are too short, and `counts`, counts of nodes that have no list.

use reference::ffi;
use reference::small_trees::{Lists, MOST_NODES};
use std::env;
use std::hint::black_box;

/// Counts that have no list.
const OTHERS: [u16; 4] = [0, 9, 264, 65_535];

struct Case {
    name: &'static str,
    nodes: u16,
    place: u16,
    table_len: usize,
    number: u16,
}

/// A call for each tree of 1 node, then of 2, and so on.
fn trees() -> Vec<Case> {
    let mut cases = Vec::new();
    let lists = Lists::all();
    for nodes in 1..=MOST_NODES {
        let list = lists.of(nodes).expect("there is a list");
        cases.extend((0..list.len() as u16).map(|place| Case {
            name: "0 listed",
            nodes: nodes as u16,
            place,
            table_len: 2 * nodes,
            number: 0,
        }));
    }
    cases
}

/// Refused calls of one kind for each list.
fn refused(
    name: &'static str,
    place_of: fn(u16) -> u16,
    short_by: usize,
    number: u16,
) -> Vec<Case> {
    let mut cases = Vec::new();
    let lists = Lists::all();
    for nodes in 1..=MOST_NODES {
        let count = lists.of(nodes).expect("there is a list").len();
        cases.push(Case {
            name,
            nodes: nodes as u16,
            place: place_of(count as u16),
            table_len: 2 * nodes - short_by,
            number,
        });
    }
    cases
}

fn cases(kind: &str) -> Vec<Case> {
    match kind {
        "trees" => trees(),
        "places" => [
            refused("21 next", |count| count, 0, 21),
            refused("21 far", |_| u16::MAX, 0, 21),
            refused("7 first", |_| 0, 1, 7),
            refused("7 last", |count| count - 1, 1, 7),
        ]
        .into_iter()
        .flatten()
        .collect(),
        "counts" => OTHERS
            .into_iter()
            .map(|nodes| Case {
                name: "20 count",
                nodes,
                place: 0,
                table_len: 2 * MOST_NODES,
                number: 20,
            })
            .collect(),
        _ => panic!("a kind is trees, places or counts"),
    }
}

fn main() {
    let arguments: Vec<String> = env::args().collect();
    let [_, mode, kind] = &arguments[..] else {
        panic!("usage: bench_small_trees cases|run KIND");
    };
    let mut table = [0; 2 * MOST_NODES];
    for case in cases(kind) {
        let Case { name, nodes, .. } = &case;
        if mode == "cases" {
            println!("{name} {nodes} 1");
            continue;
        }
        let lent = &mut table[..case.table_len];
        let number = ffi::small_tree(black_box(*nodes), case.place, lent);
        assert_eq!(number, case.number);
    }
}
