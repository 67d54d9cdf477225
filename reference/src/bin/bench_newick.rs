//! The calls that the benchmark of Newick texts counts.
//!
//! `bench_newick cases KIND` prints one line for each call: the digits of the labels, the shape,
//! the bytes that the text was to have, and those that it has. `bench_newick run KIND` makes the
//! calls in that order. The kinds are `long` and `short`, texts that are read, with labels of 10
//! digits and of 3; `broken`, texts of both that are refused for their last byte; and `crowded`,
//! texts that are refused for their nodes, with labels of 2.

use reference::ffi;
use reference::newick::{text_of, MOST_BYTES};
use reference::random::Random;
use reference::shapes::{self, Shape};
use reference::table::MOST_NODES;
use reference::texts::{of_length, MOST_DIGITS};
use std::env;
use std::hint::black_box;

const SHORT: usize = 3;
const TINY: usize = 2;

/// Trees of each size are of one shape, and two of their nodes have so many brackets and commas.
const SHAPES: [(Shape, usize); 3] = [
    (
        Shape {
            name: "chain",
            make: |nodes, _| shapes::chain(nodes),
        },
        4,
    ),
    (
        Shape {
            name: "star",
            make: |nodes, _| shapes::star(nodes),
        },
        2,
    ),
    (
        Shape {
            name: "random",
            make: shapes::random,
        },
        3,
    ),
];

struct Case {
    digits: usize,
    shape: &'static str,
    len: usize,
    text: Vec<u8>,
}

/// Texts of these lengths, with about as many nodes as labels of so many digits need.
fn texts(digits: usize, lens: [usize; 3], cases: &mut Vec<Case>) {
    let mut random = Random::new(1);
    for (shape, marks) in &SHAPES {
        for len in lens {
            let least_nodes = 2 * len / (2 * digits + marks);
            let tree = (least_nodes..)
                .find_map(|nodes| {
                    let table = (shape.make)(nodes, &mut random);
                    of_length(table, len, digits, &mut random)
                })
                .expect("labels have room in a larger tree");
            cases.push(Case {
                digits,
                shape: shape.name,
                len,
                text: text_of(&tree),
            });
        }
    }
}

/// The texts of a kind and the number that they must give.
fn cases(kind: &str) -> (Vec<Case>, u16) {
    let mut cases = Vec::new();
    let number = match kind {
        // 1,024 nodes under one root have a text of 11,265 bytes at most.
        "long" => {
            texts(MOST_DIGITS, [1_024, 4_096, 11_264], &mut cases);
            0
        }
        "short" => {
            texts(SHORT, [1_024, 2_048, 4_096], &mut cases);
            0
        }
        "broken" => {
            texts(MOST_DIGITS, [1_024, 4_096, MOST_BYTES], &mut cases);
            texts(SHORT, [1_024, 4_096, MOST_BYTES], &mut cases);
            for Case { text, .. } in &mut cases {
                *text.last_mut().expect("a text has an end") = b',';
            }
            15
        }
        "crowded" => {
            texts(TINY, [5_120, 8_192, MOST_BYTES], &mut cases);
            16
        }
        _ => panic!("a kind is long, short, broken or crowded"),
    };
    (cases, number)
}

fn main() {
    let arguments: Vec<String> = env::args().collect();
    let [_, mode, kind] = &arguments[..] else {
        panic!("usage: bench_newick cases|run KIND");
    };
    let (cases, wanted) = cases(kind);
    let (mut table, mut tapes) = ([0; 2 * MOST_NODES], [0; 2 * MOST_NODES]);
    for Case {
        digits,
        shape,
        len,
        text,
    } in cases
    {
        if mode == "cases" {
            println!("{digits} {shape} {len} {}", text.len());
        } else {
            let number = ffi::read_newick(black_box(&text), &mut table, &mut tapes, &mut 0);
            assert_eq!(number, wanted);
        }
    }
}
