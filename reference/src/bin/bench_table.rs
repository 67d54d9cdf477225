//! The calls that the benchmark of the table operations counts.
//!
//! `bench_table cases OPERATION` prints one line for each call: operation, shape, size, and the
//! count of nodes. `bench_table run OPERATION` makes the calls in that order.

use reference::ffi;
use reference::random::Random;
use reference::shapes;
use std::env;
use std::hint::black_box;

const SIZES: [usize; 3] = [64, 256, 1_024];

struct Case {
    shape: &'static str,
    nodes: usize,
    table: Vec<u16>,
}

fn cases() -> Vec<Case> {
    let mut random = Random::new(1);
    let mut cases = Vec::new();
    for nodes in SIZES {
        let tree = shapes::random(nodes, &mut random);
        for (shape, table) in [
            ("chain", shapes::chain(nodes)),
            ("star", shapes::star(nodes)),
            ("random", shapes::renumbered_at_random(&tree, &mut random)),
            ("ring", shapes::ring(nodes)),
            ("strays", shapes::strays(nodes)),
        ] {
            cases.push(Case {
                shape,
                nodes,
                table,
            });
        }
    }
    cases
}

fn call(operation: &str, table: &[u16]) -> u16 {
    let mut out = vec![0; table.len()];
    let mut map = vec![0; table.len() / 2];
    match operation {
        "check" => ffi::check_table(table, &mut map[0]),
        "mirror" => ffi::mirror(table, &mut out),
        "renumber" => ffi::renumber(table, &mut out, &mut map),
        _ => panic!("an operation is check, mirror or renumber"),
    }
}

fn main() {
    let arguments: Vec<String> = env::args().collect();
    let [_, mode, operation] = &arguments[..] else {
        panic!("usage: bench_table cases|run OPERATION");
    };
    for Case {
        shape,
        nodes,
        table,
    } in cases()
    {
        if mode == "cases" {
            println!("{operation} {shape} {nodes} {nodes}");
        } else {
            black_box(call(operation, black_box(&table)));
        }
    }
}
