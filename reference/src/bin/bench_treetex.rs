//! The calls that the benchmark of the layout for TreeTeX counts.
//!
//! `bench_treetex cases OPERATION` prints one line for each call: operation, shape, size, and the
//! count of nodes. `bench_treetex run OPERATION` makes the calls in that order. The operations are
//! `plain`, the plain layout, and `extra-` with a number, the layout for TreeTeX with that extra
//! space; both of the same trees, with half-widths 0.

use reference::binary_shapes::BINARY;
use reference::ffi::{self, Fields, Slices};
use reference::random::Random;
use std::env;
use std::hint::black_box;

const SIZES: [usize; 3] = [64, 256, 1_024];
const SEPARATION: u16 = 5;

/// One call, which must be accepted.
fn lay_out(table: &[u16], extra: Option<u16>) {
    let nodes = table.len() / 2;
    let half_widths = vec![0; nodes];
    let mut lent = Slices {
        places: &mut vec![0; nodes],
        levels: &mut vec![0; nodes],
        record: &mut vec![0; 2 * nodes],
        work: &mut vec![0; 16 * nodes],
    };
    let mut fields = Fields::default();
    let number = match extra {
        None => ffi::layout(table, SEPARATION, &half_widths, &mut lent, &mut fields),
        Some(extra) => ffi::layout_treetex(
            table,
            SEPARATION,
            &half_widths,
            extra,
            &mut lent,
            &mut fields,
        ),
    };
    assert_eq!(number, 0);
    black_box(fields);
}

fn main() {
    let arguments: Vec<String> = env::args().collect();
    let [_, mode, operation] = &arguments[..] else {
        panic!("usage: bench_treetex cases|run OPERATION");
    };
    let extra = match operation.strip_prefix("extra-") {
        Some(extra) => Some(extra.parse().expect("an extra space is a number")),
        None if operation == "plain" => None,
        None => panic!("an operation is plain or extra- with a number"),
    };
    let mut random = Random::new(1);
    for size in SIZES {
        for (shape, table) in BINARY.trees_of_each_shape(size, &mut random) {
            if mode == "cases" {
                println!("{operation} {shape} {size} {}", table.len() / 2);
            } else {
                lay_out(black_box(&table), extra);
            }
        }
    }
}
