//! The calls that the benchmark of the layout counts.
//!
//! `bench_layout cases OPERATION` prints one line for each call: operation, shape, size, and the
//! count of nodes. `bench_layout run OPERATION` makes the calls in that order. The operations are
//! `layout`, with half-widths 0; `wide`, with half-widths of up to 256; and `check`, the table
//! check that is a part of every layout. The trees and half-widths are those of `bench_pointer`.

use reference::ffi::{self, Fields, Slices};
use reference::half_widths::{some_up_to, MOST_HALF_WIDTH};
use reference::random::Random;
use reference::shapes;
use std::env;
use std::hint::black_box;

const SIZES: [usize; 3] = [64, 256, 1_024];
const SEPARATION: u16 = 5;

fn main() {
    let arguments: Vec<String> = env::args().collect();
    let [_, mode, operation] = &arguments[..] else {
        panic!("usage: bench_layout cases|run OPERATION");
    };
    let (mut random, mut widths_random) = (Random::new(1), Random::new(2));
    let (mut places, mut levels) = (vec![0; 1_024], vec![0; 1_024]);
    let (mut record, mut work) = (vec![0; 2_048], vec![0; 16_384]);
    let mut lent = Slices {
        places: &mut places,
        levels: &mut levels,
        record: &mut record,
        work: &mut work,
    };
    for size in SIZES {
        for (shape, table) in shapes::trees_of_each_shape(size, &mut random) {
            if mode == "cases" {
                println!("{operation} {shape} {size} {}", table.len() / 2);
            } else {
                let mut fields = Fields::default();
                let table = black_box(&table);
                let nodes = table.len() / 2;
                let half_widths = match operation.as_str() {
                    "wide" => some_up_to(MOST_HALF_WIDTH, nodes, &mut widths_random),
                    _ => vec![0; nodes],
                };
                let number = match operation.as_str() {
                    "layout" | "wide" => {
                        ffi::layout(table, SEPARATION, &half_widths, &mut lent, &mut fields)
                    }
                    "check" => ffi::check_table(table, &mut fields.nodes),
                    _ => panic!("an operation is layout, wide or check"),
                };
                assert_eq!(number, 0);
                black_box(fields);
            }
        }
    }
}
