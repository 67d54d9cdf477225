//! The calls that the benchmark of the published pointer method counts, as a baseline.
//!
//! `bench_pointer cases OPERATION` prints one line for each call: operation, shape, size, and the
//! count of nodes. `bench_pointer run OPERATION` makes the calls in that order. The operations are
//! `places` (places, levels and extremes) and `record` (the measured pairs too), with half-widths
//! 0, and `wide`: the same as `record` with half-widths of up to 256. None checks the table.

use reference::half_widths::{some_up_to, MOST_HALF_WIDTH};
use reference::pointer::{Extent, Pointers};
use reference::random::Random;
use reference::shapes;
use std::env;
use std::hint::black_box;

const SIZES: [usize; 3] = [64, 256, 1_024];
const SEPARATION: u16 = 5;

struct Slices {
    pointers: Pointers,
    places: Vec<i32>,
    levels: Vec<u16>,
    record: Vec<u16>,
    half_widths: Vec<u16>,
}

/// Found by its symbol.
#[no_mangle]
#[inline(never)]
fn pointer_places(table: &[u16], slices: &mut Slices) -> Extent {
    slices.pointers.lay_out::<false>(
        table,
        SEPARATION,
        &slices.half_widths,
        &mut slices.places,
        &mut slices.levels,
        &mut [],
    )
}

/// Found by its symbol.
#[no_mangle]
#[inline(never)]
fn pointer_record(table: &[u16], slices: &mut Slices) -> Extent {
    slices.pointers.lay_out::<true>(
        table,
        SEPARATION,
        &slices.half_widths,
        &mut slices.places,
        &mut slices.levels,
        &mut slices.record,
    )
}

fn main() {
    let arguments: Vec<String> = env::args().collect();
    let [_, mode, operation] = &arguments[..] else {
        panic!("usage: bench_pointer cases|run OPERATION");
    };
    let lay_out = match operation.as_str() {
        "places" => pointer_places,
        "record" | "wide" => pointer_record,
        _ => panic!("an operation is places, record or wide"),
    };
    let (mut random, mut widths_random) = (Random::new(1), Random::new(2));
    let mut slices = Slices {
        pointers: Pointers::new(1_024),
        places: vec![0; 1_024],
        levels: vec![0; 1_024],
        record: vec![0; 2_048],
        half_widths: vec![0; 1_024],
    };
    for size in SIZES {
        for (shape, table) in shapes::trees_of_each_shape(size, &mut random) {
            if mode == "cases" {
                println!("{operation} {shape} {size} {}", table.len() / 2);
            } else {
                if operation == "wide" {
                    let nodes = table.len() / 2;
                    slices.half_widths = some_up_to(MOST_HALF_WIDTH, nodes, &mut widths_random);
                }
                black_box(lay_out(black_box(&table), &mut slices));
            }
        }
    }
}
