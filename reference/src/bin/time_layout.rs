//! The time of a layout beside that of the published pointer method, in one run, with half-widths
//! 0.
//!
//! `time_layout trees` prints one line for each tree: its shape, then each node's parent but the
//! root's. `time_layout run` prints one line for each tree in that order: its shape, and the
//! nanoseconds of a layout and of the pointer method with its record, each the least of many
//! batches that take turns.

use reference::ffi::{self, Fields, Slices};
use reference::pointer::Pointers;
use reference::random::Random;
use reference::shapes;
use std::env;
use std::hint::black_box;
use std::time::Instant;

const NODES: usize = 1_024;
const SEPARATION: u16 = 5;
const BATCHES: usize = 60;
const CALLS: u32 = 20;
const NONE: u16 = 65_535;

/// The parent of every node, 65,535 for the root.
fn parents(table: &[u16]) -> Vec<u16> {
    let mut parents = vec![NONE; table.len() / 2];
    for parent in 0..parents.len() {
        let mut child = table[2 * parent];
        while child != NONE {
            parents[usize::from(child)] = parent as u16;
            child = table[2 * usize::from(child) + 1];
        }
    }
    parents
}

/// The nanoseconds of one call, over a batch of them.
fn batch(mut call: impl FnMut()) -> f64 {
    let start = Instant::now();
    for _ in 0..CALLS {
        call();
    }
    start.elapsed().as_nanos() as f64 / f64::from(CALLS)
}

/// The least time of a layout and of the pointer method.
fn times(table: &[u16]) -> (f64, f64) {
    let (mut places, mut levels) = (vec![0; NODES], vec![0; NODES]);
    let (mut record, mut work) = (vec![0; 2 * NODES], vec![0; 16 * NODES]);
    let mut pointers = Pointers::new(NODES);
    let half_widths = vec![0; table.len() / 2];
    let (mut layout, mut pointer) = (f64::INFINITY, f64::INFINITY);
    for _ in 0..BATCHES {
        layout = layout.min(batch(|| {
            let mut lent = Slices {
                places: &mut places,
                levels: &mut levels,
                record: &mut record,
                work: &mut work,
            };
            let mut fields = Fields::default();
            let (table, half_widths) = (black_box(table), black_box(&half_widths));
            let number = ffi::layout(table, SEPARATION, half_widths, &mut lent, &mut fields);
            assert_eq!(number, 0);
            black_box(fields);
        }));
        pointer = pointer.min(batch(|| {
            black_box(pointers.lay_out::<true>(
                black_box(table),
                SEPARATION,
                black_box(&half_widths),
                &mut places,
                &mut levels,
                &mut record,
            ));
        }));
    }
    (layout, pointer)
}

fn main() {
    let mode = env::args().nth(1).unwrap_or_default();
    let mut random = Random::new(1);
    for (shape, table) in shapes::trees_of_each_shape(NODES, &mut random) {
        match mode.as_str() {
            "trees" => {
                let names: Vec<String> = parents(&table)[1..].iter().map(u16::to_string).collect();
                println!("{shape} {}", names.join(" "));
            }
            "run" => {
                let (layout, pointer) = times(&table);
                println!("{shape} {layout:.0} {pointer:.0}");
            }
            _ => panic!("usage: time_layout trees|run"),
        }
    }
}
