//! The calls that the benchmark of sheet files counts.
//!
//! `bench_sheet cases OPERATION` prints one line for each call: operation, kind of file, count of
//! blocks, and the count of bytes. `bench_sheet run OPERATION` makes the calls in that order. The
//! operations are `read`, `write`, and `check`: the table check, which a write begins with. The trees
//! are random.

use reference::ffi;
use reference::half_widths;
use reference::random::Random;
use reference::shapes;
use reference::sheet::{self, Sheet};
use std::env;
use std::hint::black_box;

/// Blocks and the most nodes that they hold.
const SIZES: [(usize, usize); 3] = [(2, 50), (9, 400), (22, 1_024)];

fn random_sheet(nodes: usize, random: &mut Random) -> Sheet {
    let tree = shapes::random(nodes, random);
    Sheet {
        separation: 5,
        table: shapes::renumbered_at_random(&tree, random),
        tapes: (0..2 * nodes).map(|_| random.word()).collect(),
        half_widths: half_widths::of_any_kind(nodes, random),
    }
}

fn read(file: &[u8], nodes: usize) -> u16 {
    let (mut table, mut tapes) = (vec![0; 2 * nodes], vec![0; 2 * nodes]);
    let (mut half_widths, mut n, mut separation) = (vec![0; nodes], 0, 0);
    ffi::read_sheet(
        file,
        &mut table,
        &mut tapes,
        &mut half_widths,
        &mut n,
        &mut separation,
    )
}

fn write(sheet: &Sheet, len: usize) -> u16 {
    let (mut out, mut bytes) = (vec![0; len], 0);
    ffi::write_sheet(
        &sheet.table,
        sheet.separation,
        &sheet.tapes,
        &sheet.half_widths,
        &mut out,
        &mut bytes,
    )
}

fn main() {
    let arguments: Vec<String> = env::args().collect();
    let [_, mode, operation] = &arguments[..] else {
        panic!("usage: bench_sheet cases|run OPERATION");
    };
    let mut random = Random::new(1);
    for (blocks, nodes) in SIZES {
        let sheet = random_sheet(nodes, &mut random);
        let file = sheet::write(&sheet);
        if mode == "cases" {
            println!("{operation} full {blocks} {}", file.len());
        } else {
            let number = match operation.as_str() {
                "read" => read(black_box(&file), nodes),
                "write" => write(black_box(&sheet), file.len()),
                "check" => ffi::check_table(black_box(&sheet.table), &mut 0),
                _ => panic!("an operation is read, write or check"),
            };
            assert_eq!(number, 0);
        }
    }
}
