//! The whole way of a sheet from its bytes to its listing: the calls that the benchmark counts, and
//! their times beside those of the model and of the plain baseline.
//!
//! `bench_listing cases OPERATION` prints one line for each call: operation, shape, size, and the
//! count of nodes. `bench_listing run OPERATION` makes the calls in that order. The operations are
//! `library` and `hand`, the baseline that is formatted by hand.
//!
//! `bench_listing sheets FOLDER` writes each sheet and its listing to a folder, as SHAPE.sheet and
//! SHAPE.listing. `bench_listing time` prints one line for each sheet: its shape, and the
//! nanoseconds of a call of the library, of the model, and of the baseline formatted by the
//! standard library and by hand, each the least of many batches that take turns.

use reference::ffi::{self, TEXT_ROOM};
use reference::listing::listing;
use reference::plain::Plain;
use reference::random::Random;
use reference::shapes;
use reference::sheet::{self, Sheet};
use std::env;
use std::fs;
use std::hint::black_box;
use std::path::Path;
use std::time::Instant;

const NODES: usize = 1_024;
const SEPARATION: u16 = 5;
const BATCHES: usize = 60;
const CALLS: u32 = 20;

/// The model takes so long that one call is a batch.
const MODEL_CALLS: u32 = 1;

struct Case {
    shape: &'static str,
    nodes: usize,
    file: Vec<u8>,
}

/// The trees of `time_layout`, with tape numbers of up to 32 bits and half-widths 0.
fn cases() -> Vec<Case> {
    let mut random = Random::new(1);
    let trees = shapes::trees_of_each_shape(NODES, &mut random);
    trees
        .into_iter()
        .map(|(shape, table)| Case {
            shape,
            nodes: table.len() / 2,
            file: sheet::write(&Sheet {
                separation: SEPARATION,
                tapes: table.iter().map(|_| random.word()).collect(),
                half_widths: vec![0; table.len() / 2],
                table,
            }),
        })
        .collect()
}

/// Found by its symbol.
#[no_mangle]
#[inline(never)]
fn plain_by_hand(plain: &mut Plain, file: &[u8]) -> usize {
    plain.by_hand(file).len()
}

fn call(operation: &str, file: &[u8], text: &mut [u8], plain: &mut Plain) -> usize {
    match operation {
        "library" => ffi::list_sheet(file, text),
        "hand" => plain_by_hand(plain, file),
        _ => panic!("an operation is library or hand"),
    }
}

/// The nanoseconds of one call, over a batch of them.
fn batch(calls: u32, mut call: impl FnMut()) -> f64 {
    let start = Instant::now();
    for _ in 0..calls {
        call();
    }
    start.elapsed().as_nanos() as f64 / f64::from(calls)
}

/// The least times of the library, the model, and the baseline in its two ways.
fn times(file: &[u8]) -> [f64; 4] {
    let mut text = vec![0; TEXT_ROOM];
    let mut plain = Plain::new(NODES);
    let wanted = listing(file);
    let length = ffi::list_sheet(file, &mut text);
    assert!(text[..length] == wanted, "the library agrees");
    assert!(plain.formatted(file) == wanted, "the baseline agrees");
    assert!(plain.by_hand(file) == wanted, "the baseline agrees");
    let mut least = [f64::INFINITY; 4];
    for _ in 0..BATCHES {
        let times = [
            batch(CALLS, || {
                black_box(ffi::list_sheet(black_box(file), &mut text));
            }),
            batch(MODEL_CALLS, || {
                black_box(listing(black_box(file)));
            }),
            batch(CALLS, || {
                black_box(plain.formatted(black_box(file)));
            }),
            batch(CALLS, || {
                black_box(plain.by_hand(black_box(file)));
            }),
        ];
        for (least, time) in least.iter_mut().zip(times) {
            *least = least.min(time);
        }
    }
    least
}

fn main() {
    let arguments: Vec<String> = env::args().skip(1).collect();
    let arguments: Vec<&str> = arguments.iter().map(String::as_str).collect();
    let mut text = vec![0; TEXT_ROOM];
    let mut plain = Plain::new(NODES);
    for Case { shape, nodes, file } in cases() {
        match arguments[..] {
            ["cases", operation] => println!("{operation} {shape} {NODES} {nodes}"),
            ["run", operation] => {
                let length = call(operation, black_box(&file), &mut text, &mut plain);
                assert_ne!(black_box(length), 0);
            }
            ["sheets", folder] => {
                let path = Path::new(folder).join(shape);
                for (kind, bytes) in [("sheet", &file), ("listing", &listing(&file))] {
                    fs::write(path.with_extension(kind), bytes).expect("a file can be written");
                }
            }
            ["time"] => {
                let times = times(&file).map(|time| format!("{time:.0}"));
                println!("{shape} {}", times.join(" "));
            }
            _ => panic!("usage: bench_listing cases|run OPERATION, sheets FOLDER, or time"),
        }
    }
}
