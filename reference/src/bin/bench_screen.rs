//! The calls that the benchmark of the studio screen counts.
//!
//! `bench_screen cases KIND` prints one line for each call: two words for what comes of it, eight
//! times the zoom, and 1 for the one call. `bench_screen run KIND` makes the calls in that order.
//! The kinds are `zooms`, nodes on screen, off and refused at each zoom, and `others`, zooms that
//! are refused.

use reference::ffi;
use reference::screen::{View, ZOOMS};
use std::env;
use std::hint::black_box;

/// Eight times some other zooms.
const OTHERS: [i64; 4] = [0, 3, 24, 128];

const FAR: i32 = 1_000_000;
const TOO_FAR: i32 = 2_097_153;

/// What comes of a call, centre across and down, level and place, and the number and `on`.
type Case = (&'static str, f64, f64, u16, i32, (u16, u8));

const CASES: [Case; 6] = [
    ("on screen", 5.0, 60.0, 1, 7, (0, 1)),
    ("off across", 5.0, 60.0, 1, FAR, (0, 0)),
    ("off down", 5.0, 60.0, 1_000, 7, (0, 0)),
    ("19 across", 5.5, 60.0, 1, 7, (19, 0)),
    ("19 down", 5.0, 60.5, 1, 7, (19, 0)),
    ("19 place", 5.0, 60.0, 1, TOO_FAR, (19, 0)),
];

const REFUSED: Case = ("18 zoom", 5.0, 60.0, 1, 7, (18, 0));

fn main() {
    let arguments: Vec<String> = env::args().collect();
    let [_, mode, kind] = &arguments[..] else {
        panic!("usage: bench_screen cases|run KIND");
    };
    let (cases, zooms) = match kind.as_str() {
        "zooms" => (&CASES[..], &ZOOMS[..]),
        "others" => (&[REFUSED][..], &OTHERS[..]),
        _ => panic!("a kind is zooms or others"),
    };
    for &(name, across, down, level, place, wanted) in cases {
        for &eighths in zooms {
            if mode == "cases" {
                println!("{name} {eighths} 1");
                continue;
            }
            let zoom = eighths as f64 / 8.0;
            let view = black_box(View { across, down, zoom });
            let (mut on, mut x, mut y) = (0, 0.0, 0.0);
            let number = ffi::on_screen(view, level, place, &mut on, &mut x, &mut y);
            assert_eq!((number, on), wanted);
        }
    }
}
