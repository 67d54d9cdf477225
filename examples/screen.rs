// Lays a tree out and prints, for a view of it, the number of each node on screen and its distances
// from the middle, across and down; then the same for a view that is refused. From the repository's
// root:
//
//     rustc --edition 2021 -D warnings examples/screen.rs -C link-arg=crates/exports/out/libexports.a -o screen

const NONE: u16 = 65_535;
const N: usize = 5;

extern "C" {
    fn hiwenoka_layout(
        table: *const u16, table_len: usize, separation: u16,
        half_widths: *const u16, half_widths_len: usize,
        places: *mut i32, places_len: usize, levels: *mut u16, levels_len: usize,
        record: *mut u16, record_len: usize, work: *mut i32, work_len: usize,
        nodes: &mut u16, level_count: &mut u16,
        least: &mut i32, greatest: &mut i32, pairs: &mut u16,
    ) -> u16;
    fn hiwenoka_on_screen(
        across: f64, down: f64, zoom: f64, level: u16, place: i32,
        on: &mut u8, x: &mut f64, y: &mut f64,
    ) -> u16;
}

fn show(across: f64, down: f64, zoom: f64, levels: &[u16], places: &[i32]) {
    for (node, (&level, &place)) in levels.iter().zip(places).enumerate() {
        let (mut on, mut x, mut y) = (0, 0.0, 0.0);
        // SAFETY: the results are three variables.
        let number = unsafe {
            hiwenoka_on_screen(across, down, zoom, level, place, &mut on, &mut x, &mut y)
        };
        if number != 0 {
            println!("refused {number}");
            return;
        }
        if on == 1 {
            // Eight times a distance is a whole number, so that three digits are enough.
            println!("{node} {x:.3} {y:.3}");
        }
    }
}

fn main() {
    // The root 0 has the children 1 and 4, and node 1 has the children 2 and 3.
    let table: [u16; 2 * N] = [1, NONE, 2, 4, NONE, 3, NONE, NONE, NONE, NONE];
    // Nodes 2 and 3 need 1,024 + 256 + 256 between them, nodes 1 and 4 need 1,024.
    let half_widths: [u16; N] = [0, 0, 256, 256, 0];
    let (mut places, mut levels, mut record, mut work) = ([0; N], [0; N], [0; 2 * N], [0; 16 * N]);
    let (mut nodes, mut level_count, mut least, mut greatest, mut pairs) = (0, 0, 0, 0, 0);
    // SAFETY: each pointer comes from an array of the stated length, and none overlaps another.
    let number = unsafe {
        hiwenoka_layout(
            table.as_ptr(), 2 * N, 1_024, half_widths.as_ptr(), N,
            places.as_mut_ptr(), N, levels.as_mut_ptr(), N,
            record.as_mut_ptr(), 2 * N, work.as_mut_ptr(), 16 * N,
            &mut nodes, &mut level_count, &mut least, &mut greatest, &mut pairs,
        )
    };
    assert_eq!(number, 0, "refused");
    // Node 3 stands on the edge of this view, and node 4 is off.
    show(-7_424.0, 61.0, 0.125, &levels, &places);
    show(-7_424.0, 61.0, 3.0, &levels, &places);
}
