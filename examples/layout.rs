// Lays a tree out and prints each node's number, level and place, and then the pairs of neighbours
// in reading order. From the repository's root:
//
//     rustc --edition 2021 -D warnings examples/layout.rs -C link-arg=crates/exports/out/libexports.a -o layout

const NONE: u16 = 65_535;
const N: usize = 5;

extern "C" {
    fn hiwenoka_layout(
        table: *const u16, table_len: usize, separation: u16,
        half_widths: *const u16, half_widths_len: usize,
        places: *mut i32, places_len: usize, levels: *mut u16, levels_len: usize,
        record: *mut u16, record_len: usize, work: *mut i32, work_len: usize,
        nodes: &mut u16, level_count: &mut u16,
        least: &mut i32, greatest: &mut i32, pairs: &mut u16,
    ) -> u16;
}

fn main() {
    // The root 0 has the children 1 and 4, and node 1 has the children 2 and 3.
    let table: [u16; 2 * N] = [1, NONE, 2, 4, NONE, 3, NONE, NONE, NONE, NONE];
    // Nodes 2 and 3 need 3 + 0 + 5 between them, nodes 1 and 4 need 3 + 2 + 1.
    let half_widths: [u16; N] = [4, 2, 0, 5, 1];
    let (mut places, mut levels, mut record, mut work) = ([0; N], [0; N], [0; 2 * N], [0; 16 * N]);
    let (mut nodes, mut level_count, mut least, mut greatest, mut pairs) = (0, 0, 0, 0, 0);
    // SAFETY: each pointer comes from an array of the stated length, and none overlaps another.
    let number = unsafe {
        hiwenoka_layout(
            table.as_ptr(), 2 * N, 3, half_widths.as_ptr(), N,
            places.as_mut_ptr(), N, levels.as_mut_ptr(), N,
            record.as_mut_ptr(), 2 * N, work.as_mut_ptr(), 16 * N,
            &mut nodes, &mut level_count, &mut least, &mut greatest, &mut pairs,
        )
    };
    assert_eq!(number, 0, "refused");
    for node in 0..usize::from(nodes) {
        println!("{node} {} {}", levels[node], places[node]);
    }
    for pair in record[..2 * usize::from(pairs)].chunks(2) {
        println!("{} beside {}", pair[0], pair[1]);
    }
}
