// Lays a tree out for the yearbook, which is set with TreeTeX, and prints the extra space and then
// each node's number, level and place: first without an extra space, where the four leaves stand
// evenly, and then with one of 6, which parts the two families. From the repository's root:
//
//     rustc --edition 2021 -D warnings examples/treetex.rs -C link-arg=crates/exports/out/libexports.a -o treetex

const NONE: u16 = 65_535;
const N: usize = 7;
const D: u16 = 4;

extern "C" {
    fn hiwenoka_layout_treetex(
        table: *const u16, table_len: usize, separation: u16,
        half_widths: *const u16, half_widths_len: usize, extra: u16,
        places: *mut i32, places_len: usize, levels: *mut u16, levels_len: usize,
        record: *mut u16, record_len: usize, work: *mut i32, work_len: usize,
        nodes: &mut u16, level_count: &mut u16,
        least: &mut i32, greatest: &mut i32, pairs: &mut u16,
    ) -> u16;
}

fn print_layout(extra: u16) {
    // The root 0 has the children 1 and 4, node 1 has the children 2 and 3, node 4 has 5 and 6.
    let table: [u16; 2 * N] = [1, NONE, 2, 4, NONE, 3, NONE, NONE, 5, NONE, NONE, 6, NONE, NONE];
    let half_widths: [u16; N] = [0; N];
    let (mut places, mut levels, mut record, mut work) = ([0; N], [0; N], [0; 2 * N], [0; 16 * N]);
    let (mut nodes, mut level_count, mut least, mut greatest, mut pairs) = (0, 0, 0, 0, 0);
    // SAFETY: each pointer comes from an array of the stated length, and none overlaps another.
    let number = unsafe {
        hiwenoka_layout_treetex(
            table.as_ptr(), 2 * N, D, half_widths.as_ptr(), N, extra,
            places.as_mut_ptr(), N, levels.as_mut_ptr(), N,
            record.as_mut_ptr(), 2 * N, work.as_mut_ptr(), 16 * N,
            &mut nodes, &mut level_count, &mut least, &mut greatest, &mut pairs,
        )
    };
    assert_eq!(number, 0, "refused");
    println!("extra {extra}");
    for node in 0..usize::from(nodes) {
        println!("{node} {} {}", levels[node], places[node]);
    }
}

fn main() {
    print_layout(0);
    print_layout(6);
}
