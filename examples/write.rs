// Stores a tree, its tape numbers and its half-widths as a sheet file, reads the file back and
// prints its listing. From the repository's root:
//
//     rustc --edition 2021 -D warnings examples/write.rs -C link-arg=crates/exports/out/libexports.a -o write

use std::io::{self, Write};

const NONE: u16 = 65_535;
const N: usize = 6;
const D: u16 = 4;

extern "C" {
    fn hiwenoka_write_sheet(
        table: *const u16, table_len: usize, separation: u16, tapes: *const u16, tapes_len: usize,
        half_widths: *const u16, half_widths_len: usize,
        out: *mut u8, out_len: usize, bytes: &mut u16,
    ) -> u16;
    fn hiwenoka_read_sheet(
        file: *const u8, file_len: usize, table: *mut u16, table_len: usize,
        tapes: *mut u16, tapes_len: usize, half_widths: *mut u16, half_widths_len: usize,
        nodes: &mut u16, separation: &mut u16,
    ) -> u16;
    fn hiwenoka_list_sheet(file: *const u8, file_len: usize, out: *mut u8, out_len: usize) -> usize;
}

fn main() -> io::Result<()> {
    // Tape 900 was copied to 901 and 902, and 902 to 903, 904 and 70,000.
    let table: [u16; 2 * N] = [1, NONE, NONE, 2, 3, NONE, NONE, 4, NONE, 5, NONE, NONE];
    let tapes: [u32; N] = [900, 901, 902, 903, 904, 70_000];
    let tapes = tapes.map(|tape| [tape as u16, (tape >> 16) as u16]);
    let tapes = tapes.as_flattened();
    // The shelf marks of 902 and 904 are long.
    let half_widths: [u16; N] = [0, 0, 6, 0, 3, 0];
    let (mut file, mut bytes) = ([0; 11_264], 0);
    // SAFETY: here and below each pointer comes from an array of the stated length, and none
    // overlaps another.
    let number = unsafe {
        hiwenoka_write_sheet(
            table.as_ptr(), 2 * N, D, tapes.as_ptr(), 2 * N, half_widths.as_ptr(), N,
            file.as_mut_ptr(), file.len(), &mut bytes,
        )
    };
    assert_eq!(number, 0, "refused");
    let file = &file[..usize::from(bytes)];
    let (mut table_read, mut tapes_read, mut half_widths_read) = ([0; 2 * N], [0; 2 * N], [0; N]);
    let (mut nodes, mut separation) = (0, 0);
    let number = unsafe {
        hiwenoka_read_sheet(
            file.as_ptr(), file.len(), table_read.as_mut_ptr(), 2 * N,
            tapes_read.as_mut_ptr(), 2 * N, half_widths_read.as_mut_ptr(), N,
            &mut nodes, &mut separation,
        )
    };
    assert_eq!((number, usize::from(nodes), separation), (0, N, D), "not read as written");
    assert_eq!((table_read, &tapes_read[..]), (table, tapes), "not read as written");
    assert_eq!(half_widths_read, half_widths, "not read as written");
    let mut text = [0; 41_024];
    let end = unsafe { hiwenoka_list_sheet(file.as_ptr(), file.len(), text.as_mut_ptr(), text.len()) };
    io::stdout().write_all(&text[..end])
}
