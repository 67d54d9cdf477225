// rustc --edition 2021 -D warnings examples/newick.rs -C link-arg=crates/exports/out/libexports.a -o newick
// Reads a tree from a Newick text, stores it as a sheet file and prints the file's listing.
use std::io::{self, Read, Write};

const D: u16 = 4;

extern "C" {
    fn hiwenoka_read_newick(
        text: *const u8, text_len: usize, table: *mut u16, table_len: usize,
        tapes: *mut u16, tapes_len: usize, nodes: &mut u16,
    ) -> u16;
    fn hiwenoka_write_sheet(
        table: *const u16, table_len: usize, separation: u16, tapes: *const u16, tapes_len: usize,
        half_widths: *const u16, half_widths_len: usize,
        out: *mut u8, out_len: usize, bytes: &mut u16,
    ) -> u16;
    fn hiwenoka_list_sheet(file: *const u8, file_len: usize, out: *mut u8, out_len: usize) -> usize;
}

fn main() -> io::Result<()> {
    let mut newick = Vec::new();
    io::stdin().take(16_385).read_to_end(&mut newick)?;
    let (mut table, mut tapes, mut nodes) = ([0; 2_048], [0; 2_048], 0);
    // SAFETY: here and below each pointer comes from a buffer of the stated length, and none
    // overlaps another.
    let number = unsafe {
        hiwenoka_read_newick(
            newick.as_ptr(), newick.len(), table.as_mut_ptr(), table.len(),
            tapes.as_mut_ptr(), tapes.len(), &mut nodes,
        )
    };
    if number != 0 {
        return writeln!(io::stdout(), "refused {number}");
    }
    // What was read is well-formed, so that it can be written; a text has no half-widths.
    let entries = 2 * usize::from(nodes);
    let half_widths = [0; 1_024];
    let (mut file, mut bytes, mut text) = ([0; 11_264], 0, [0; 41_024]);
    let end = unsafe {
        hiwenoka_write_sheet(
            table.as_ptr(), entries, D, tapes.as_ptr(), entries,
            half_widths.as_ptr(), usize::from(nodes),
            file.as_mut_ptr(), file.len(), &mut bytes,
        );
        hiwenoka_list_sheet(file.as_ptr(), usize::from(bytes), text.as_mut_ptr(), text.len())
    };
    io::stdout().write_all(&text[..end])
}
