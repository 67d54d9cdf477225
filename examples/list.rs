// rustc --edition 2021 -D warnings examples/list.rs -C link-arg=crates/exports/out/libexports.a -o list
use std::io::{self, Read, Write};

extern "C" {
    fn hiwenoka_list_sheet(file: *const u8, file_len: usize, out: *mut u8, out_len: usize) -> usize;
}

fn main() -> io::Result<()> {
    let (mut file, mut text) = (Vec::new(), [0; 41_024]);
    io::stdin().take(11_265).read_to_end(&mut file)?;
    // SAFETY: both pointers come from buffers of the stated lengths.
    let end = unsafe { hiwenoka_list_sheet(file.as_ptr(), file.len(), text.as_mut_ptr(), text.len()) };
    io::stdout().write_all(&text[..end])
}
