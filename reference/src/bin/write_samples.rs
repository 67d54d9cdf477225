//! Writes the sheets, listings and texts of the folder `samples/`:
//! `cargo run --offline --release --features samples --bin write_samples`

use reference::samples;
use std::fs;

fn main() {
    let folder = samples::folder();
    fs::create_dir_all(&folder).expect("the folder can be made");
    for (name, bytes) in samples::files() {
        fs::write(folder.join(&name), &bytes).expect("the file can be written");
        println!("{name}: {} bytes", bytes.len());
    }
}
