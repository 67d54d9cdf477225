//! The whole way from a sheet file to its listing as one would plainly write it for speed: the
//! speed baseline of the listing.
//!
//! The file is taken as sound and its tree as well-formed, so that only n, D and the rows are read.
//! The places come by the published pointer method, without its record. The lines are formatted in
//! one of two ways: by `write!` of the standard library, or by hand, two digits at a time and each
//! byte in its place at once.

use crate::pointer::{Extent, Pointers};
use crate::sheet::{row_start, BLOCK_BYTES, BLOCK_ROWS, ROW_WORDS};
use std::io::{self, Write};

/// The longest lines, with a little to spare.
const SHEET_LINE_ROOM: usize = 64;
const NODE_LINE_ROOM: usize = 40;

/// The memory of one listing, kept so that one after another needs no more.
pub struct Plain {
    pointers: Pointers,
    sheet: Sheet,
    places: Vec<i32>,
    levels: Vec<u16>,
    /// What is formatted by the standard library.
    text: Vec<u8>,
    /// What is formatted by hand.
    room: Vec<u8>,
}

#[derive(Default)]
struct Sheet {
    separation: u16,
    table: Vec<u16>,
    tapes: Vec<u32>,
    half_widths: Vec<u16>,
}

impl Sheet {
    fn read(&mut self, file: &[u8]) {
        let (header, rows) = file.split_at(BLOCK_BYTES);
        let nodes = usize::from(word(header, 2));
        self.separation = word(header, 3);
        self.table.clear();
        self.tapes.clear();
        self.half_widths.clear();
        let (_, first) = row_start(0);
        let rows = rows.chunks_exact(BLOCK_BYTES).flat_map(|block| {
            block[2 * first..2 * (first + ROW_WORDS * BLOCK_ROWS)].chunks_exact(2 * ROW_WORDS)
        });
        for row in rows.take(nodes) {
            self.table.extend([word(row, 0), word(row, 1)]);
            let tape = u32::from(word(row, 2)) | u32::from(word(row, 3)) << 16;
            self.tapes.push(tape);
            self.half_widths.push(word(row, 4));
        }
    }
}

/// A word of 16 bits, low byte first.
#[inline(always)]
fn word(bytes: &[u8], index: usize) -> u16 {
    u16::from_le_bytes([bytes[2 * index], bytes[2 * index + 1]])
}

impl Plain {
    pub fn new(most_nodes: usize) -> Self {
        Plain {
            pointers: Pointers::new(most_nodes),
            sheet: Sheet::default(),
            places: vec![0; most_nodes],
            levels: vec![0; most_nodes],
            text: Vec::new(),
            room: vec![0; SHEET_LINE_ROOM + NODE_LINE_ROOM * most_nodes],
        }
    }

    fn lay_out(&mut self, file: &[u8]) -> Extent {
        self.sheet.read(file);
        self.pointers.lay_out::<false>(
            &self.sheet.table,
            self.sheet.separation,
            &self.sheet.half_widths,
            &mut self.places,
            &mut self.levels,
            &mut [],
        )
    }

    /// The listing, formatted by the standard library.
    pub fn formatted(&mut self, file: &[u8]) -> &[u8] {
        let extent = self.lay_out(file);
        self.text.clear();
        self.write_lines(&extent).expect("a vector takes all bytes");
        &self.text
    }

    fn write_lines(&mut self, extent: &Extent) -> io::Result<()> {
        writeln!(
            self.text,
            "sheet {} {} {} {} {}",
            self.sheet.tapes.len(),
            extent.level_count,
            self.sheet.separation,
            extent.least,
            extent.greatest
        )?;
        for (node, tape) in self.sheet.tapes.iter().enumerate() {
            let (level, place) = (self.levels[node], self.places[node]);
            writeln!(self.text, "{node} {level} {place} {tape}")?;
        }
        Ok(())
    }

    /// The listing, formatted by hand, from its last line to its first.
    pub fn by_hand(&mut self, file: &[u8]) -> &[u8] {
        let extent = self.lay_out(file);
        let nodes = self.sheet.tapes.len();
        let mut text = Backwards::new(&mut self.room);
        for node in (0..nodes).rev() {
            text.put_number(self.sheet.tapes[node], b'\n');
            text.put_signed(self.places[node], b' ');
            text.put_number(u32::from(self.levels[node]), b' ');
            text.put_number(node as u32, b' ');
        }
        text.put_signed(extent.greatest, b'\n');
        text.put_signed(extent.least, b' ');
        text.put_number(u32::from(self.sheet.separation), b' ');
        text.put_number(u32::from(extent.level_count), b' ');
        text.put_number(nodes as u32, b' ');
        for &byte in b"sheet ".iter().rev() {
            text.put(byte);
        }
        let start = text.start;
        &self.room[start..]
    }
}

/// A text that is written from its end to its start, so that no digits need be counted.
struct Backwards<'a> {
    room: &'a mut [u8],
    start: usize,
}

/// The digits of 0 to 99, two for each.
const PAIRS: [[u8; 2]; 100] = {
    let mut pairs = [[0; 2]; 100];
    let mut number = 0;
    while number < 100 {
        pairs[number] = [b'0' + number as u8 / 10, b'0' + number as u8 % 10];
        number += 1;
    }
    pairs
};

impl<'a> Backwards<'a> {
    fn new(room: &'a mut [u8]) -> Self {
        let start = room.len();
        Backwards { room, start }
    }

    #[inline(always)]
    fn put(&mut self, byte: u8) {
        self.start -= 1;
        self.room[self.start] = byte;
    }

    #[inline(always)]
    fn put_pair(&mut self, number: u32) {
        self.start -= 2;
        self.room[self.start..self.start + 2].copy_from_slice(&PAIRS[number as usize]);
    }

    /// A number and the byte after it.
    #[inline(always)]
    fn put_number(&mut self, number: u32, end: u8) {
        self.put(end);
        let mut rest = number;
        while rest >= 100 {
            self.put_pair(rest % 100);
            rest /= 100;
        }
        if rest >= 10 {
            self.put_pair(rest);
        } else {
            self.put(b'0' + rest as u8);
        }
    }

    /// The same with a sign before a number below 0.
    #[inline(always)]
    fn put_signed(&mut self, number: i32, end: u8) {
        self.put_number(number.unsigned_abs(), end);
        if number < 0 {
            self.put(b'-');
        }
    }
}

#[cfg(test)]
mod tests {
    use super::*;
    use crate::files::random_file;
    use crate::listing::listing;
    use crate::random::Random;
    use crate::shapes::random_table;

    #[test]
    fn agrees_with_the_model() {
        let mut random = Random::new(23);
        let mut plain = Plain::new(1_024);
        let small = (0..400).map(|_| 200);
        for most_nodes in small.chain([1_024; 12]) {
            let nodes = random.between(1, most_nodes);
            let table = random_table(nodes, &mut random);
            let file = random_file(table, &mut random);
            let text = listing(&file);
            assert!(plain.formatted(&file) == text, "{nodes} nodes");
            assert!(plain.by_hand(&file) == text, "{nodes} nodes");
        }
    }
}
