//! The model of the sheet file: its layout, the reader and the writer.

use crate::half_widths;
use crate::table::{over_start, refusal};

pub const BLOCK_BYTES: usize = 512;
pub const BLOCK_WORDS: usize = 256;
pub const MOST_BLOCKS: usize = 22;

/// Rows to a block and words to a row.
pub const BLOCK_ROWS: usize = 50;
pub const ROW_WORDS: usize = 5;

/// Block 0's word 1.
const LAYOUT_NUMBER: u16 = 1;

/// A block's check words: the weighted sum of the words before it, and the word with which the
/// plain sum of all words comes to zero.
pub const WEIGHTED_WORD: usize = 254;
pub const CLOSING_WORD: usize = 255;

const MOST_NODES: u16 = 1_024;
const MOST_SEPARATION: u16 = 1_024;

/// What a call of the reader must give.
#[derive(Debug, PartialEq, Eq)]
pub struct Read {
    pub number: u16,
    pub nodes: u16,
    pub separation: u16,
    pub table: Vec<u16>,
    pub tapes: Vec<u16>,
    pub half_widths: Vec<u16>,
}

/// `table`, `tapes` and `half_widths` are the slices as they are lent.
pub fn read(file: &[u8], table: &[u16], tapes: &[u16], half_widths: &[u16]) -> Read {
    match contents(file, table.len(), tapes.len(), half_widths.len()) {
        Err(number) => Read {
            number,
            nodes: 0,
            separation: 0,
            table: table.to_vec(),
            tapes: tapes.to_vec(),
            half_widths: half_widths.to_vec(),
        },
        Ok(sheet) => Read {
            number: 0,
            nodes: sheet.nodes() as u16,
            separation: sheet.separation,
            table: over_start(table, &sheet.table),
            tapes: over_start(tapes, &sheet.tapes),
            half_widths: over_start(half_widths, &sheet.half_widths),
        },
    }
}

/// What a sheet file says: for each node two words of the table, its tape's low and high word, and
/// its half-width.
#[derive(Clone, Debug, PartialEq, Eq)]
pub struct Sheet {
    pub separation: u16,
    pub table: Vec<u16>,
    pub tapes: Vec<u16>,
    pub half_widths: Vec<u16>,
}

impl Sheet {
    pub fn nodes(&self) -> usize {
        self.table.len() / 2
    }
}

/// The low and the high word of each tape number.
pub fn words_of(tapes: impl IntoIterator<Item = u32>) -> Vec<u16> {
    tapes
        .into_iter()
        .flat_map(|tape| [tape as u16, (tape >> 16) as u16])
        .collect()
}

/// The conditions in the reader's order, then the rows.
fn contents(
    file: &[u8],
    table_len: usize,
    tapes_len: usize,
    half_widths_len: usize,
) -> Result<Sheet, u16> {
    if !file.len().is_multiple_of(BLOCK_BYTES) || !(1_024..=11_264).contains(&file.len()) {
        return Err(9);
    }
    let blocks = blocks_of(file);
    if !blocks.iter().all(|block| sound(block)) {
        return Err(10);
    }
    if !(0..blocks.len()).all(|place| usize::from(blocks[place][0]) == place) {
        return Err(11);
    }
    let (nodes, separation) = (blocks[0][2], blocks[0][3]);
    if !(1..=MOST_NODES).contains(&nodes) || !(1..=MOST_SEPARATION).contains(&separation) {
        return Err(12);
    }
    let nodes = usize::from(nodes);
    if blocks.len() != block_count(nodes) {
        return Err(12);
    }
    for (place, block) in blocks.iter().enumerate() {
        for (index, &word) in block.iter().enumerate() {
            if fixed_word(nodes, place, index).is_some_and(|value| value != word) {
                return Err(12);
            }
        }
    }
    if table_len < 2 * nodes || tapes_len < 2 * nodes || half_widths_len < nodes {
        return Err(7);
    }
    let mut sheet = Sheet {
        separation,
        table: Vec::new(),
        tapes: Vec::new(),
        half_widths: Vec::new(),
    };
    for node in 0..nodes {
        let (place, index) = row_start(node);
        sheet.table.extend(&blocks[place][index..index + 2]);
        sheet.tapes.extend(&blocks[place][index + 2..index + 4]);
        sheet.half_widths.push(blocks[place][index + 4]);
    }
    Ok(sheet)
}

/// The words of each whole block, low byte first.
pub fn blocks_of(file: &[u8]) -> Vec<Vec<u16>> {
    file.chunks_exact(BLOCK_BYTES)
        .map(|block| {
            block
                .chunks_exact(2)
                .map(|bytes| u16::from_le_bytes([bytes[0], bytes[1]]))
                .collect()
        })
        .collect()
}

pub fn bytes_of(blocks: &[Vec<u16>]) -> Vec<u8> {
    blocks
        .iter()
        .flatten()
        .flat_map(|word| word.to_le_bytes())
        .collect()
}

/// The sum of words modulo 65,536.
fn sum(words: &[u16]) -> u16 {
    (words.iter().map(|&word| u32::from(word)).sum::<u32>() % 65_536) as u16
}

/// The sum of words, each times one more than its index, modulo 65,536.
fn weighted_sum(words: &[u16]) -> u16 {
    let weighted = (1..)
        .zip(words)
        .map(|(weight, &word)| weight * u32::from(word));
    (weighted.sum::<u32>() % 65_536) as u16
}

/// Whether both of a block's sums are right.
fn sound(block: &[u16]) -> bool {
    weighted_sum(&block[..WEIGHTED_WORD]) == block[WEIGHTED_WORD] && sum(block) == 0
}

/// Sets both check words so that the block is sound.
pub fn close(block: &mut [u16]) {
    mend_weighted(block);
    mend_plain(block);
}

/// Makes the weighted sum right by its word, and leaves the plain one as it comes to be.
pub fn mend_weighted(block: &mut [u16]) {
    block[WEIGHTED_WORD] = weighted_sum(&block[..WEIGHTED_WORD]);
}

/// Makes the plain sum right by the closing word, whatever the weighted one is.
pub fn mend_plain(block: &mut [u16]) {
    let open_sum = sum(&block[..CLOSING_WORD]);
    block[CLOSING_WORD] = ((65_536 - u32::from(open_sum)) % 65_536) as u16;
}

/// Block 0 and just enough blocks for the rows.
pub fn block_count(nodes: usize) -> usize {
    1 + nodes.div_ceil(BLOCK_ROWS)
}

/// The bytes of a file of so many nodes.
pub fn file_len(nodes: usize) -> usize {
    BLOCK_BYTES * block_count(nodes)
}

/// The block of a node's row and the index of its first word there.
pub fn row_start(node: usize) -> (usize, usize) {
    (1 + node / BLOCK_ROWS, 2 + ROW_WORDS * (node % BLOCK_ROWS))
}

/// The rows in a block of rows, counted from 1, of a file of this many nodes.
fn row_count(nodes: usize, place: usize) -> usize {
    (nodes - BLOCK_ROWS * (place - 1)).min(BLOCK_ROWS)
}

/// The value of a word that the layout fixes for this many nodes; nothing for n and D, for the
/// words of rows, and for the check words.
pub fn fixed_word(nodes: usize, place: usize, index: usize) -> Option<u16> {
    match (place, index) {
        (_, 0) => Some(place as u16),
        (_, WEIGHTED_WORD | CLOSING_WORD) => None,
        (0, 1) => Some(LAYOUT_NUMBER),
        (0, 2 | 3) => None,
        (0, _) => Some(0),
        (_, 1) => Some(row_count(nodes, place) as u16),
        _ if index - 2 < ROW_WORDS * row_count(nodes, place) => None,
        _ => Some(0),
    }
}

/// What a call of the writer must give.
#[derive(Debug, PartialEq, Eq)]
pub struct Written {
    pub number: u16,
    pub bytes: u16,
    pub out: Vec<u8>,
}

/// The sheet's tapes and half-widths may be fewer or more than its nodes need. `out` is the output
/// slice as it is lent.
pub fn write_sheet(sheet: &Sheet, out: &[u8]) -> Written {
    match write_refusal(sheet, out.len()) {
        0 => {
            let file = write(sheet);
            Written {
                number: 0,
                bytes: file.len() as u16,
                out: over_start(out, &file),
            }
        }
        number => Written {
            number,
            bytes: 0,
            out: out.to_vec(),
        },
    }
}

/// The first of the writer's conditions that holds, in their order, or 0.
fn write_refusal(sheet: &Sheet, out_len: usize) -> u16 {
    let number = refusal(&sheet.table);
    if number != 0 {
        number
    } else if !(1..=MOST_SEPARATION).contains(&sheet.separation) {
        6
    } else if sheet.tapes.len() < sheet.table.len() {
        13
    } else if half_widths::refused(&sheet.half_widths, sheet.nodes()) {
        17
    } else if out_len < file_len(sheet.nodes()) {
        7
    } else {
        0
    }
}

/// The file of a sheet, sound and laid out as the reader wants it.
pub fn write(sheet: &Sheet) -> Vec<u8> {
    let nodes = sheet.nodes();
    let mut blocks: Vec<Vec<u16>> = (0..block_count(nodes))
        .map(|place| {
            (0..BLOCK_WORDS)
                .map(|index| fixed_word(nodes, place, index).unwrap_or(0))
                .collect()
        })
        .collect();
    blocks[0][2] = nodes as u16;
    blocks[0][3] = sheet.separation;
    for node in 0..nodes {
        let (place, index) = row_start(node);
        let row = &mut blocks[place][index..index + ROW_WORDS];
        row[..2].copy_from_slice(&sheet.table[2 * node..2 * node + 2]);
        row[2..4].copy_from_slice(&sheet.tapes[2 * node..2 * node + 2]);
        row[4] = sheet.half_widths[node];
    }
    for block in &mut blocks {
        close(block);
    }
    bytes_of(&blocks)
}

/// The example of the paper: a root with tape 500 and its leaves 501 and 502, D = 3, half-widths 0.
pub fn example() -> Sheet {
    let none = crate::table::NONE;
    Sheet {
        separation: 3,
        table: vec![1, none, none, 2, none, none],
        tapes: vec![500, 0, 501, 0, 502, 0],
        half_widths: vec![0; 3],
    }
}

#[cfg(test)]
mod tests {
    use super::*;
    use crate::files::{old_file, old_file_closed, old_sums, sheet_of_words};
    use crate::random::Random;
    use crate::shapes::chain;
    use crate::table::NONE;

    #[test]
    fn the_example_of_the_paper() {
        let sheet = example();
        let file = write(&sheet);
        let blocks = blocks_of(&file);
        assert_eq!(blocks.len(), 2);
        assert_eq!(blocks[0][..5], [0, 1, 3, 3, 0]);
        assert_eq!(blocks[0][254..], [23, 65_506]);
        let rows = [
            [1, NONE, 500, 0, 0],
            [NONE, 2, 501, 0, 0],
            [NONE, NONE, 502, 0, 0],
        ];
        assert_eq!(blocks[1][..2], [1, 3]);
        assert_eq!(blocks[1][2..17], rows.concat());
        assert_eq!(blocks[1][254..], [15_029, 49_001]);
        let read = read(&file, &[9; 7], &[8; 6], &[7; 5]);
        assert_eq!((read.number, read.nodes, read.separation), (0, 3, 3));
        assert_eq!(read.table[..6], sheet.table);
        assert_eq!(read.table[6], 9);
        assert_eq!(read.tapes, sheet.tapes);
        assert_eq!(read.half_widths, [0, 0, 0, 7, 7]);
    }

    #[test]
    fn the_half_width_stands_last_in_its_row() {
        let mut sheet = example();
        sheet.half_widths = vec![7, 256, 65_535];
        let blocks = blocks_of(&write(&sheet));
        let (first, last) = ([1, NONE, 500, 0, 7], [NONE, NONE, 502, 0, 65_535]);
        assert_eq!(blocks[1][2..7], first);
        assert_eq!(blocks[1][11], 256);
        assert_eq!(blocks[1][12..17], last);
        assert_eq!(blocks[1][17..254], [0; 237]);
    }

    #[test]
    fn sums_of_words() {
        assert_eq!((sum(&[]), weighted_sum(&[])), (0, 0));
        assert_eq!(weighted_sum(&[5, 0, 7]), 5 + 21);
        assert_eq!(weighted_sum(&[0, 32_768, 0, 16_384]), 0);
        // The greatest words are one less than 0: 1 + 2 + ... + 254 of them.
        assert_eq!(weighted_sum(&[65_535; 254]), (65_536_u32 - 32_385) as u16);
        assert_eq!(sum(&[65_535; 254]), (65_536_u32 - 254) as u16);
    }

    #[test]
    fn each_sum_is_mended_alone() {
        let blocks = blocks_of(&write(&example()));
        let mut block = blocks[1].clone();
        block[4] += 1;
        mend_plain(&mut block);
        assert_eq!((block[254], block[255]), (15_029, 49_000));
        assert!(!sound(&block));
        mend_weighted(&mut block);
        assert_eq!((block[254], block[255]), (15_034, 49_000));
        assert!(!sound(&block));
        mend_plain(&mut block);
        assert_eq!((block[254], block[255]), (15_034, 48_995));
        assert!(sound(&block));
    }

    #[test]
    fn counts_of_blocks() {
        for (nodes, blocks) in [
            (1, 2),
            (50, 2),
            (51, 3),
            (100, 3),
            (101, 4),
            (1_000, 21),
            (1_001, 22),
            (1_024, 22),
        ] {
            assert_eq!(block_count(nodes), blocks);
        }
        assert_eq!(row_count(1_024, 21), 24);
        assert_eq!(row_count(100, 2), 50);
        assert_eq!(row_start(50), (2, 2));
        assert_eq!(row_start(49), (1, 247));
        assert_eq!(fixed_word(50, 1, 251), None);
        for place in 0..2 {
            for index in 252..254 {
                assert_eq!(fixed_word(50, place, index), Some(0));
            }
            for index in 254..256 {
                assert_eq!(fixed_word(50, place, index), None);
            }
        }
    }

    #[test]
    fn what_is_written_is_read() {
        let mut random = Random::new(3);
        for nodes in [1, 2, 49, 50, 51, 100, 101, 500, 1_000, 1_001, 1_024] {
            let sheet = sheet_of_words(nodes, &mut random);
            let read = contents(&write(&sheet), 2 * nodes, 2 * nodes, nodes);
            assert_eq!(read, Ok(sheet));
        }
    }

    #[test]
    fn refusals_in_order() {
        let file = write(&example());
        let number = |file: &[u8]| read(file, &[0; 6], &[0; 6], &[0; 3]).number;
        assert_eq!(number(&[]), 9);
        assert_eq!(number(&file[..512]), 9);
        assert_eq!(number(&file[..1_023]), 9);
        assert_eq!(number(&[0; 11_264]), 11);
        assert_eq!(number(&[0; 11_776]), 9);
        assert_eq!(number(&[0; 1_024]), 11);
        let mut flipped = file.clone();
        flipped[600] ^= 1;
        assert_eq!(number(&flipped), 10);
        let changed_and = |mend: fn(&mut [u16]), place: usize, index: usize, value: u16| {
            let mut blocks = blocks_of(&file);
            blocks[place][index] = value;
            mend(&mut blocks[place]);
            number(&bytes_of(&blocks))
        };
        for mend in [mend_weighted, mend_plain] {
            assert_eq!(changed_and(mend, 0, 0, 1), 10);
            assert_eq!(changed_and(mend, 0, 253, 1), 10);
            assert_eq!(changed_and(mend, 1, 4, 501), 10);
        }
        assert_eq!(changed_and(mend_plain, 1, 254, 0), 10);
        assert_eq!(changed_and(mend_plain, 1, 255, 0), 0);
        assert_eq!(changed_and(mend_weighted, 1, 254, 0), 0);
        assert_eq!(changed_and(mend_weighted, 1, 255, 0), 10);
        // 32,768 is nothing at an even weight; at an odd one the weighted sum changes by it too.
        assert_eq!(changed_and(mend_plain, 1, 5, 32_768), 0);
        assert_eq!(changed_and(mend_weighted, 1, 6, 32_768), 0);
        let mut swapped = blocks_of(&file);
        swapped[1].swap(4, 5);
        assert_eq!(number(&bytes_of(&swapped)), 10);
        let changed = |place, index, value| changed_and(close, place, index, value);
        assert_eq!(changed(1, 0, 2), 11);
        assert_eq!(changed(0, 1, 0), 12);
        assert_eq!(changed(0, 1, 1), 0);
        assert_eq!(changed(0, 1, 2), 12);
        assert_eq!(changed(0, 2, 0), 12);
        assert_eq!(changed(0, 2, 4), 12);
        assert_eq!(changed(0, 3, 0), 12);
        assert_eq!(changed(0, 3, 1_024), 0);
        assert_eq!(changed(0, 3, 1_025), 12);
        assert_eq!(changed(0, 253, 1), 12);
        assert_eq!(changed(0, 254, 1), 0);
        assert_eq!(changed(1, 1, 50), 12);
        assert_eq!(changed(1, 16, 65_535), 0);
        assert_eq!(changed(1, 17, 1), 12);
        assert_eq!(changed(1, 253, 1), 12);
        assert_eq!(changed(1, 254, 1), 0);
        assert_eq!(number(&old_sums(&file)), 10);
        assert_eq!(number(&old_file(&example())), 10);
        assert_eq!(number(&old_file_closed(&example())), 12);
        assert_eq!(read(&file, &[0; 5], &[0; 6], &[0; 3]).number, 7);
        assert_eq!(read(&file, &[0; 6], &[0; 5], &[0; 3]).number, 7);
        assert_eq!(read(&file, &[0; 6], &[0; 6], &[0; 2]).number, 7);
    }

    #[test]
    fn a_call_of_the_writer() {
        let sheet = example();
        let mut more = sheet.clone();
        more.tapes.push(9);
        more.half_widths.push(257);
        let written = write_sheet(&more, &[8; 1_026]);
        assert_eq!((written.number, written.bytes), (0, 1_024));
        assert_eq!(written.out[..1_024], write(&sheet));
        assert_eq!(written.out[1_024..], [8; 2]);
        let refused = Written {
            number: 7,
            bytes: 0,
            out: vec![8; 1_023],
        };
        assert_eq!(write_sheet(&more, &[8; 1_023]), refused);
    }

    #[test]
    fn refusals_of_the_writer_in_order() {
        let number = |table: &[u16], separation, tapes_len, half_widths: &[u16], out_len| {
            let sheet = Sheet {
                separation,
                table: table.to_vec(),
                tapes: vec![0; tapes_len],
                half_widths: half_widths.to_vec(),
            };
            write_refusal(&sheet, out_len)
        };
        let table = example().table;
        for (wanted, broken) in [
            (1, &table[..5]),
            (2, &[3, NONE, NONE, 2, NONE, NONE]),
            (3, &[1, 2, NONE, 2, NONE, NONE]),
            (4, &[1, NONE, 1, 2, NONE, NONE]),
            (5, &[1, NONE, NONE, NONE, NONE, NONE]),
            (14, &[1, NONE, NONE, NONE, NONE, 2]),
        ] {
            assert_eq!(number(broken, 0, 0, &[], 0), wanted);
            assert_eq!(number(broken, 1, 6, &[0; 3], 1_024), wanted);
        }
        assert_eq!(number(&table, 0, 5, &[0; 2], 1_023), 6);
        assert_eq!(number(&table, 1_025, 6, &[0; 3], 1_024), 6);
        assert_eq!(number(&table, 1_024, 5, &[0; 2], 1_023), 13);
        assert_eq!(number(&table, 1, 5, &[0; 3], 1_024), 13);
        assert_eq!(number(&table, 1, 6, &[0; 2], 1_023), 17);
        assert_eq!(number(&table, 1, 6, &[0, 0, 257], 1_024), 17);
        assert_eq!(number(&table, 1, 6, &[256; 3], 1_023), 7);
        assert_eq!(number(&table, 1, 6, &[256; 3], 1_024), 0);
        let full = chain(1_024);
        assert_eq!(number(&full, 1, 2_048, &[0; 1_024], 11_263), 7);
        assert_eq!(number(&full, 1, 2_048, &[0; 1_024], 11_264), 0);
    }
}
