//! Makers of sheet files: sound ones of many trees, damaged ones, and bytes that are no sheet.

use crate::half_widths;
use crate::random::Random;
use crate::shapes::{self, random_table};
use crate::sheet::{
    self, words_of, Sheet, BLOCK_BYTES, BLOCK_ROWS, BLOCK_WORDS, CLOSING_WORD, MOST_BLOCKS,
    WEIGHTED_WORD,
};
use crate::table::{MOST_NODES, NONE};

/// A titled maker of many files.
pub struct Kind {
    pub title: &'static str,
    pub make: fn(&mut Random) -> Vec<Vec<u8>>,
}

/// The kinds of files of every comparison of listings.
pub const KINDS: [Kind; 12] = [
    Kind {
        title: "sound sheets of many shapes",
        make: sound_sheets,
    },
    Kind {
        title: "separations at their bounds",
        make: bounds_of_separation,
    },
    Kind {
        title: "half-widths at their bounds and above",
        make: bounds_of_half_widths,
    },
    Kind {
        title: "damaged trees in sound files",
        make: refused_trees,
    },
    Kind {
        title: "files of the old layout and of the old sums",
        make: old_files,
    },
    Kind {
        title: "one to three bits flipped",
        make: flipped_bits,
    },
    Kind {
        title: "words changed, most checks mended",
        make: changed_words,
    },
    Kind {
        title: "words exchanged, and one of the two sums mended",
        make: wrong_sums,
    },
    Kind {
        title: "n and D at their bounds",
        make: bounds_of_header,
    },
    Kind {
        title: "blocks exchanged, doubled and dropped",
        make: moved_blocks,
    },
    Kind {
        title: "files cut off and lengthened",
        make: lengths,
    },
    Kind {
        title: "random bytes, mended by steps",
        make: random_inputs,
    },
];

/// The longest of the random inputs.
const MOST_RANDOM_BYTES: usize = 14_000;

/// The counts of nodes beside each full block of rows, and the least and the greatest.
pub fn edges_of_blocks() -> impl Iterator<Item = usize> {
    (1..MOST_BLOCKS - 1)
        .map(|blocks| BLOCK_ROWS * blocks)
        .flat_map(|full| [full - 1, full, full + 1])
        .chain([1, MOST_NODES - 1, MOST_NODES])
}

/// A tape number: any, a small one, or one beside a power of ten.
pub fn random_tape(random: &mut Random) -> u32 {
    match random.below(4) {
        0 => random.bits() as u32,
        1 => random.below(100_000) as u32,
        2 => u32::MAX - random.below(2) as u32,
        _ => 10_u32.pow(random.below(10) as u32) - random.below(2) as u32,
    }
}

/// A sheet of this table, its separation often a small one, its half-widths of any kind.
pub fn random_sheet(table: Vec<u16>, random: &mut Random) -> Sheet {
    let greatest = [3, 12, 1_024][random.below(3)];
    Sheet {
        tapes: words_of((0..table.len() / 2).map(|_| random_tape(random))),
        half_widths: half_widths::of_any_kind(table.len() / 2, random),
        separation: random.between(1, greatest) as u16,
        table,
    }
}

/// A sheet of so many nodes with random words in its rows: the reader judges neither the tree nor
/// the half-widths.
pub fn sheet_of_words(nodes: usize, random: &mut Random) -> Sheet {
    Sheet {
        separation: random.between(1, 1_024) as u16,
        table: (0..2 * nodes).map(|_| random.word()).collect(),
        tapes: (0..2 * nodes).map(|_| random.word()).collect(),
        half_widths: (0..nodes).map(|_| random.word()).collect(),
    }
}

/// Changes a tape number in each block of rows so that these come to be the block's check words.
pub fn give_check_words(sheet: &mut Sheet, check_words: [u16; 2], random: &mut Random) {
    let blocks = sheet::blocks_of(&sheet::write(sheet));
    for (rows, block) in sheet.tapes.chunks_mut(2 * BLOCK_ROWS).zip(&blocks[1..]) {
        let row = random.below(rows.len() / 2);
        let weight = sheet::row_start(row).1 as u16 + 3;
        let [weighted, closing] = check_words;
        // What the two words must add to the weighted sum, and to the plain one without both check
        // words. The high word's weight is one more than that of the low word.
        let to_weighted = weighted.wrapping_sub(block[WEIGHTED_WORD]);
        let to_plain = block[CLOSING_WORD]
            .wrapping_sub(closing)
            .wrapping_sub(to_weighted);
        let high = to_weighted.wrapping_sub(weight.wrapping_mul(to_plain));
        rows[2 * row] = rows[2 * row].wrapping_add(to_plain.wrapping_sub(high));
        rows[2 * row + 1] = rows[2 * row + 1].wrapping_add(high);
    }
}

pub fn random_file(table: Vec<u16>, random: &mut Random) -> Vec<u8> {
    sheet::write(&random_sheet(table, random))
}

/// The rows of a block in the old layout, which had no half-widths: a row had four words, and word
/// 1 of block 0 was 0.
const OLD_BLOCK_ROWS: usize = 63;

/// The blocks of a sheet in the old layout, with 0 as word 254 and the plain sum alone made right.
fn old_blocks(sheet: &Sheet) -> Vec<Vec<u16>> {
    let rows = sheet.table.chunks(2).zip(sheet.tapes.chunks(2));
    let rows: Vec<Vec<u16>> = rows.map(|(links, tape)| [links, tape].concat()).collect();
    let mut blocks = vec![vec![0, 0, sheet.nodes() as u16, sheet.separation]];
    for (count, rows) in rows.chunks(OLD_BLOCK_ROWS).enumerate() {
        let head = [count as u16 + 1, rows.len() as u16];
        blocks.push([&head[..], &rows.concat()].concat());
    }
    for block in &mut blocks {
        block.resize(BLOCK_WORDS, 0);
        sheet::mend_plain(block);
    }
    blocks
}

/// A sheet in the old layout: refused 10, as the weighted sum of a block 0 is never 0.
pub fn old_file(sheet: &Sheet) -> Vec<u8> {
    sheet::bytes_of(&old_blocks(sheet))
}

/// The same with both sums as they are today: refused 12.
pub fn old_file_closed(sheet: &Sheet) -> Vec<u8> {
    let mut blocks = old_blocks(sheet);
    blocks.iter_mut().for_each(|block| sheet::close(block));
    sheet::bytes_of(&blocks)
}

/// The same with the word by which layouts are told apart as it is today, too.
pub fn old_file_renamed(sheet: &Sheet) -> Vec<u8> {
    let mut blocks = old_blocks(sheet);
    blocks[0][1] = 1;
    blocks.iter_mut().for_each(|block| sheet::close(block));
    sheet::bytes_of(&blocks)
}

/// Gives a block 0 as word 254 and makes the plain sum alone right, as it was before there was a
/// weighted one.
pub fn old_sum(block: &mut [u16]) {
    block[WEIGHTED_WORD] = 0;
    sheet::mend_plain(block);
}

/// A sound file with such blocks: refused 10.
pub fn old_sums(file: &[u8]) -> Vec<u8> {
    let mut blocks = sheet::blocks_of(file);
    blocks.iter_mut().for_each(|block| old_sum(block));
    sheet::bytes_of(&blocks)
}

/// A count of nodes, most often a small one.
pub fn random_size(random: &mut Random) -> usize {
    let greatest = [12, 48, 200, 1_024][random.below(4)];
    random.between(1, greatest)
}

/// The blocks of a sound file of any tree, now and then of a disconnected one.
fn random_blocks(nodes: usize, random: &mut Random) -> Vec<Vec<u16>> {
    let mut table = random_table(nodes, random);
    if nodes > 1 && random.once_in(4) {
        (_, table) = shapes::disconnected(&table, random);
    }
    sheet::blocks_of(&random_file(table, random))
}

fn sound_sheets(random: &mut Random) -> Vec<Vec<u8>> {
    let mut tables = Vec::new();
    for nodes in 1..=6 {
        tables.extend(shapes::every_tree(nodes));
    }
    tables.extend(shapes::of_many_sizes(12, 20, 10, random));
    for _ in 0..1_000 {
        let nodes = random_size(random);
        tables.push(random_table(nodes, random));
    }
    tables
        .into_iter()
        .map(|table| random_file(table, random))
        .collect()
}

/// Both bounds of the separation, with the widest and the deepest of trees.
fn bounds_of_separation(random: &mut Random) -> Vec<Vec<u8>> {
    let mut files = Vec::new();
    for nodes in [3, 64, 1_024] {
        for (_, table) in shapes::trees_of_each_shape(nodes, random) {
            for separation in [1, 2, 1_023, 1_024] {
                let mut sheet = random_sheet(table.clone(), random);
                sheet.separation = separation;
                files.push(sheet::write(&sheet));
            }
        }
    }
    files
}

/// One half-width of a node at the bound or above it, and several; trees that are refused now and
/// then.
fn bounds_of_half_widths(random: &mut Random) -> Vec<Vec<u8>> {
    let mut sheets = Vec::new();
    for nodes in [1, 2, 49, 50, 51, 100, 101, 1_000, 1_001, 1_024] {
        for node in [0, random.below(nodes), nodes - 1] {
            for width in [255, 256, 257, 512, 32_768, 65_535] {
                let mut sheet = random_sheet(random_table(nodes, random), random);
                sheet.half_widths[node] = width;
                sheets.push(sheet);
            }
        }
    }
    for _ in 0..600 {
        let nodes = random_size(random);
        let mut sheet = random_sheet(random_table(nodes, random), random);
        sheet.half_widths = half_widths::damaged(&sheet.half_widths, random);
        if random.once_in(3) {
            sheet.table = shapes::damaged(&sheet.table, 1, random);
        }
        sheets.push(sheet);
    }
    sheets.iter().map(sheet::write).collect()
}

/// Files of the old layout, as they are, with both sums right and with today's word 1; and files
/// of today's layout in which only the plain sums are right.
fn old_files(random: &mut Random) -> Vec<Vec<u8>> {
    let mut files = Vec::new();
    let mut sizes = vec![
        1, 2, 3, 49, 50, 51, 62, 63, 64, 100, 126, 127, 1_008, 1_009, 1_024,
    ];
    sizes.extend((0..150).map(|_| random_size(random)));
    for nodes in sizes {
        let sheet = random_sheet(random_table(nodes, random), random);
        files.extend([
            old_file(&sheet),
            old_file_closed(&sheet),
            old_file_renamed(&sheet),
            old_sums(&sheet::write(&sheet)),
        ]);
    }
    files
}

/// One way or more to come to each of the numbers 2 to 5 and 14, and tables damaged at random.
fn refused_trees(random: &mut Random) -> Vec<Vec<u8>> {
    let mut tables = Vec::new();
    for nodes in [2, 3, 49, 50, 51, 100, 101, 1_023, 1_024] {
        let numbered = shapes::strays_and_rings(nodes, random);
        tables.extend(numbered.into_iter().map(|(_, table)| table));
    }
    for nodes in [1, 2, 3, 49, 50, 51, 100, 101, 1_023, 1_024] {
        let last = nodes as u16 - 1;
        for value in [0, last, last + 1, NONE - 1, NONE] {
            for entry in [0, 1, 2 * nodes - 2, 2 * nodes - 1] {
                let mut table = random_table(nodes, random);
                table[entry] = value;
                tables.push(table);
            }
        }
    }
    for _ in 0..2_000 {
        let nodes = random_size(random);
        let table = random_table(nodes, random);
        let count = random.between(1, 4);
        tables.push(shapes::damaged(&table, count, random));
    }
    for _ in 0..1_000 {
        let nodes = random_size(random).max(2);
        let tree = random_table(nodes, random);
        tables.push(shapes::disconnected(&tree, random).1);
    }
    tables
        .into_iter()
        .map(|table| random_file(table, random))
        .collect()
}

fn flipped_bits(random: &mut Random) -> Vec<Vec<u8>> {
    let mut files = Vec::new();
    for _ in 0..600 {
        let nodes = random_size(random);
        let mut file = sheet::bytes_of(&random_blocks(nodes, random));
        for _ in 0..random.between(1, 3) {
            let byte = random.below(file.len());
            file[byte] ^= 1 << random.below(8);
        }
        files.push(file);
    }
    files
}

/// Every fixed word once, then any words, the checks mended or not.
fn changed_words(random: &mut Random) -> Vec<Vec<u8>> {
    let mut files = Vec::new();
    let nodes = 5;
    let blocks = random_blocks(nodes, random);
    for place in 0..blocks.len() {
        for index in 0..BLOCK_WORDS {
            if let Some(value) = sheet::fixed_word(nodes, place, index) {
                let mut changed = blocks.clone();
                changed[place][index] = value ^ (1 << random.below(16));
                sheet::close(&mut changed[place]);
                files.push(sheet::bytes_of(&changed));
            }
        }
    }
    for _ in 0..1_500 {
        let nodes = random_size(random);
        let mut blocks = random_blocks(nodes, random);
        change_words(&mut blocks, random);
        files.push(sheet::bytes_of(&blocks));
    }
    files
}

/// Two words of a block exchanged, often neighbours; words changed with one of the sums mended; and
/// a check word changed, the other mended for it.
fn wrong_sums(random: &mut Random) -> Vec<Vec<u8>> {
    let mut files = Vec::new();
    for round in 0..800 {
        let nodes = random_size(random);
        let mut blocks = random_blocks(nodes, random);
        let place = random.below(blocks.len());
        let block = &mut blocks[place];
        match round % 4 {
            0 => {
                let index = random.below(BLOCK_WORDS - 1);
                block.swap(index, index + 1);
            }
            1 => block.swap(random.below(BLOCK_WORDS), random.below(WEIGHTED_WORD)),
            2 => {
                damage(&mut block[..WEIGHTED_WORD], random);
                mend_one(block, random);
            }
            _ => {
                damage(&mut block[WEIGHTED_WORD..], random);
                mend_one(block, random);
            }
        }
        files.push(sheet::bytes_of(&blocks));
    }
    files
}

/// Changes one to four words of a block.
pub fn damage(words: &mut [u16], random: &mut Random) {
    for _ in 0..random.between(1, 4) {
        let word = &mut words[random.below(words.len())];
        *word = match random.below(4) {
            0 => !*word,
            1 => word.wrapping_add(1),
            2 => *word ^ 0x8000,
            _ => random.word(),
        };
    }
}

/// Makes one of a block's sums right and leaves the other as it comes to be.
fn mend_one(block: &mut [u16], random: &mut Random) {
    let mend = [sheet::mend_weighted, sheet::mend_plain][random.below(2)];
    mend(block);
}

/// n and D at their bounds in files of several lengths.
fn bounds_of_header(random: &mut Random) -> Vec<Vec<u8>> {
    let mut files = Vec::new();
    for nodes in [1, 50, 51, 1_024] {
        let blocks = random_blocks(nodes, random);
        for n in [0, 1, 49, 50, 51, 52, 1_023, 1_024, 1_025, 32_769, 65_535] {
            for separation in [0, 1, 1_024, 1_025, 65_535] {
                let mut changed = blocks.clone();
                changed[0][2] = n;
                changed[0][3] = separation;
                sheet::close(&mut changed[0]);
                files.push(sheet::bytes_of(&changed));
            }
        }
    }
    files
}

/// Whole blocks moved about, as they are and with their places mended.
fn moved_blocks(random: &mut Random) -> Vec<Vec<u8>> {
    let mut files = Vec::new();
    for _ in 0..400 {
        let nodes = random_size(random);
        let mut blocks = random_blocks(nodes, random);
        let (one, other) = (random.below(blocks.len()), random.below(blocks.len()));
        match random.below(6) {
            0 => blocks.swap(one, other),
            1 => blocks[one] = blocks[other].clone(),
            2 => blocks.insert(one, blocks[other].clone()),
            3 => blocks[one].fill(0),
            4 => random.shuffle(&mut blocks),
            _ => {
                blocks.remove(one);
            }
        }
        files.push(sheet::bytes_of(&blocks));
        for (place, block) in blocks.iter_mut().enumerate() {
            block[0] = place as u16;
            sheet::close(block);
        }
        files.push(sheet::bytes_of(&blocks));
    }
    files
}

/// Sound files cut off or followed by more, at block lengths and beside them, and at any.
fn lengths(random: &mut Random) -> Vec<Vec<u8>> {
    let mut lengths: Vec<usize> = (0..=MOST_BLOCKS + 2)
        .flat_map(|blocks| {
            let len = blocks * BLOCK_BYTES;
            [len.saturating_sub(1), len, len + 1]
        })
        .collect();
    lengths.extend((0..200).map(|_| random.below(MOST_RANDOM_BYTES)));
    let mut files = Vec::new();
    for len in lengths {
        for nodes in [50, 1_024] {
            let table = random_table(nodes, random);
            let mut file = random_file(table, random);
            file.resize(len, 0);
            files.push(file);
        }
    }
    files
}

/// Changes one to four words, and closes most of the blocks again; of others it mends one sum or
/// none.
pub fn change_words(blocks: &mut [Vec<u16>], random: &mut Random) {
    for _ in 0..random.between(1, 4) {
        let place = random.below(blocks.len());
        let index = match random.below(3) {
            0 => random.below(4),
            1 => random.below(BLOCK_WORDS),
            _ => random.between(2, 251),
        };
        blocks[place][index] = match random.below(4) {
            0 => 0,
            1 => blocks[place][index].wrapping_add(1),
            2 => random.below(1_026) as u16,
            _ => random.word(),
        };
        match random.below(10) {
            0 => (),
            1 => mend_one(&mut blocks[place], random),
            _ => sheet::close(&mut blocks[place]),
        }
    }
}

/// Random blocks for so many nodes, mended so far that each later condition comes to be tried.
pub fn mended_by_steps(nodes: usize, random: &mut Random) -> Vec<u8> {
    let len = sheet::block_count(nodes) * BLOCK_BYTES;
    let mut blocks = sheet::blocks_of(&random.bytes(len));
    let mending = random.below(6);
    for (place, block) in blocks.iter_mut().enumerate() {
        if mending >= 3 {
            block[0] = place as u16;
        }
        for (index, word) in block.iter_mut().enumerate() {
            match sheet::fixed_word(nodes, place, index) {
                Some(value) if mending >= 5 => *word = value,
                _ => (),
            }
        }
    }
    if mending >= 4 {
        blocks[0][2] = nodes as u16;
        blocks[0][3] = random.between(1, 1_024) as u16;
    }
    for block in &mut blocks {
        match mending {
            0 => (),
            1 => mend_one(block, random),
            _ => sheet::close(block),
        }
    }
    sheet::bytes_of(&blocks)
}

/// Random bytes of any length, then blocks of them, mended by steps.
fn random_inputs(random: &mut Random) -> Vec<Vec<u8>> {
    let mut files = Vec::new();
    for _ in 0..300 {
        let len = random.between(0, MOST_RANDOM_BYTES);
        files.push(random.bytes(len));
    }
    for _ in 0..700 {
        let nodes = random_size(random);
        files.push(mended_by_steps(nodes, random));
    }
    files
}
