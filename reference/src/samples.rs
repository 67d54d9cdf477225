//! The sheets of the folder `samples/`, good and damaged, and a Newick text, each made anew in the
//! same way.

use crate::files::{old_file, old_sums};
use crate::half_widths::MOST_HALF_WIDTH;
use crate::listing::listing;
use crate::newick::{text_of, Tree};
use crate::random::Random;
use crate::shapes;
use crate::sheet::{self, words_of, Sheet};
use crate::table::{renumber, table_of, Children, NONE};
use std::path::{Path, PathBuf};

/// A sheet file, `NAME.sheet` in the folder, beside the listing of it, `NAME.listing`.
pub struct Sample {
    pub name: &'static str,
    pub file: Vec<u8>,
}

impl Sample {
    /// The names of the two files and what they hold.
    pub fn files(&self) -> [(String, Vec<u8>); 2] {
        [
            (format!("{}.sheet", self.name), self.file.clone()),
            (format!("{}.listing", self.name), listing(&self.file)),
        ]
    }
}

/// The Newick text of the tree of P6: its name and what it holds.
pub fn newick() -> (String, Vec<u8>) {
    let Sheet { table, tapes, .. } = p6();
    ("p6.newick".to_string(), text_of(&Tree { table, tapes }))
}

/// All files of the folder but its page.
pub fn files() -> impl Iterator<Item = (String, Vec<u8>)> {
    let sheets = samples().into_iter().flat_map(|sample| sample.files());
    sheets.chain([newick()])
}

/// The folder at the root of the repository.
pub fn folder() -> PathBuf {
    Path::new(env!("CARGO_MANIFEST_DIR")).join("../samples")
}

/// The good sheets first, then the damaged ones.
pub fn samples() -> Vec<Sample> {
    let good = [
        ("example", sheet::example()),
        ("p6", p6()),
        ("p7", p7()),
        ("shelf-marks", shelf_marks()),
        ("family", family()),
        ("chain-1024", chain()),
        ("star-1024", star()),
        ("nodes-50", binary(50)),
        ("nodes-51", binary(51)),
    ];
    let damaged = [
        ("damaged-length", a_byte_short()),
        ("damaged-bit", a_bit_flipped()),
        ("damaged-swap", words_exchanged()),
        ("old-sum", old_sums(&sheet::write(&sheet::example()))),
        ("old-p6", old_file(&p6())),
        ("damaged-order", blocks_exchanged()),
        ("damaged-header", a_node_too_many()),
        ("damaged-stray", an_unnamed_tape()),
        ("damaged-ring", copies_of_each_other()),
        ("damaged-width", a_shelf_mark_too_long()),
    ];
    good.into_iter()
        .map(|(name, sheet)| (name, sheet::write(&sheet)))
        .chain(damaged)
        .map(|(name, file)| Sample { name, file })
        .collect()
}

/// A sheet with the tape number of each node, half-widths 0.
fn sheet_of(separation: u16, table: Vec<u16>, tapes: impl IntoIterator<Item = u32>) -> Sheet {
    Sheet {
        separation,
        half_widths: vec![0; table.len() / 2],
        table,
        tapes: words_of(tapes),
    }
}

/// The same with tape numbers that follow each other from the root's.
fn consecutive(separation: u16, table: Vec<u16>, root_tape: u32) -> Sheet {
    let nodes = table.len() as u32 / 2;
    sheet_of(separation, table, (0..nodes).map(|node| root_tape + node))
}

/// P6 of the paper.
fn p6() -> Sheet {
    let levels = [0, 1, 2, 2, 2, 2, 2, 1, 1, 1, 2, 2, 2, 2, 2];
    consecutive(4, shapes::table_of_levels(&levels), 600)
}

/// P7 of the paper.
fn p7() -> Sheet {
    let levels = [
        0, 1, 2, 3, 3, 3, 3, 3, 3, 3, 1, 2, 2, 2, 1, 2, 2, 3, 3, 3, 3, 3, 2,
    ];
    consecutive(2, shapes::table_of_levels(&levels), 700)
}

/// P6 with shelf marks of all lengths: those of a few copies and of the single tape are long.
fn shelf_marks() -> Sheet {
    Sheet {
        half_widths: vec![12, 2, 0, 0, 0, 0, 5, 1, 0, 6, 3, 0, 0, 0, 0],
        ..p6()
    }
}

/// Each tape a copy of the one before.
fn chain() -> Sheet {
    consecutive(5, shapes::chain(1_024), 10_000)
}

/// All tapes copies of the first, as wide and as far apart as they can be; the last has the
/// greatest number.
fn star() -> Sheet {
    Sheet {
        half_widths: vec![MOST_HALF_WIDTH; 1_024],
        ..consecutive(1_024, shapes::star(1_024), u32::MAX - 1_023)
    }
}

/// Two copies of each tape but those on the last levels.
fn binary(nodes: usize) -> Sheet {
    let table = shapes::binary(nodes);
    let renumbered = renumber(&table, &table, &table);
    consecutive(7, renumbered.out, 20_000)
}

const FAMILY_SEED: u64 = 1_963;
const FAMILY_SEPARATION: u16 = 8;

/// The master's place in the register of tapes.
const MASTER_TAPE: u32 = 41_903;

/// How many copies there are of each copy of the master: two safety copies, then the dubs.
const COPIES_OF_DUBS: [usize; 12] = [0, 1, 4, 0, 126, 1, 0, 58, 1, 0, 9, 2];

/// A master and three generations of copies. Few tapes have very many copies, most one or none.
fn family() -> Sheet {
    let mut random = Random::new(FAMILY_SEED);
    let mut register = Register::of_master();
    register.copy(0, COPIES_OF_DUBS.len(), &mut random);
    for (dub, count) in COPIES_OF_DUBS.into_iter().enumerate() {
        register.copy(1 + dub, count, &mut random);
    }
    for tape in 1 + COPIES_OF_DUBS.len()..register.tapes.len() {
        let count = match random.below(60) {
            0 => random.between(20, 90),
            1..=3 => random.between(2, 9),
            4..=17 => 1,
            _ => 0,
        };
        register.copy(tape, count, &mut random);
    }
    register.sheet()
}

/// The tapes of a family in the order in which they were made.
struct Register {
    children: Children,
    tapes: Vec<u32>,
}

impl Register {
    fn of_master() -> Self {
        Register {
            children: vec![vec![]],
            tapes: vec![MASTER_TAPE],
        }
    }

    /// Copies made at one time; other tapes were registered before them and now and then between.
    fn copy(&mut self, parent: usize, count: usize, random: &mut Random) {
        let mut number = self.tapes[self.tapes.len() - 1] + random.between(1, 1_200) as u32;
        for _ in 0..count {
            self.children[parent].push(self.tapes.len());
            self.children.push(vec![]);
            self.tapes.push(number);
            number += if random.once_in(12) { 3 } else { 1 };
        }
    }

    /// Numbered as by Renumber, the tapes likewise.
    fn sheet(&self) -> Sheet {
        let table = table_of(&self.children);
        let map = vec![0; self.tapes.len()];
        let renumbered = renumber(&table, &table, &map);
        let tapes = renumbered
            .map
            .iter()
            .map(|&made| self.tapes[usize::from(made)]);
        sheet_of(FAMILY_SEPARATION, renumbered.out, tapes)
    }
}

/// The example without its last byte: refused 9.
fn a_byte_short() -> Vec<u8> {
    let mut file = sheet::write(&sheet::example());
    file.pop();
    file
}

/// The example with the lowest bit of the root's tape number turned over: refused 10.
fn a_bit_flipped() -> Vec<u8> {
    let mut blocks = sheet::blocks_of(&sheet::write(&sheet::example()));
    let (place, index) = sheet::row_start(0);
    blocks[place][index + 2] ^= 1;
    sheet::bytes_of(&blocks)
}

/// The example with the two words of the root's tape number exchanged: refused 10.
fn words_exchanged() -> Vec<u8> {
    let mut blocks = sheet::blocks_of(&sheet::write(&sheet::example()));
    let (place, index) = sheet::row_start(0);
    blocks[place].swap(index + 2, index + 3);
    sheet::bytes_of(&blocks)
}

/// The sheet of 51 nodes with its two blocks of rows exchanged: refused 11.
fn blocks_exchanged() -> Vec<u8> {
    let mut blocks = sheet::blocks_of(&sheet::write(&binary(51)));
    blocks.swap(1, 2);
    sheet::bytes_of(&blocks)
}

/// The example with a count of four nodes over its three rows, sound: refused 12.
fn a_node_too_many() -> Vec<u8> {
    let mut blocks = sheet::blocks_of(&sheet::write(&sheet::example()));
    blocks[0][2] = 4;
    sheet::close(&mut blocks[0]);
    sheet::bytes_of(&blocks)
}

/// The example without the entry that names tape 502, sound: refused 5.
fn an_unnamed_tape() -> Vec<u8> {
    let mut sheet = sheet::example();
    sheet.table = vec![1, NONE, NONE, NONE, NONE, NONE];
    sheet::write(&sheet)
}

/// A sound file in which tapes 501 and 502 are said to be copies of each other: refused 14.
fn copies_of_each_other() -> Vec<u8> {
    let mut sheet = sheet::example();
    sheet.table = vec![NONE, NONE, 2, NONE, 1, NONE];
    sheet::write(&sheet)
}

/// The shelf marks with one that is one unit too long on either side, sound: refused 17.
fn a_shelf_mark_too_long() -> Vec<u8> {
    let mut sheet = shelf_marks();
    sheet.half_widths[6] = MOST_HALF_WIDTH + 1;
    sheet::write(&sheet)
}

#[cfg(test)]
mod tests {
    use super::*;
    use crate::table::{children_of, level_by_level, refusal};

    /// The first line of each sample's listing.
    const FIRST_LINES: [(&str, &str); 19] = [
        ("example", "sheet 3 2 3 -1 2"),
        ("p6", "sheet 15 3 4 -18 18"),
        ("p7", "sheet 23 4 2 -12 10"),
        ("shelf-marks", "sheet 15 3 4 -26 26"),
        ("family", "sheet 574 4 8 -1816 1820"),
        ("chain-1024", "sheet 1024 1024 5 0 0"),
        ("star-1024", "sheet 1024 2 1024 -784896 784896"),
        ("nodes-50", "sheet 50 6 7 -97 71"),
        ("nodes-51", "sheet 51 6 7 -98 73"),
        ("damaged-length", "refused 9"),
        ("damaged-bit", "refused 10"),
        ("damaged-swap", "refused 10"),
        ("old-sum", "refused 10"),
        ("old-p6", "refused 10"),
        ("damaged-order", "refused 11"),
        ("damaged-header", "refused 12"),
        ("damaged-stray", "refused 5"),
        ("damaged-ring", "refused 14"),
        ("damaged-width", "refused 17"),
    ];

    #[test]
    fn first_lines() {
        let samples = samples();
        assert_eq!(samples.len(), FIRST_LINES.len());
        for (sample, (name, line)) in samples.iter().zip(FIRST_LINES) {
            assert_eq!(sample.name, name);
            let [_, (_, listing)] = sample.files();
            let listing = String::from_utf8(listing).expect("a listing is text");
            assert_eq!(listing.lines().next(), Some(line), "{name}");
        }
    }

    #[test]
    fn a_family_of_unequal_branches() {
        let sheet = family();
        assert_eq!(refusal(&sheet.table), 0);
        let nodes = sheet.table.len() / 2;
        assert!((400..=700).contains(&nodes), "{nodes} nodes");
        let children = children_of(&sheet.table);
        let levels = level_by_level(&children);
        assert_eq!(levels.len(), 4);
        let copied: Vec<usize> = children.iter().map(Vec::len).collect();
        assert!(copied.iter().filter(|&&count| count <= 1).count() > nodes * 9 / 10);
        assert!(copied.iter().filter(|&&count| count >= 50).count() >= 3);
        let tape = |node: usize| {
            u32::from(sheet.tapes[2 * node]) + 65_536 * u32::from(sheet.tapes[2 * node + 1])
        };
        // A copy was made after its original and after the copies to its left.
        for (parent, family) in children.iter().enumerate() {
            for (elder, &child) in [&[parent], &family[..]].concat().iter().zip(family) {
                assert!(tape(*elder) < tape(child));
            }
        }
        assert!((0..nodes).filter(|&node| tape(node) > 65_535).count() > 100);
    }
}
