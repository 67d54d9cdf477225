//! The library's sheet reader held against the model, call by call.
//!
//! The three slices lie between margins and hold random entries at first, the result fields too.
//! After a refusal every entry must be as it was and both fields 0; after an acceptance every
//! entry past those named must be as it was.

use reference::ffi;
use reference::files::{self, edges_of_blocks, sheet_of_words};
use reference::lent::Lent;
use reference::run::Run;
use reference::shapes::random_table;
use reference::sheet::{
    self, Sheet, BLOCK_BYTES, BLOCK_ROWS, BLOCK_WORDS, CLOSING_WORD, MOST_BLOCKS, WEIGHTED_WORD,
};
use std::fmt;

/// The lengths of the slices that are lent.
#[derive(Clone, Copy, Debug)]
struct Lengths {
    table: usize,
    tapes: usize,
    half_widths: usize,
}

impl Lengths {
    /// Just long enough for so many nodes.
    fn exact(nodes: usize) -> Self {
        Lengths {
            table: 2 * nodes,
            tapes: 2 * nodes,
            half_widths: nodes,
        }
    }

    /// The same length for all.
    fn all(len: usize) -> Self {
        Lengths {
            table: len,
            tapes: len,
            half_widths: len,
        }
    }
}

/// What a call was given, for the message of a failure.
struct Call<'a> {
    file: &'a [u8],
    lengths: Lengths,
}

impl fmt::Display for Call<'_> {
    fn fmt(&self, f: &mut fmt::Formatter) -> fmt::Result {
        write!(
            f,
            "read_sheet with {:?}, a file of {} bytes: {:?}",
            self.lengths,
            self.file.len(),
            &self.file[..self.file.len().min(32)]
        )
    }
}

/// The greatest count of nodes in a file of so many blocks.
fn most_nodes(blocks: usize) -> usize {
    (BLOCK_ROWS * (blocks - 1)).min(1_024)
}

/// By how much the plain and the weighted sum of words have changed, modulo 65,536.
fn changes(before: &[u16], after: &[u16]) -> [u32; 2] {
    let (mut plain, mut weighted) = (0_i64, 0_i64);
    for (weight, (&old, &new)) in (1_i64..).zip(before.iter().zip(after)) {
        let change = i64::from(new) - i64::from(old);
        plain += change;
        weighted += weight * change;
    }
    [plain, weighted].map(|change| change.rem_euclid(65_536) as u32)
}

struct Comparison {
    run: Run,
}

impl Comparison {
    fn read(&mut self, file: &[u8], lengths: Lengths) -> u16 {
        self.run.count_call();
        let call = Call { file, lengths };
        let given = file.to_vec();
        let random = &mut self.run.random;
        let mut nodes: Lent<u16> = Lent::new(1, random);
        let mut separation: Lent<u16> = Lent::new(1, random);
        let mut table: Lent<u16> = Lent::new(lengths.table, random);
        let mut tapes: Lent<u16> = Lent::new(lengths.tapes, random);
        let mut half_widths: Lent<u16> = Lent::new(lengths.half_widths, random);
        let wanted = sheet::read(file, table.before(), tapes.before(), half_widths.before());
        let number = ffi::read_sheet(
            &given,
            table.slice(),
            tapes.slice(),
            half_widths.slice(),
            &mut nodes.slice()[0],
            &mut separation.slice()[0],
        );
        self.run.count_number(number);
        let run = &self.run;
        run.expect("number", number, wanted.number, &call);
        run.expect("nodes", nodes.after()[0], wanted.nodes, &call);
        run.expect("D", separation.after()[0], wanted.separation, &call);
        run.expect_slice("table", table.after(), &wanted.table, &call);
        run.expect_slice("tapes", tapes.after(), &wanted.tapes, &call);
        let widths = half_widths.after();
        run.expect_slice("half-widths", widths, &wanted.half_widths, &call);
        for (what, lent) in [
            ("nodes", &nodes),
            ("D", &separation),
            ("table", &table),
            ("tapes", &tapes),
            ("half-widths", &half_widths),
        ] {
            let what = format!("margins of {what} untouched");
            run.expect(&what, lent.margins_untouched(), true, &call);
        }
        run.expect_slice("file", &given, file, &call);
        number
    }

    /// The call and, besides the model's, a number that must come out.
    fn read_as(&mut self, wanted: u16, what: &str, file: &[u8], lengths: Lengths) {
        let number = self.read(file, lengths);
        self.run
            .expect(what, number, wanted, &"the paper's own number");
    }

    fn example(&mut self) {
        let sheet = sheet::example();
        let file = sheet::write(&sheet);
        let blocks = sheet::blocks_of(&file);
        let run = &self.run;
        for (block, check_words) in blocks.iter().zip([[23, 65_506], [15_029, 49_001]]) {
            let got = &block[WEIGHTED_WORD..];
            run.expect_slice("check words", got, &check_words, &"the example");
        }
        let exact = Lengths::exact(3);
        self.read_as(0, "the example", &file, exact);
        for short in [
            Lengths { table: 5, ..exact },
            Lengths { tapes: 5, ..exact },
            Lengths {
                half_widths: 2,
                ..exact
            },
        ] {
            self.read_as(7, "the example", &file, short);
        }
        self.run.end_section("the example of the paper");
    }

    /// Slices short by one, exact and longer, in all ways.
    fn all_slices(&mut self, file: &[u8], nodes: usize) {
        let more = self.run.random.between(1, 9);
        let of_needed = |needed: usize| [needed - 1, needed, needed + more];
        for table in of_needed(2 * nodes) {
            for tapes in of_needed(2 * nodes) {
                for half_widths in of_needed(nodes) {
                    let lengths = Lengths {
                        table,
                        tapes,
                        half_widths,
                    };
                    let short = table < 2 * nodes || tapes < 2 * nodes || half_widths < nodes;
                    let wanted = if short { 7 } else { 0 };
                    self.read_as(wanted, "a sound file", file, lengths);
                }
            }
        }
    }

    fn sound_files(&mut self) {
        for nodes in edges_of_blocks() {
            for _ in 0..4 {
                let file = sheet::write(&sheet_of_words(nodes, &mut self.run.random));
                self.all_slices(&file, nodes);
                self.read_as(7, "empty slices", &file, Lengths::all(0));
            }
            // The low 16 bits of these lengths alone would be too short.
            let file = sheet::write(&sheet_of_words(nodes, &mut self.run.random));
            self.read_as(0, "long slices", &file, Lengths::all(65_536));
        }
        for nodes in 1..=1_024 {
            let file = sheet::write(&sheet_of_words(nodes, &mut self.run.random));
            self.all_slices(&file, nodes);
        }
        self.run
            .end_section("sound files of every size, slices short, exact and longer");
    }

    /// Two files of three blocks, with their counts of nodes: any words in rows that fill both
    /// blocks, and the sheet of a tree that does not fill the second.
    fn three_blocks(&mut self) -> [(usize, Vec<u8>); 2] {
        let random = &mut self.run.random;
        let nodes = random.between(60, 99);
        let tree = Sheet {
            table: random_table(nodes, random),
            half_widths: (0..nodes).map(|_| random.below(257) as u16).collect(),
            ..sheet_of_words(nodes, random)
        };
        let files = [(100, sheet_of_words(100, random)), (nodes, tree)];
        files.map(|(nodes, sheet)| {
            let file = sheet::write(&sheet);
            assert_eq!(file.len(), 3 * BLOCK_BYTES);
            (nodes, file)
        })
    }

    fn single_bits(&mut self) {
        for (nodes, mut file) in self.three_blocks() {
            for bit in 0..8 * file.len() {
                file[bit / 8] ^= 1 << (bit % 8);
                self.read_as(10, "one bit", &file, Lengths::exact(nodes));
                file[bit / 8] ^= 1 << (bit % 8);
            }
            self.read_as(0, "every bit mended", &file, Lengths::exact(nodes));
        }
        self.run
            .end_section("every single bit of files of three blocks");
    }

    fn single_words(&mut self) {
        for (nodes, file) in self.three_blocks() {
            let mut blocks = sheet::blocks_of(&file);
            for place in 0..blocks.len() {
                for index in 0..BLOCK_WORDS {
                    let word = blocks[place][index];
                    let random = &mut self.run.random;
                    let values = [
                        0,
                        1,
                        65_535,
                        word.wrapping_add(1),
                        word.wrapping_sub(1),
                        !word,
                        word ^ 0x8000,
                        word.swap_bytes(),
                        blocks[place][index.saturating_sub(1)],
                        blocks[place][(index + 1).min(BLOCK_WORDS - 1)],
                        random.word(),
                        random.word(),
                        random.word(),
                    ];
                    for value in values.into_iter().filter(|&value| value != word) {
                        blocks[place][index] = value;
                        let file = sheet::bytes_of(&blocks);
                        self.read_as(10, "one word", &file, Lengths::exact(nodes));
                    }
                    blocks[place][index] = word;
                }
            }
        }
        self.run
            .end_section("every single word of files of three blocks, to many values");
    }

    /// Two words of a block exchanged: all neighbours, then any two. The plain sum stays right.
    fn swapped_words(&mut self) {
        for (nodes, file) in self.three_blocks() {
            let blocks = sheet::blocks_of(&file);
            let mut unequal = 0;
            for place in 0..blocks.len() {
                for index in 0..CLOSING_WORD {
                    let swapped = self.swapped(&blocks, place, index, index + 1, nodes);
                    unequal += usize::from(swapped);
                }
                for _ in 0..1_500 {
                    let one = self.run.random.below(WEIGHTED_WORD);
                    let other = self.run.random.below(WEIGHTED_WORD);
                    self.swapped(&blocks, place, one, other, nodes);
                }
            }
            self.run.note(&format!(
                "{unequal} unequal neighbours exchanged, all refused 10"
            ));
        }
        self.run
            .end_section("two words of a block exchanged, all neighbours and any two");
    }

    /// One exchange; whether it makes the weighted sum of the words before the check words wrong.
    fn swapped(
        &mut self,
        blocks: &[Vec<u16>],
        place: usize,
        one: usize,
        other: usize,
        nodes: usize,
    ) -> bool {
        let mut swapped = blocks.to_vec();
        swapped[place].swap(one, other);
        let file = sheet::bytes_of(&swapped);
        if one.max(other) >= WEIGHTED_WORD {
            self.read(&file, Lengths::exact(nodes));
            return false;
        }
        let apart = i64::from(blocks[place][one]) - i64::from(blocks[place][other]);
        let wrong = apart * (one as i64 - other as i64) % 65_536 != 0;
        if wrong || swapped[place] == blocks[place] {
            let wanted = if wrong { 10 } else { 0 };
            self.read_as(wanted, "two words exchanged", &file, Lengths::exact(nodes));
        } else {
            self.read(&file, Lengths::exact(nodes));
        }
        wrong
    }

    /// One word changed, then several at random, and one of the two sums mended for it; where the
    /// other has not come right by that, the number is 10.
    fn one_sum_mended(&mut self) {
        for (nodes, file) in self.three_blocks() {
            let blocks = sheet::blocks_of(&file);
            for place in 0..blocks.len() {
                for index in 0..BLOCK_WORDS {
                    for change in [1, 2, 255, 256, 16_384, 32_768, 65_535] {
                        let mut changed = blocks.clone();
                        changed[place][index] = changed[place][index].wrapping_add(change);
                        self.mended_in_part(&blocks[place], changed, place, nodes);
                    }
                }
            }
        }
        for _ in 0..6_000 {
            let random = &mut self.run.random;
            let nodes = random.between(1, 200);
            let file = sheet::write(&sheet_of_words(nodes, random));
            let mut blocks = sheet::blocks_of(&file);
            let place = random.below(blocks.len());
            let before = blocks[place].clone();
            files::damage(&mut blocks[place][..WEIGHTED_WORD], random);
            self.mended_in_part(&before, blocks, place, nodes);
        }
        self.run
            .end_section("words changed and one of the two sums mended");
    }

    /// `before` is the block at this place while it was sound.
    fn mended_in_part(
        &mut self,
        before: &[u16],
        mut blocks: Vec<Vec<u16>>,
        place: usize,
        nodes: usize,
    ) {
        let damaged = blocks[place].clone();
        for mend in [sheet::mend_weighted, sheet::mend_plain] {
            blocks[place].clone_from(&damaged);
            mend(&mut blocks[place]);
            let after = &blocks[place];
            let [plain, _] = changes(before, after);
            let [_, weighted] = changes(&before[..WEIGHTED_WORD], &after[..WEIGHTED_WORD]);
            let stored = after[WEIGHTED_WORD].wrapping_sub(before[WEIGHTED_WORD]);
            let sound = plain == 0 && weighted == u32::from(stored);
            let file = sheet::bytes_of(&blocks);
            let number = self.read(&file, Lengths::exact(nodes));
            self.run
                .expect("refused 10", number == 10, !sound, &"one sum mended");
        }
    }

    /// Sound files whose check words are at the ends of their range.
    fn check_words(&mut self) {
        let values = [0, 1, 255, 256, 32_767, 32_768, 65_535];
        for nodes in edges_of_blocks().chain(2..=9) {
            for weighted in values {
                for closing in values {
                    let check_words = [weighted, closing];
                    let random = &mut self.run.random;
                    let mut sheet = sheet_of_words(nodes, random);
                    files::give_check_words(&mut sheet, check_words, random);
                    let file = sheet::write(&sheet);
                    for block in &sheet::blocks_of(&file)[1..] {
                        let got = &block[WEIGHTED_WORD..];
                        self.run
                            .expect_slice("check words", got, &check_words, &"made for them");
                    }
                    self.read_as(0, "check words", &file, Lengths::exact(nodes));
                }
            }
        }
        for word in [0, 1, 255, 256, 32_768, 65_535] {
            for nodes in edges_of_blocks() {
                let mut sheet = sheet_of_words(nodes, &mut self.run.random);
                sheet.table.fill(word);
                sheet.tapes.fill(word);
                sheet.half_widths.fill(word);
                let file = sheet::write(&sheet);
                self.read_as(0, "rows of one word", &file, Lengths::exact(nodes));
            }
        }
        self.run
            .end_section("check words of all sizes, and rows of one word");
    }

    /// Whole blocks moved about, as they are and with their places mended.
    fn moved_blocks(&mut self) {
        for count in 2..=MOST_BLOCKS {
            let nodes = most_nodes(count);
            let file = sheet::write(&sheet_of_words(nodes, &mut self.run.random));
            let blocks = sheet::blocks_of(&file);
            let mut arrangements = Vec::new();
            for i in 0..count {
                for j in 0..i {
                    let mut swapped = blocks.clone();
                    swapped.swap(i, j);
                    arrangements.push(swapped);
                    let mut overwritten = blocks.clone();
                    overwritten[i] = blocks[j].clone();
                    arrangements.push(overwritten);
                }
                let mut missing = blocks.clone();
                missing.remove(i);
                arrangements.push(missing);
                let mut doubled = blocks.clone();
                doubled.insert(i, blocks[i].clone());
                arrangements.push(doubled);
                let mut zeroed = blocks.clone();
                zeroed[i].fill(0);
                arrangements.push(zeroed);
                let mut turned = blocks.clone();
                turned.rotate_left(i);
                arrangements.push(turned);
            }
            for _ in 0..20 {
                let mut reordered = blocks.clone();
                self.run.random.shuffle(&mut reordered);
                arrangements.push(reordered);
            }
            for mut arrangement in arrangements {
                self.read(&sheet::bytes_of(&arrangement), Lengths::exact(nodes));
                for (place, block) in arrangement.iter_mut().enumerate() {
                    block[0] = place as u16;
                    sheet::close(block);
                }
                self.read(&sheet::bytes_of(&arrangement), Lengths::exact(nodes));
            }
        }
        self.run
            .end_section("blocks swapped, missing, doubled and reordered");
    }

    /// Each word that the layout fixes, changed in several ways with both checks mended.
    fn fixed_words(&mut self) {
        for nodes in [1, 5, 49, 50, 51, 100, 101, 1_001, 1_024] {
            let file = sheet::write(&sheet_of_words(nodes, &mut self.run.random));
            let mut blocks = sheet::blocks_of(&file);
            for place in 0..blocks.len() {
                for index in 0..BLOCK_WORDS {
                    let Some(value) = sheet::fixed_word(nodes, place, index) else {
                        continue;
                    };
                    let bit = 1 << self.run.random.below(16);
                    let wrongs = [
                        value.wrapping_add(1),
                        value.wrapping_sub(1),
                        value ^ bit,
                        value.swap_bytes() ^ 0x0100,
                    ];
                    let wanted = if index == 0 { 11 } else { 12 };
                    for wrong in wrongs.into_iter().filter(|&wrong| wrong != value) {
                        blocks[place][index] = wrong;
                        sheet::close(&mut blocks[place]);
                        let file = sheet::bytes_of(&blocks);
                        self.read_as(wanted, "a fixed word", &file, Lengths::exact(nodes));
                    }
                    blocks[place][index] = value;
                    sheet::close(&mut blocks[place]);
                }
            }
            let file = sheet::bytes_of(&blocks);
            self.read_as(0, "all words mended", &file, Lengths::exact(nodes));
        }
        self.run
            .end_section("each fixed word changed with both checks mended");
    }

    /// n and D at their bounds in files of every length.
    fn bounds(&mut self) {
        let values = [
            0, 1, 2, 49, 50, 51, 100, 101, 1_000, 1_001, 1_023, 1_024, 1_025, 32_768, 65_535,
        ];
        for blocks in 2..=MOST_BLOCKS {
            let nodes = most_nodes(blocks);
            let sheet = sheet_of_words(nodes, &mut self.run.random);
            for n in values {
                for separation in [0, 1, 512, 1_024, 1_025, 65_535] {
                    let mut blocks = sheet::blocks_of(&sheet::write(&sheet));
                    blocks[0][2] = n;
                    blocks[0][3] = separation;
                    sheet::close(&mut blocks[0]);
                    let file = sheet::bytes_of(&blocks);
                    let number = self.read(&file, Lengths::exact(1_024));
                    let taken = usize::from(n) == nodes && (1..=1_024).contains(&separation);
                    let wanted = if taken { 0 } else { 12 };
                    self.run
                        .expect("number", number, wanted, &"n and D at their bounds");
                    let half_widths = nodes - 1;
                    let short = Lengths {
                        half_widths,
                        ..Lengths::exact(nodes)
                    };
                    self.read(&file, short);
                }
            }
        }
        self.run.end_section("n and D at their bounds");
    }

    /// Each node's half-width alone, of any size: it is carried and not judged.
    fn half_widths(&mut self) {
        for nodes in edges_of_blocks().chain(1..=9) {
            for width in [1, 255, 256, 257, 32_768, 65_535] {
                let mut sheet = sheet_of_words(nodes, &mut self.run.random);
                sheet.half_widths.fill(0);
                for node in [0, self.run.random.below(nodes), nodes - 1] {
                    sheet.half_widths[node] = width;
                    let file = sheet::write(&sheet);
                    self.read_as(0, "a half-width", &file, Lengths::exact(nodes));
                }
            }
        }
        self.run
            .end_section("half-widths that are carried unjudged");
    }

    /// Files with four words a row, 63 rows to a block, 0 as word 1 of block 0 and only the plain
    /// sums right; then with both sums right, and with today's word 1 too, so that what is left to
    /// tell them apart is the rows.
    fn old_files(&mut self) {
        for nodes in 1..=1_024 {
            let sheet = sheet_of_words(nodes, &mut self.run.random);
            let lengths = Lengths::exact(nodes);
            self.read_as(10, "an old file", &files::old_file(&sheet), lengths);
            let closed = files::old_file_closed(&sheet);
            self.read_as(12, "an old file with both sums", &closed, lengths);
            self.read(&files::old_file_renamed(&sheet), lengths);
        }
        self.run.end_section("files of the old layout");
    }

    /// Files of today's layout with 0 as word 254 and only the plain sums right: in all blocks, in
    /// the first, in the last, and in any.
    fn old_sums(&mut self) {
        for nodes in 1..=1_024 {
            let file = sheet::write(&sheet_of_words(nodes, &mut self.run.random));
            let lengths = Lengths::exact(nodes);
            self.read_as(10, "the old sums", &files::old_sums(&file), lengths);
            let blocks = sheet::blocks_of(&file);
            let any = self.run.random.below(blocks.len());
            for place in [0, any, blocks.len() - 1] {
                let mut old = blocks.clone();
                files::old_sum(&mut old[place]);
                let wanted = if old[place] == blocks[place] { 0 } else { 10 };
                let file = sheet::bytes_of(&old);
                self.read_as(wanted, "a block's old sum", &file, lengths);
            }
        }
        self.run.end_section("files of the old sums");
    }

    fn lengths(&mut self) {
        for len in (0..=1_600)
            .chain(11_263..=11_777)
            .chain([9_216, 9_728, 12_288, 65_536, 66_560])
        {
            for nodes in [50, 1_024] {
                // A sound file cut off or followed by zeros, zeros alone, and random bytes.
                let mut cut = sheet::write(&sheet_of_words(nodes, &mut self.run.random));
                cut.resize(len, 0);
                for file in [cut, vec![0; len], self.run.random.bytes(len)] {
                    let number = self.read(&file, Lengths::exact(nodes));
                    let refused = len % 512 != 0 || !(1_024..=11_264).contains(&len);
                    self.run.expect(
                        "refused 9",
                        number == 9,
                        refused,
                        &"a file of a given length",
                    );
                }
            }
        }
        self.run.end_section("lengths");
    }

    /// Random bytes, mended so far that each later condition comes to be tried.
    fn random_files(&mut self) {
        for _ in 0..16_000 {
            let random = &mut self.run.random;
            let count = random.between(2, MOST_BLOCKS);
            let nodes = most_nodes(count) - random.below(16);
            let file = files::mended_by_steps(nodes, random);
            let mut lengths = Lengths::exact(nodes);
            lengths.table -= random.below(2);
            lengths.half_widths -= random.below(2);
            self.read(&file, lengths);
        }
        self.run.end_section("random bytes, mended by steps");
    }

    /// Sound files with one to four words changed, each block's checks mended or not.
    fn damaged_files(&mut self) {
        for _ in 0..30_000 {
            let random = &mut self.run.random;
            let nodes = match random.below(8) {
                0 => random.between(1, 1_024),
                _ => random.between(1, 200),
            };
            let sheet = sheet_of_words(nodes, random);
            let mut blocks = sheet::blocks_of(&sheet::write(&sheet));
            files::change_words(&mut blocks, random);
            let lengths = Lengths {
                table: 2 * nodes + 1 - random.below(3),
                tapes: 2 * nodes + 1 - random.below(3),
                half_widths: nodes + 1 - random.below(3),
            };
            self.read(&sheet::bytes_of(&blocks), lengths);
        }
        self.run
            .end_section("one to four words changed, checks mended or not");
    }
}

#[test]
fn the_sheet_reader_agrees_with_the_model() {
    let mut comparison = Comparison {
        run: Run::start("sheet"),
    };
    comparison.example();
    comparison.sound_files();
    comparison.single_bits();
    comparison.single_words();
    comparison.swapped_words();
    comparison.one_sum_mended();
    comparison.check_words();
    comparison.moved_blocks();
    comparison.fixed_words();
    comparison.bounds();
    comparison.half_widths();
    comparison.old_files();
    comparison.old_sums();
    comparison.lengths();
    comparison.random_files();
    comparison.damaged_files();
    comparison.run.expect_often(&[0, 7, 9, 10, 11, 12], 5_000);
    comparison.run.finish(200_000);
}
