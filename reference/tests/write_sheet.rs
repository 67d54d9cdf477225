//! The library's sheet writer held against the model, call by call, and against the reader.
//!
//! All slices lie between margins. The output slice holds random bytes at first, and the result
//! field a random number. After a refusal every byte must be as it was and the field 0; after an
//! acceptance every byte past the file must be as it was. Table, tapes and half-widths are only
//! read.

use reference::ffi::{self, TEXT_ROOM};
use reference::files::{
    edges_of_blocks, give_check_words, random_sheet, random_size, sheet_of_words,
};
use reference::half_widths::{self, too_great};
use reference::lent::Lent;
use reference::listing::number_of;
use reference::random::Random;
use reference::run::{Run, Shown};
use reference::shapes::{self, random_table};
use reference::sheet::{self, Sheet, Written, BLOCK_BYTES, BLOCK_ROWS, WEIGHTED_WORD};
use reference::table::{self, NONE};
use std::collections::HashSet;
use std::fmt;

/// How many different sheets go each way, written then read and read then written.
const ROUND_TRIPS: usize = 20_000;

/// What a call was given, for the message of a failure.
struct Call<'a> {
    sheet: &'a Sheet,
    out_len: usize,
}

impl fmt::Display for Call<'_> {
    fn fmt(&self, f: &mut fmt::Formatter) -> fmt::Result {
        let Call { sheet, out_len } = self;
        write!(
            f,
            "write_sheet with separation {}, tapes_len {}, out_len {out_len}, {}; half-widths as {}",
            sheet.separation,
            sheet.tapes.len(),
            Shown(&sheet.table),
            Shown(&sheet.half_widths)
        )
    }
}

/// A sheet of any tree.
fn any_sheet(nodes: usize, random: &mut Random) -> Sheet {
    let table = random_table(nodes, random);
    random_sheet(table, random)
}

/// Tables of at least two nodes for every number of the table check.
fn tables_of_each_number(nodes: usize, random: &mut Random) -> Vec<(u16, Vec<u16>)> {
    let tree = random_table(nodes, random);
    let with = |entry: usize, value: usize| {
        let mut table = tree.clone();
        table[entry] = value as u16;
        table
    };
    let of_length = |len: usize| tree.iter().copied().cycle().take(len).collect();
    let free: Vec<usize> = (2..2 * nodes)
        .filter(|&entry| tree[entry] == NONE)
        .collect();
    let mut tables = vec![
        (0, tree.clone()),
        (1, vec![]),
        (1, of_length(2 * nodes - 1)),
        (1, of_length(2 * nodes + 1)),
        (1, of_length(2_050)),
        (1, of_length(65_536 + 2 * nodes)),
        (2, with(random.below(2 * nodes), nodes)),
        (2, with(random.below(2 * nodes), usize::from(NONE) - 1)),
        (3, with(1, random.below(nodes))),
        (4, with(free[random.below(free.len())], random.below(nodes))),
    ];
    tables.extend(shapes::strays_and_rings(nodes, random));
    tables
}

struct Comparison {
    run: Run,
}

impl Comparison {
    /// One call. The sheet's tapes and half-widths may be fewer or more than its nodes need.
    fn write(&mut self, sheet: &Sheet, out_len: usize) -> Written {
        self.run.count_call();
        let call = Call { sheet, out_len };
        let random = &mut self.run.random;
        let table: Lent<u16> = Lent::holding(&sheet.table, random);
        let tapes: Lent<u16> = Lent::holding(&sheet.tapes, random);
        let half_widths: Lent<u16> = Lent::holding(&sheet.half_widths, random);
        let mut out: Lent<u8> = Lent::new(out_len, random);
        let mut bytes: Lent<u16> = Lent::new(1, random);
        let wanted = sheet::write_sheet(sheet, out.before());
        let number = ffi::write_sheet(
            table.after(),
            sheet.separation,
            tapes.after(),
            half_widths.after(),
            out.slice(),
            &mut bytes.slice()[0],
        );
        self.run.count_number(number);
        let run = &self.run;
        run.expect("number", number, wanted.number, &call);
        run.expect("bytes", bytes.after()[0], wanted.bytes, &call);
        run.expect_slice("out", out.after(), &wanted.out, &call);
        run.expect(
            "margins of out untouched",
            out.margins_untouched(),
            true,
            &call,
        );
        for (what, lent) in [
            ("table", &table),
            ("tapes", &tapes),
            ("half-widths", &half_widths),
            ("bytes", &bytes),
        ] {
            let what = format!("margins of {what} untouched");
            run.expect(&what, lent.margins_untouched(), true, &call);
        }
        run.expect_slice("table", table.after(), &sheet.table, &call);
        run.expect_slice("tapes", tapes.after(), &sheet.tapes, &call);
        let widths = half_widths.after();
        run.expect_slice("half-widths", widths, &sheet.half_widths, &call);
        Written {
            number,
            bytes: bytes.after()[0],
            out: out.after().to_vec(),
        }
    }

    /// The call and, besides the model's, a number that must come out.
    fn write_as(&mut self, wanted: u16, what: &str, sheet: &Sheet, out_len: usize) {
        let number = self.write(sheet, out_len).number;
        self.run
            .expect(what, number, wanted, &"the paper's own number");
    }

    /// The file of a sheet that is accepted.
    fn file_of(&mut self, sheet: &Sheet) -> Vec<u8> {
        let out_len = sheet::file_len(sheet.nodes());
        let written = self.write(sheet, out_len);
        self.run
            .expect("number", written.number, 0, &"a sheet to be accepted");
        written.out
    }

    /// What the library reads from a sound file.
    fn read(&mut self, file: &[u8]) -> Sheet {
        self.run.count_call();
        let (mut table, mut tapes) = (vec![0; 2_048], vec![0; 2_048]);
        let (mut half_widths, mut nodes, mut separation) = (vec![0; 1_024], 0, 0);
        let number = ffi::read_sheet(
            file,
            &mut table,
            &mut tapes,
            &mut half_widths,
            &mut nodes,
            &mut separation,
        );
        self.run
            .expect("number of the reader", number, 0, &"a sound file");
        table.truncate(2 * usize::from(nodes));
        tapes.truncate(2 * usize::from(nodes));
        half_widths.truncate(usize::from(nodes));
        Sheet {
            separation,
            table,
            tapes,
            half_widths,
        }
    }

    fn example(&mut self) {
        let sheet = sheet::example();
        let blocks = sheet::blocks_of(&self.file_of(&sheet));
        for (block, check_words) in blocks.iter().zip([[23, 65_506], [15_029, 49_001]]) {
            let got = &block[WEIGHTED_WORD..];
            self.run
                .expect_slice("check words", got, &check_words, &"the example");
        }
        self.write_as(7, "the example", &sheet, 1_023);
        self.run.end_section("the example of the paper");
    }

    /// Half-widths that are taken, past which any words stand now and then; and such as are
    /// refused: none, one too few, or one too great.
    fn taken_and_refused(&mut self, half_widths: &[u16]) -> [Vec<u16>; 2] {
        let random = &mut self.run.random;
        let (mut taken, mut refused) = (half_widths.to_vec(), half_widths.to_vec());
        taken.extend((0..random.below(4)).map(|_| random.word()));
        match random.below(4) {
            0 => refused.clear(),
            1 => _ = refused.pop(),
            _ => refused[random.below(half_widths.len())] = too_great(random),
        }
        [taken, refused]
    }

    /// Tapes and room empty, too short by one or by a block, exact and longer, and half-widths that
    /// are taken and refused, in all ways. `refused` is the number of the table or of D, or 0.
    fn all_slices(&mut self, refused: u16, sheet: &Sheet, nodes: usize) {
        let len = sheet::file_len(nodes);
        let longer = self.run.random.between(1, 9);
        let more_room = len + [1, 9, BLOCK_BYTES][self.run.random.below(3)];
        for tapes_len in [0, 2 * nodes - 1, 2 * nodes, 2 * nodes + longer] {
            let mut given = sheet.clone();
            given.tapes.resize(tapes_len, self.run.random.word());
            for out_len in [0, len - BLOCK_BYTES, len - 1, len, more_room] {
                let widths = self.taken_and_refused(&sheet.half_widths);
                for (half_widths, taken) in widths.into_iter().zip([true, false]) {
                    given.half_widths = half_widths;
                    let wanted = match refused {
                        0 if tapes_len < 2 * nodes => 13,
                        0 if !taken => 17,
                        0 if out_len < len => 7,
                        number => number,
                    };
                    self.write_as(wanted, "slices of all lengths", &given, out_len);
                }
            }
        }
    }

    fn sizes(&mut self) {
        for nodes in 1..=1_024 {
            let sheet = any_sheet(nodes, &mut self.run.random);
            self.all_slices(0, &sheet, nodes);
        }
        self.run
            .end_section("sheets of every size, slices and room short, exact and longer");
    }

    /// Every table's number with every bound of D and slices of all lengths.
    fn several_faults(&mut self) {
        let sizes = edges_of_blocks().step_by(2).filter(|&nodes| nodes > 1);
        for nodes in sizes.chain([2, 3]) {
            for (number, table) in tables_of_each_number(nodes, &mut self.run.random) {
                let mut sheet = any_sheet(nodes, &mut self.run.random);
                sheet.table = table;
                for separation in [0, 1, 2, 1_023, 1_024, 1_025, 65_535] {
                    sheet.separation = separation;
                    let refused = match number {
                        0 if !(1..=1_024).contains(&separation) => 6,
                        _ => number,
                    };
                    self.all_slices(refused, &sheet, nodes);
                }
            }
        }
        self.run
            .end_section("tables of every number, D at its bounds and slices of all lengths");
    }

    /// Damaged trees, and lengths and separations of any kind.
    fn damaged_trees(&mut self) {
        for _ in 0..10_000 {
            let random = &mut self.run.random;
            let nodes = random_size(random);
            let mut sheet = any_sheet(nodes, random);
            let count = random.below(4);
            sheet.table = shapes::damaged(&sheet.table, count, random);
            sheet.separation = random.below(1_100) as u16;
            let tapes_len = random.between(2 * nodes - 1, 2 * nodes + 9);
            sheet.tapes.resize(tapes_len, random.word());
            let out_len = random.between(0, 3 * sheet::file_len(nodes));
            let widths = self.taken_and_refused(&sheet.half_widths);
            for half_widths in widths {
                sheet.half_widths = half_widths;
                self.write(&sheet, out_len);
            }
        }
        self.run
            .end_section("damaged trees, D and lengths at random");
    }

    /// The low 16 bits of these lengths alone would be too short.
    fn long_slices(&mut self) {
        for nodes in edges_of_blocks().chain([2, 3]) {
            let random = &mut self.run.random;
            let mut sheet = any_sheet(nodes, random);
            let exact = sheet::file_len(nodes);
            let room = [65_536, 65_536 + exact - 1, 65_536 + random.below(exact)];
            for out_len in room {
                self.write_as(0, "much room", &sheet, out_len);
            }
            for more in [0, 1, 2 * nodes - 1] {
                sheet.tapes.resize(65_536 + more, NONE);
                for out_len in [exact, 65_536 + more] {
                    self.write_as(0, "many tapes", &sheet, out_len);
                }
            }
            for more in [0, nodes - 1] {
                sheet.half_widths.resize(65_536 + more, NONE);
                self.write_as(0, "many half-widths", &sheet, exact);
            }
        }
        self.run.end_section("slices of 65,536 entries and more");
    }

    /// Tape words that are all equal, and sums that come out at each end of their range.
    fn tapes(&mut self) {
        for nodes in edges_of_blocks().chain(2..=9) {
            let mut sheet = any_sheet(nodes, &mut self.run.random);
            for word in [0, 1, 255, 256, 32_768, 65_535] {
                sheet.tapes.fill(word);
                self.file_of(&sheet);
            }
            let values = [0, 1, 255, 256, 32_768, 65_535];
            for check_words in values.into_iter().flat_map(|a| values.map(|b| [a, b])) {
                let random = &mut self.run.random;
                let mut sheet = Sheet {
                    tapes: sheet_of_words(nodes, random).tapes,
                    ..any_sheet(nodes, random)
                };
                give_check_words(&mut sheet, check_words, random);
                for block in &sheet::blocks_of(&self.file_of(&sheet))[1..] {
                    let got = &block[WEIGHTED_WORD..];
                    self.run
                        .expect_slice("check words", got, &check_words, &"tapes made for them");
                }
            }
        }
        self.run
            .end_section("tapes of one word, and tapes that give two check words");
    }

    /// Half-widths at the bound and above it, on the first nodes, the last, those at the ends of
    /// blocks and past all; and too few.
    fn half_widths(&mut self) {
        for nodes in edges_of_blocks().chain(2..=9) {
            let sheet = any_sheet(nodes, &mut self.run.random);
            let exact = sheet::file_len(nodes);
            let marked = [
                0,
                1,
                BLOCK_ROWS - 1,
                BLOCK_ROWS,
                nodes - 1,
                nodes,
                nodes + 1,
            ];
            for (node, width) in marked
                .into_iter()
                .flat_map(|node| [0, 255, 256, 257, 512, 32_768, 65_535].map(|width| (node, width)))
            {
                let mut given = sheet.clone();
                given.half_widths.resize(nodes.max(node + 1), NONE);
                given.half_widths[node] = width;
                let wanted = if node < nodes && width > 256 { 17 } else { 0 };
                self.write_as(wanted, "one half-width", &given, exact);
            }
            for len in [0, nodes / 2, nodes - 1] {
                let mut given = sheet.clone();
                given.half_widths.truncate(len);
                self.write_as(17, "too few half-widths", &given, exact);
            }
        }
        self.run
            .end_section("half-widths at their bounds, in and past the first n");
    }

    /// Takes sheets one way until so many different files have come of it.
    fn round_trips(&mut self, way: &str, trip: fn(&mut Self, &Sheet) -> Vec<u8>) {
        let mut files = HashSet::new();
        while files.len() < ROUND_TRIPS {
            let random = &mut self.run.random;
            let nodes = random_size(random);
            let sheet = any_sheet(nodes, random);
            files.insert(trip(self, &sheet));
        }
        self.run
            .end_section(&format!("{ROUND_TRIPS} different sheets {way}"));
    }

    /// What is read is what was written, whatever lies past tapes and half-widths.
    fn written_then_read(&mut self, sheet: &Sheet) -> Vec<u8> {
        let file = self.file_of(sheet);
        let read = self.read(&file);
        self.run
            .expect("what is read", &read, sheet, &"a written sheet");
        let random = &mut self.run.random;
        let mut more = sheet.clone();
        more.tapes
            .extend((0..random.between(1, 9)).map(|_| random.word()));
        more.half_widths
            .extend((0..random.between(1, 9)).map(|_| random.word()));
        let same = self.file_of(&more);
        self.run
            .expect_slice("file with more words", &same, &file, &"a written sheet");
        file
    }

    /// What is written is what was read.
    fn read_then_written(&mut self, sheet: &Sheet) -> Vec<u8> {
        let file = sheet::write(sheet);
        let read = self.read(&file);
        let written = self.file_of(&read);
        self.run
            .expect_slice("what is written", &written, &file, &"a sound file");
        file
    }

    /// The reader judges neither tree nor half-widths, but the writer does, and so does the
    /// listing.
    fn refused_sheets(&mut self) {
        for round in 0..6_000 {
            let random = &mut self.run.random;
            let nodes = random_size(random);
            let mut given = sheet_of_words(nodes, random);
            let tree = random_table(nodes, random);
            match round % 5 {
                0 => (),
                1 if nodes > 1 => (_, given.table) = shapes::disconnected(&tree, random),
                2 => given.table = tree,
                _ => given.table = shapes::damaged(&tree, random.between(1, 4), random),
            }
            match random.below(3) {
                0 => (),
                1 => given.half_widths = half_widths::of_any_kind(nodes, random),
                _ => {
                    given.half_widths.fill(256);
                    given.half_widths[random.below(nodes)] = 257;
                }
            }
            let file = sheet::write(&given);
            let sheet = self.read(&file);
            self.run
                .expect("what is read", &sheet, &given, &"a sound file");
            let number = match table::refusal(&given.table) {
                0 if half_widths::refused(&given.half_widths, nodes) => 17,
                number => number,
            };
            self.write_as(number, "what was read", &sheet, file.len());
            self.list_as(number, &file);
        }
        self.run
            .end_section("sheets that are read, then judged by the writer and the listing");
    }

    /// The listing of a file has this number.
    fn list_as(&mut self, number: u16, file: &[u8]) {
        self.run.count_call();
        let mut text = vec![0; TEXT_ROOM];
        let len = ffi::list_sheet(file, &mut text);
        let printed = number_of(&text[..len]);
        self.run
            .expect("number of the listing", printed, number, &"what was read");
    }
}

#[test]
fn the_sheet_writer_agrees_with_the_model() {
    let mut comparison = Comparison {
        run: Run::start("write_sheet"),
    };
    comparison.example();
    comparison.sizes();
    comparison.several_faults();
    comparison.damaged_trees();
    comparison.long_slices();
    comparison.tapes();
    comparison.half_widths();
    comparison.round_trips("written, then read", Comparison::written_then_read);
    comparison.round_trips("read, then written", Comparison::read_then_written);
    comparison.refused_sheets();
    comparison
        .run
        .expect_often(&[0, 1, 2, 3, 4, 5, 6, 7, 13, 14, 17], 2_000);
    comparison.run.finish(300_000);
}
