//! The library's table operations held against the model, call by call.
//!
//! A call's slices lie between margins and hold random entries at first, its result field too.
//! After a refusal every entry must be as it was and the field 0; after an acceptance every entry
//! past those named must be as it was.

use reference::ffi;
use reference::lent::Lent;
use reference::run::{Run, Shown};
use reference::shapes::{self, SHAPES};
use reference::table::{self, NONE};
use std::fmt;

/// What a call was given, for the message of a failure.
struct Call<'a> {
    operation: &'static str,
    table: &'a [u16],
    out_len: usize,
    map_len: usize,
}

impl fmt::Display for Call<'_> {
    fn fmt(&self, f: &mut fmt::Formatter) -> fmt::Result {
        let Call {
            operation,
            table,
            out_len,
            map_len,
        } = self;
        write!(
            f,
            "{operation} with out_len {out_len}, map_len {map_len}, {}",
            Shown(table)
        )
    }
}

struct Comparison {
    run: Run,
}

impl Comparison {
    fn check(&mut self, table: &[u16]) -> u16 {
        self.run.count_call();
        let call = Call {
            operation: "check_table",
            table,
            out_len: 0,
            map_len: 0,
        };
        let given = table.to_vec();
        let mut nodes: Lent<u16> = Lent::new(1, &mut self.run.random);
        let wanted = table::check(table);
        let number = ffi::check_table(&given, &mut nodes.slice()[0]);
        self.run.count_number(number);
        self.run.expect("number", number, wanted.number, &call);
        self.run
            .expect("nodes", nodes.after()[0], wanted.nodes, &call);
        self.expect_margins("nodes", &nodes, &call);
        self.run.expect_slice("table", &given, table, &call);
        number
    }

    fn mirror(&mut self, table: &[u16], out_len: usize) {
        self.run.count_call();
        let call = Call {
            operation: "mirror",
            table,
            out_len,
            map_len: 0,
        };
        let given = table.to_vec();
        let mut out = Lent::new(out_len, &mut self.run.random);
        let wanted = table::mirror(table, out.before());
        let number = ffi::mirror(&given, out.slice());
        self.run.count_number(number);
        self.run.expect("number", number, wanted.number, &call);
        self.run
            .expect_slice("out", out.after(), &wanted.out, &call);
        self.expect_margins("out", &out, &call);
        self.run.expect_slice("table", &given, table, &call);
    }

    fn renumber(&mut self, table: &[u16], out_len: usize, map_len: usize) {
        self.run.count_call();
        let call = Call {
            operation: "renumber",
            table,
            out_len,
            map_len,
        };
        let given = table.to_vec();
        let mut out = Lent::new(out_len, &mut self.run.random);
        let mut map = Lent::new(map_len, &mut self.run.random);
        let wanted = table::renumber(table, out.before(), map.before());
        let number = ffi::renumber(&given, out.slice(), map.slice());
        self.run.count_number(number);
        self.run.expect("number", number, wanted.number, &call);
        self.run
            .expect_slice("out", out.after(), &wanted.out, &call);
        self.run
            .expect_slice("map", map.after(), &wanted.map, &call);
        self.expect_margins("out", &out, &call);
        self.expect_margins("map", &map, &call);
        self.run.expect_slice("table", &given, table, &call);
    }

    fn expect_margins(&self, what: &str, lent: &Lent<u16>, call: &Call) {
        let what = format!("margins of {what} untouched");
        self.run.expect(&what, lent.margins_untouched(), true, call);
    }

    /// All operations, with slices too short by one, exact, and longer.
    fn all(&mut self, table: &[u16]) {
        let entries = table.len();
        let nodes = entries.div_ceil(2);
        let longer = self.run.random.between(1, 9);
        self.check(table);
        self.mirror(table, entries.saturating_sub(1));
        self.mirror(table, entries);
        self.mirror(table, entries + longer);
        self.renumber(table, entries.saturating_sub(1), nodes);
        self.renumber(table, entries, nodes.saturating_sub(1));
        self.renumber(table, entries, nodes);
        self.renumber(table, entries + longer, nodes + 10 - longer);
    }

    /// The cases that the paper names, with its own numbers.
    fn cases_of_the_paper(&mut self) {
        let chain_1024 = shapes::chain(1_024);
        let chain_1025 = shapes::chain(1_025);
        let cases: [(&[u16], u16); 8] = [
            (&[], 1),
            (&[NONE, 1, NONE, NONE], 3),
            (&[0, NONE], 4),
            (&[NONE; 4], 5),
            (&[NONE, NONE, 2, NONE, 1, NONE], 14),
            (&[NONE; 2], 0),
            (&chain_1024, 0),
            (&chain_1025, 1),
        ];
        for (table, number) in cases {
            let got = self.check(table);
            self.run
                .expect("number of the paper", got, number, &"a case of the paper");
            self.all(table);
        }
        self.run.end_section("cases of the paper");
    }

    /// Every table of so many entries over 0 to n and none.
    fn every_table(&mut self, entries: usize) {
        let nodes = entries.div_ceil(2) as u16;
        let values: Vec<u16> = (0..=nodes).chain([NONE]).collect();
        let mut digits = vec![0; entries];
        loop {
            let table: Vec<u16> = digits.iter().map(|&digit| values[digit]).collect();
            self.all(&table);
            // The next list of digits, the first one turning fastest.
            let Some(place) = digits.iter().position(|&digit| digit + 1 < values.len()) else {
                return;
            };
            digits[place] += 1;
            digits[..place].fill(0);
        }
    }

    /// Every shape in many sizes, as it is and with other numbers; then the same damaged.
    fn shapes(&mut self) {
        let tables = shapes::of_many_sizes(40, 60, 30, &mut self.run.random);
        for table in &tables {
            let number = self.check(table);
            self.run.expect("number", number, 0, &"a well-formed table");
            self.all(table);
        }
        self.run.end_section("well-formed tables of many shapes");
        for table in &tables {
            for count in 1..=4 {
                let damaged = shapes::damaged(table, count, &mut self.run.random);
                self.all(&damaged);
            }
        }
        self.run
            .end_section("the same with one to four entries damaged");
    }

    /// Every small table that only 5, 14 and 7 can refuse.
    fn every_linking(&mut self) {
        for table in (1..=5).flat_map(shapes::every_linking) {
            self.all(&table);
        }
        for table in shapes::every_linking(6) {
            self.check(&table);
        }
        self.run
            .end_section("every table of up to 6 nodes of which none of 1 to 4 holds");
    }

    /// Strays and rings of many sizes, as they are and with other numbers.
    fn strays_and_rings(&mut self) {
        let random_sizes: Vec<usize> = (0..60)
            .map(|_| self.run.random.between(65, 1_024))
            .collect();
        for nodes in (2..=64).chain(random_sizes).chain([1_023, 1_024]) {
            for (wanted, table) in shapes::strays_and_rings(nodes, &mut self.run.random) {
                let renumbered = shapes::renumbered_at_random(&table, &mut self.run.random);
                for table in [table, renumbered] {
                    let number = self.check(&table);
                    self.run
                        .expect("number", number, wanted, &"strays and rings");
                    self.all(&table);
                }
            }
        }
        self.run.end_section("strays and rings");
    }

    /// Lengths that are odd, 0 or beyond the greatest, and those next to them.
    fn lengths(&mut self) {
        // Among the longest are those whose low 16 bits alone would do.
        let longest = [4_096, 65_536, 65_538, 65_540, 67_584, 131_072, 131_074];
        for len in (0..64).chain(2_030..2_070).chain(longest) {
            let nodes = len / 2;
            let mut tables = vec![vec![NONE; len]];
            if nodes > 0 {
                for make in [shapes::chain, shapes::star, shapes::binary] {
                    let mut table = make(nodes);
                    table.resize(len, NONE);
                    tables.push(table);
                }
            }
            for table in tables {
                let number = self.check(&table);
                let refused = len == 0 || len % 2 == 1 || len > 2_048;
                self.run.expect(
                    "refused 1",
                    number == 1,
                    refused,
                    &"a table of a given length",
                );
                self.all(&table);
                self.mirror(&table, 0);
                self.renumber(&table, 0, 0);
            }
        }
        self.run.end_section("lengths");
    }

    /// Output slices of any length.
    fn slice_lengths(&mut self) {
        for _ in 0..3_000 {
            let random = &mut self.run.random;
            let nodes = random.between(1, 40);
            let mut table = (SHAPES[random.below(SHAPES.len())].make)(nodes, random);
            if random.once_in(4) {
                table = shapes::damaged(&table, 1, random);
            }
            let out_len = random.between(0, 3 * nodes);
            let map_len = random.between(0, 2 * nodes);
            self.mirror(&table, out_len);
            self.renumber(&table, out_len, map_len);
            self.renumber(&table, 2 * nodes, map_len);
        }
        // Slices so long that the low 16 bits of their lengths alone would be too short.
        for nodes in [1, 2, 3, 64, 1_024] {
            let table = shapes::random(nodes, &mut self.run.random);
            self.mirror(&table, 65_536);
            self.renumber(&table, 65_536, 65_536);
            self.renumber(&table, 2 * nodes, 65_536);
            self.renumber(&table, 65_536, nodes);
        }
        self.run.end_section("output slices of any length");
    }
}

#[test]
fn the_table_operations_agree_with_the_model() {
    let mut comparison = Comparison {
        run: Run::start("table"),
    };
    comparison.cases_of_the_paper();
    for entries in 1..=6 {
        comparison.every_table(entries);
    }
    comparison
        .run
        .end_section("every table of up to 3 nodes, odd lengths too");
    comparison.every_linking();
    comparison.shapes();
    comparison.strays_and_rings();
    comparison.lengths();
    comparison.slice_lengths();
    comparison.run.expect_numbers(&[0, 1, 2, 3, 4, 5, 7, 14]);
    comparison.run.finish(200_000);
}
