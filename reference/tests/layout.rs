//! The library's layout held against the model, call by call.

use reference::conflicts::Tally;
use reference::half_widths::{self, some_of, to_be_refused, too_great, KINDS};
use reference::layout::{places_without_widths, Given, LaidOut};
use reference::layout_call::{compare_every_length, some_separation, Call, Lengths};
use reference::run::{Run, Shown};
use reference::shapes::{self, random_table, SHAPES};
use reference::table::NONE;
use reference::treetex::Profile;

struct Comparison {
    run: Run,
}

impl Comparison {
    fn lay_out(
        &mut self,
        table: &[u16],
        separation: u16,
        half_widths: &[u16],
        lengths: Lengths,
    ) -> LaidOut {
        let given = Given::plain(table, separation, half_widths);
        Call { given, lengths }.compare(&mut self.run)
    }

    /// Slices that are just long enough.
    fn exact(&mut self, table: &[u16], separation: u16, half_widths: &[u16]) -> u16 {
        let lengths = Lengths::exact(table.len() / 2);
        self.lay_out(table, separation, half_widths, lengths).number
    }

    /// The same with half-widths of any kind.
    fn any_widths(&mut self, table: &[u16], separation: u16) -> u16 {
        let half_widths = self.half_widths(table.len() / 2);
        self.exact(table, separation, &half_widths)
    }

    /// The same with half-widths 0. Where the table is accepted, the drawing is that of D alone.
    fn without_widths(&mut self, table: &[u16], separation: u16) -> u16 {
        let nodes = table.len() / 2;
        let laid = self.lay_out(table, separation, &vec![0; nodes], Lengths::exact(nodes));
        if laid.number == 0 {
            let places = places_without_widths(table, separation);
            self.run
                .expect_slice("drawing of D", &laid.places, &places, &Shown(table));
        }
        laid.number
    }

    fn expect_number(&mut self, table: &[u16], separation: u16, number: u16) {
        let got = self.without_widths(table, separation);
        self.run
            .expect("number of the paper", got, number, &"a case of the paper");
    }

    fn separation(&mut self) -> u16 {
        some_separation(&mut self.run.random)
    }

    fn half_widths(&mut self, nodes: usize) -> Vec<u16> {
        half_widths::of_any_kind(nodes, &mut self.run.random)
    }

    fn refused_widths(&mut self, nodes: usize) -> Vec<u16> {
        to_be_refused(nodes, &mut self.run.random)
    }

    fn every_length(&mut self, table: &[u16]) {
        let separation = self.separation();
        compare_every_length(table, separation, Profile::Plain, &mut self.run);
    }

    /// The cases that the paper names, with its own numbers.
    fn cases_of_the_paper(&mut self) {
        let longest = shapes::chain(1_024);
        let too_long = shapes::chain(1_025);
        let cases: [(&[u16], u16, u16); 13] = [
            (&[], 5, 1),
            (&too_long, 5, 1),
            (&[NONE, 1, NONE, NONE], 5, 3),
            (&[0, NONE], 5, 4),
            (&[NONE; 4], 5, 5),
            (&[NONE, NONE, 2, NONE, 1, NONE], 5, 14),
            (&[NONE; 2], 0, 6),
            (&[NONE; 2], 1, 0),
            (&[NONE; 2], 1_024, 0),
            (&[NONE; 2], 1_025, 6),
            (&[NONE; 2], u16::MAX, 6),
            (&longest, 1_024, 0),
            (&[0, NONE], 0, 4),
        ];
        for (table, separation, number) in cases {
            self.expect_number(table, separation, number);
            self.every_length(table);
        }
        self.run.end_section("cases of the paper");
    }

    fn every_small_tree(&mut self) {
        for nodes in 1..=8 {
            for table in shapes::every_tree(nodes) {
                for separation in [1, 2, 3, 5, 1_024] {
                    self.without_widths(&table, separation);
                    self.any_widths(&table, separation);
                    let half_widths = some_of(&[0, 1, 256], nodes, &mut self.run.random);
                    self.exact(&table, separation, &half_widths);
                }
                for separation in [0, 1_025, u16::MAX] {
                    self.any_widths(&table, separation);
                }
                let random = &mut self.run.random;
                let renumbered = shapes::renumbered_at_random(&table, random);
                let separation = self.separation();
                self.any_widths(&renumbered, separation);
                self.every_length(&table);
            }
        }
        self.run.end_section("every tree of up to 8 nodes");
        for nodes in 1..=6 {
            for table in shapes::every_tree(nodes) {
                for mut choice in 0..3_usize.pow(nodes as u32) {
                    let half_widths: Vec<u16> = (0..nodes)
                        .map(|_| {
                            let width = [0, 1, 256][choice % 3];
                            choice /= 3;
                            width
                        })
                        .collect();
                    let separation = self.separation();
                    self.exact(&table, separation, &half_widths);
                }
            }
        }
        self.run
            .end_section("every tree of up to 6 nodes with every half-width of 0, 1 and 256");
    }

    /// Every shape in many sizes, as it is and with other numbers; then the same damaged.
    fn shapes(&mut self) {
        let tables = shapes::of_many_sizes(40, 40, 8, &mut self.run.random);
        for table in &tables {
            for separation in [1, 1_024] {
                for kind in &KINDS {
                    let half_widths = (kind.make)(table.len() / 2, &mut self.run.random);
                    let number = self.exact(table, separation, &half_widths);
                    self.run.expect("number", number, 0, &kind.name);
                }
            }
            let separation = self.separation();
            let number = self.without_widths(table, separation);
            self.run.expect("number", number, 0, &"a well-formed table");
            for separation in [0, 1_025, u16::MAX] {
                self.any_widths(table, separation);
            }
            self.every_length(table);
        }
        self.run.end_section("well-formed tables of many shapes");
        for table in &tables {
            for count in 1..=4 {
                let damaged = shapes::damaged(table, count, &mut self.run.random);
                let separation = self.separation();
                self.any_widths(&damaged, separation);
            }
            let damaged = shapes::damaged(table, 1, &mut self.run.random);
            self.every_length(&damaged);
        }
        self.run
            .end_section("the same with one to four entries damaged");
    }

    /// Strays and rings, with D at its bounds and slices of all lengths.
    fn strays_and_rings(&mut self) {
        for table in shapes::every_linking(4) {
            self.every_length(&table);
        }
        for nodes in (2..=40).chain([64, 65, 300, 1_023, 1_024]) {
            for (wanted, table) in shapes::strays_and_rings(nodes, &mut self.run.random) {
                for separation in [0, 1, 1_024, 1_025] {
                    let number = self.any_widths(&table, separation);
                    self.run
                        .expect("number", number, wanted, &"strays and rings");
                }
                self.every_length(&table);
            }
        }
        self.run.end_section("strays and rings");
    }

    /// Half-widths at the bound and above it, on the first nodes, the last and past them, and too
    /// few.
    fn bounds_of_half_widths(&mut self) {
        for nodes in (1..=20).chain([49, 50, 51, 300, 1_023, 1_024]) {
            let table = random_table(nodes, &mut self.run.random);
            for node in (0..nodes).filter(|&node| node < 10 || node + 10 >= nodes) {
                for (width, wanted) in [
                    (0, 0),
                    (255, 0),
                    (256, 0),
                    (257, 17),
                    (512, 17),
                    (32_768, 17),
                    (u16::MAX, 17),
                ] {
                    let mut half_widths = self.half_widths(nodes);
                    half_widths[node] = width;
                    let number = self.exact(&table, 5, &half_widths);
                    self.run.expect("number", number, wanted, &"one half-width");
                }
            }
            for past in [257, u16::MAX, too_great(&mut self.run.random)] {
                for more in [1, 2, 9, nodes, 65_535, 65_536 - nodes] {
                    let mut half_widths = self.half_widths(nodes);
                    half_widths.resize(nodes + more, past);
                    let number = self.exact(&table, 5, &half_widths);
                    self.run
                        .expect("number", number, 0, &"half-widths past the last node");
                }
            }
            for len in [0, nodes - 1, nodes / 2] {
                let half_widths = self.half_widths(nodes);
                let number = self.exact(&table, 5, &half_widths[..len]);
                self.run
                    .expect("number", number, 17, &"too few half-widths");
            }
        }
        self.run
            .end_section("half-widths at their bounds, in and past the first n");
    }

    /// 17 stands after 6 and before 7 and 8.
    fn order_of_conditions(&mut self) {
        for nodes in (1..=9).chain([50, 51, 1_024]) {
            let table = random_table(nodes, &mut self.run.random);
            for separation in [0, 1, 5, 1_024, 1_025] {
                for (number, lengths) in Lengths::short_by_one(nodes) {
                    for widths_taken in [true, false] {
                        let half_widths = match widths_taken {
                            true => self.half_widths(nodes),
                            false => self.refused_widths(nodes),
                        };
                        let got = self.lay_out(&table, separation, &half_widths, lengths);
                        let wanted = match (separation, widths_taken) {
                            (0 | 1_025, _) => 6,
                            (_, false) => 17,
                            (_, true) => number,
                        };
                        self.run
                            .expect("number", got.number, wanted, &"several faults");
                    }
                }
            }
        }
        self.run.end_section("several faults at once");
    }

    /// Trees made for their conflicts, which are tallied before any of them is laid out; each
    /// without half-widths and with some.
    fn conflicts(&mut self) {
        let sections = shapes::made_for_conflicts(&mut self.run.random);
        let mut tally = Tally::default();
        for (table, separation) in sections.iter().flat_map(|(_, trees)| trees) {
            tally.add(table, *separation, &vec![0; table.len() / 2]);
        }
        self.run.note(&tally.to_string());
        tally.expect_every_kind();
        for (title, trees) in sections {
            for (count, (table, separation)) in trees.into_iter().enumerate() {
                self.without_widths(&table, separation);
                self.any_widths(&table, separation);
                if count % 7 == 0 {
                    self.every_length(&table);
                }
            }
            self.run.end_section(title);
        }
    }

    /// Small trees at random: many of them, with slices of any length and half-widths that are
    /// refused now and then.
    fn small_trees(&mut self) {
        for _ in 0..110_000 {
            let separation = self.separation();
            let random = &mut self.run.random;
            let nodes = random.between(1, 48);
            let shape = &SHAPES[random.below(SHAPES.len())];
            let table = (shape.make)(nodes, random);
            let table = shapes::renumbered_at_random(&table, random);
            let mut lengths = Lengths::exact(nodes);
            if random.once_in(8) {
                lengths = Lengths::any(nodes, random);
            }
            let half_widths = match random.once_in(16) {
                true => self.refused_widths(nodes),
                false => self.half_widths(nodes),
            };
            self.lay_out(&table, separation, &half_widths, lengths);
        }
        self.run.end_section("small trees of many shapes");
        for nodes in [1, 2, 3, 64, 1_024] {
            let table = random_table(nodes, &mut self.run.random);
            let mut half_widths = self.half_widths(nodes);
            half_widths.resize(65_536, u16::MAX);
            self.lay_out(&table, 5, &half_widths, Lengths::LONG);
        }
        self.run.end_section("slices of 65,536 entries");
    }
}

#[test]
fn the_layout_agrees_with_the_model() {
    let mut comparison = Comparison {
        run: Run::start("layout"),
    };
    comparison.cases_of_the_paper();
    comparison.every_small_tree();
    comparison.shapes();
    comparison.strays_and_rings();
    comparison.bounds_of_half_widths();
    comparison.order_of_conditions();
    comparison.conflicts();
    comparison.small_trees();
    comparison
        .run
        .expect_often(&[0, 1, 2, 3, 4, 5, 6, 7, 8, 14, 17], 10);
    comparison.run.finish(250_000);
}
