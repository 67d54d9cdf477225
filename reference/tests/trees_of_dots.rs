//! The library's trees of dots held against the model, call by call, and against what its own
//! functions say of the trees.
//!
//! The dots lie between margins and must be as they were after each call. Both results lie between
//! margins too and hold random entries at first; after a refusal they must be 0, and so where no
//! tree fits.

use reference::ffi::{self, Fields, Slices};
use reference::half_widths;
use reference::lent::Lent;
use reference::random::Random;
use reference::run::{Run, Shown};
use reference::small_trees::MOST_NODES;
use reference::trees_of_dots::{dots_of, entries, Dot, Drawings, Found, GREATEST_LEVEL};
use std::collections::{BTreeMap, BTreeSet};
use std::fmt;

/// How many calls there are at least, how often each number must come out, and how often none, one
/// and more than one tree must fit.
const LEAST_CALLS: u64 = 2_000_000;
const LEAST_OF_EACH: u64 = 100_000;
const LEAST_OF_ANSWERS: [u64; 3] = [500_000, 100_000, 4_000];

/// The separations under which every tree is tried.
const SEPARATIONS: [u16; 5] = [1, 2, 3, 5, 1_024];

/// The most nodes of a small tree.
const MOST: u16 = MOST_NODES as u16;

/// What a call is given: of the dots only the first so many entries, the others lie behind them.
#[derive(Clone, Copy)]
struct Call<'a> {
    nodes: u16,
    dots: &'a [i32],
    dots_len: usize,
    separation: u16,
}

impl fmt::Display for Call<'_> {
    fn fmt(&self, f: &mut fmt::Formatter) -> fmt::Result {
        let Call {
            nodes,
            dots,
            dots_len,
            separation,
        } = self;
        let first = &dots[..dots.len().min(32)];
        write!(
            f,
            "trees_of_dots with nodes {nodes}, separation {separation}, dots_len {dots_len} of \
            {first:?}"
        )
    }
}

/// A tree under one separation: its place in the list of its count of nodes, and its dots.
#[derive(Clone)]
struct Plot {
    nodes: u16,
    place: u16,
    dots: Vec<i32>,
}

struct Comparison {
    run: Run,
    drawings: Drawings,
    /// How many accepted calls found no tree, one, and more.
    answers: [u64; 3],
}

impl Comparison {
    /// One call.
    fn call(&mut self, call: Call) -> Found {
        self.run.count_call();
        let Call {
            nodes,
            dots,
            dots_len,
            separation,
        } = call;
        let random = &mut self.run.random;
        let mut lent = Lent::holding(dots, random);
        let mut lowest: Lent<u16> = Lent::new(1, random);
        let mut count: Lent<u16> = Lent::new(1, random);
        let wanted = self
            .drawings
            .trees_of_dots(nodes, &dots[..dots_len], separation);
        let number = ffi::trees_of_dots(
            nodes,
            &lent.slice()[..dots_len],
            separation,
            &mut lowest.slice()[0],
            &mut count.slice()[0],
        );
        self.run.count_number(number);
        if number == 0 {
            self.answers[usize::from(wanted.count.min(2))] += 1;
        }
        let run = &self.run;
        run.expect("number", number, wanted.number, &call);
        run.expect("lowest", lowest.after()[0], wanted.lowest, &call);
        run.expect("count", count.after()[0], wanted.count, &call);
        run.expect_slice("dots", lent.after(), dots, &call);
        let margins = [
            lent.margins_untouched(),
            lowest.margins_untouched(),
            count.margins_untouched(),
        ];
        run.expect("margins untouched", margins, [true; 3], &call);
        wanted
    }

    /// One call with all of these entries.
    fn find(&mut self, nodes: u16, dots: &[i32], separation: u16) -> Found {
        self.call(Call {
            nodes,
            dots,
            dots_len: dots.len(),
            separation,
        })
    }

    /// Every tree of these counts of nodes under a separation.
    fn plots(&self, sizes: std::ops::RangeInclusive<u16>, separation: u16) -> Vec<Plot> {
        let mut plots = Vec::new();
        for nodes in sizes {
            let trees = self.drawings.list(nodes).iter().zip(0..);
            plots.extend(trees.map(|(tree, place)| {
                let dots = dots_of(&tree.table, separation, &vec![0; usize::from(nodes)]);
                Plot {
                    nodes,
                    place,
                    dots: entries(&dots),
                }
            }));
        }
        plots
    }

    /// Calls with the answer that the words give them.
    fn cases(&mut self) {
        let answers: [(u16, &[i32], u16, u16, u16); 16] = [
            (1, &[0, 0], 1, 0, 1),
            (1, &[0, 0], 1_024, 0, 1),
            (1, &[0, 1], 1, 0, 0),
            (1, &[1, 0], 1, 0, 0),
            (1, &[7, 0], 1, 0, 0),
            (2, &[0, 0, 1, 0], 5, 0, 1),
            (2, &[0, 0, 2, 0], 5, 0, 0),
            (2, &[0, 0, 0, 5], 5, 0, 0),
            // Two leaves 3 apart, the root above half of it, rounded down.
            (3, &[0, 0, 1, -1, 1, 2], 3, 0, 1),
            (3, &[0, 0, 1, -2, 1, 1], 3, 0, 0),
            (3, &[0, 0, 1, -1, 1, 2], 4, 0, 0),
            (3, &[0, 0, 1, 0, 2, 0], 3, 1, 1),
            // Under the right leaf, and under the left one.
            (4, &[0, 0, 1, -1, 1, 1, 2, 1], 2, 1, 1),
            (4, &[0, 0, 1, -1, 1, 1, 2, -1], 2, 2, 1),
            // Three leaves under the second of three children, or one under each.
            (7, &[0, 0, 1, -2, 1, 0, 1, 2, 2, -2, 2, 0, 2, 2], 2, 21, 2),
            // The chain, which is last.
            (
                8,
                &[0, 0, 1, 0, 2, 0, 3, 0, 4, 0, 5, 0, 6, 0, 7, 0],
                1_024,
                428,
                1,
            ),
        ];
        for (nodes, dots, separation, lowest, count) in answers {
            let found = self.find(nodes, dots, separation);
            let wanted = Found {
                number: 0,
                lowest,
                count,
            };
            let case = format!("{nodes} nodes, D = {separation}, {dots:?}");
            self.run.expect("answer of the words", found, wanted, &case);
        }
        let numbers: [(u16, &[i32], u16, u16); 28] = [
            (0, &[], 1, 20),
            (0, &[0, 0], 1, 20),
            (9, &[0, 0], 1, 20),
            (65_535, &[], 1, 20),
            (0, &[], 0, 20),
            (9, &[-1, 0], 1_025, 20),
            (1, &[], 1, 22),
            (1, &[0], 1, 22),
            (1, &[0, 0, 1], 1, 22),
            (1, &[0, 0, 1, 0], 1, 22),
            (2, &[0, 0], 1, 22),
            (1, &[-1, 0], 1, 22),
            (1, &[8, 0], 1, 22),
            (1, &[i32::MIN, 0], 1, 22),
            (1, &[i32::MAX, 0], 1, 22),
            (2, &[0, 0, 0, 0], 1, 22),
            (2, &[0, 1, 0, 0], 1, 22),
            (2, &[1, 0, 0, 5], 1, 22),
            (2, &[0, i32::MAX, 0, i32::MIN], 1, 22),
            (1, &[], 0, 22),
            (1, &[-1, 0], 0, 22),
            (1, &[8, 0], 1_025, 22),
            (2, &[0, 0, 0, 0], 1_025, 22),
            (1, &[0, 0], 0, 6),
            (1, &[0, 0], 1_025, 6),
            (1, &[0, 0], 65_535, 6),
            (1, &[7, i32::MIN], 0, 6),
            (2, &[0, i32::MIN, 0, i32::MAX], 1_025, 6),
        ];
        for (nodes, dots, separation, wanted) in numbers {
            let number = self.find(nodes, dots, separation).number;
            let case = format!("{nodes} nodes, D = {separation}, {dots:?}");
            self.run
                .expect("number of the words", number, wanted, &case);
        }
        self.run.end_section("calls answered by the words");
    }

    /// The dots of every tree.
    fn found_again(&mut self) {
        for separation in SEPARATIONS {
            for plot in self.plots(1..=MOST, separation) {
                let found = self.find(plot.nodes, &plot.dots, separation);
                let case = format!("place {}, D = {separation}, {:?}", plot.place, plot.dots);
                let again = found.lowest <= plot.place && found.count >= 1;
                self.run.expect("whether it is found", again, true, &case);
            }
        }
        self.run.end_section("dots of every tree");
    }

    /// The dots of every tree of up to six nodes under every separation; under some of them also
    /// those of larger trees: all that trees share, and some others.
    fn every_separation(&mut self) {
        for separation in 1..=1_024 {
            for plot in self.plots(1..=6, separation) {
                self.find(plot.nodes, &plot.dots, separation);
            }
            let larger = !(16..=1_008).contains(&separation) || separation % 8 == 0;
            for nodes in (7..=MOST).filter(|_| larger) {
                let classes = self.drawings.classes(nodes, separation).clone();
                for (dots, places) in classes {
                    if places.len() > 1 || self.run.random.once_in(8) {
                        self.find(nodes, &entries(&dots), separation);
                    }
                }
            }
            self.drawings.forget();
        }
        self.run.end_section("dots of trees under every separation");
    }

    /// One number of the dots of every tree changed: by one, as far as neighbours stand apart, to
    /// numbers with the same low bits, and to the ends of their range. Of the trees of eight nodes
    /// some of these, but all by one and by 65,536.
    fn one_changed(&mut self) {
        for separation in SEPARATIONS {
            for plot in self.plots(1..=MOST, separation) {
                let all = plot.nodes < MOST || separation == 2;
                for entry in 0..plot.dots.len() {
                    let values = others(plot.dots[entry], separation);
                    for (index, value) in values.into_iter().enumerate() {
                        if all || index < 4 || self.run.random.once_in(10) {
                            self.changed_to(&plot, entry, value, separation);
                        }
                    }
                }
            }
        }
        self.run.end_section("one number changed");
    }

    fn changed_to(&mut self, plot: &Plot, entry: usize, value: i32, separation: u16) {
        let mut dots = plot.dots.clone();
        dots[entry] = value;
        self.find(plot.nodes, &dots, separation);
        let in_order = sorted(&dots);
        if in_order != dots && self.run.random.once_in(2) {
            self.find(plot.nodes, &in_order, separation);
        }
    }

    /// Of two dots of every tree: exchanged, one in the place of the other, their levels or places
    /// alone exchanged, and moved apart by one.
    fn two_changed(&mut self) {
        for separation in SEPARATIONS {
            for plot in self.plots(2..=MOST, separation) {
                let nodes = usize::from(plot.nodes);
                for right in 1..nodes {
                    for left in 0..right {
                        let all = plot.nodes < MOST || separation == 2;
                        if all || self.run.random.once_in(6) {
                            self.two_of(&plot, left, right, separation);
                        }
                    }
                }
            }
        }
        self.run.end_section("two dots changed");
    }

    fn two_of(&mut self, plot: &Plot, left: usize, right: usize, separation: u16) {
        let [l, r] = [2 * left, 2 * right];
        let ways: [fn(&mut [i32], usize, usize); 7] = [
            |dots, l, r| {
                dots.swap(l, r);
                dots.swap(l + 1, r + 1);
            },
            |dots, l, r| dots.swap(l, r),
            |dots, l, r| dots.swap(l + 1, r + 1),
            |dots, l, r| dots.copy_within(r..r + 2, l),
            |dots, l, r| dots.copy_within(l..l + 2, r),
            |dots, l, r| {
                dots[l + 1] -= 1;
                dots[r + 1] += 1;
            },
            |dots, l, r| {
                dots[l + 1] += 1;
                dots[r + 1] -= 1;
            },
        ];
        for change in ways {
            let mut dots = plot.dots.clone();
            change(&mut dots, l, r);
            self.find(plot.nodes, &dots, separation);
            let in_order = sorted(&dots);
            if in_order != dots && in_order != plot.dots {
                self.find(plot.nodes, &in_order, separation);
            }
        }
    }

    /// The dots of every tree as they are drawn otherwise: under another separation, moved as one,
    /// a level or all below it moved, turned left to right, and with half-widths.
    fn drawn_otherwise(&mut self) {
        for separation in SEPARATIONS {
            let d = i32::from(separation);
            for plot in self.plots(1..=MOST, separation) {
                for other in SEPARATIONS.into_iter().chain([4, 512, 1_023]) {
                    self.find(plot.nodes, &plot.dots, other);
                }
                for by in [1, -1, d, -d, 65_536, i32::MIN] {
                    self.moved(&plot, separation, by, |_| true);
                }
                for level in 1..=GREATEST_LEVEL {
                    if plot.dots.chunks(2).any(|dot| dot[0] == level) {
                        self.moved(&plot, separation, 1, |one| one == level);
                        self.moved(&plot, separation, -d, |one| one >= level);
                    }
                }
                let turned: Vec<i32> = plot
                    .dots
                    .chunks(2)
                    .flat_map(|dot| [dot[0], -dot[1]])
                    .collect();
                self.find(plot.nodes, &sorted(&turned), separation);
                self.with_half_widths(&plot, separation);
            }
        }
        self.run.end_section("drawn otherwise");
    }

    /// Those on certain levels moved, over the end of their range to its start.
    fn moved(&mut self, plot: &Plot, separation: u16, by: i32, moves: impl Fn(i32) -> bool) {
        let dots: Vec<i32> = plot
            .dots
            .chunks(2)
            .flat_map(|dot| match moves(dot[0]) {
                true => [dot[0], dot[1].wrapping_add(by)],
                false => [dot[0], dot[1]],
            })
            .collect();
        let found = self.find(plot.nodes, &dots, separation);
        let root_stands = dots[1] == 0;
        let fits = found.number == 0 && found.count > 0;
        self.run.expect(
            "whether a root off 0 fits",
            fits && !root_stands,
            false,
            &format!("D = {separation}, {dots:?}"),
        );
    }

    fn with_half_widths(&mut self, plot: &Plot, separation: u16) {
        let nodes = usize::from(plot.nodes);
        let table = self.drawings.list(plot.nodes)[usize::from(plot.place)]
            .table
            .clone();
        let random = &mut self.run.random;
        let drawn = [
            half_widths::some_up_to(1, nodes, random),
            half_widths::of_any_kind(nodes, random),
        ]
        .map(|half_widths| entries(&dots_of(&table, separation, &half_widths)));
        for dots in drawn {
            self.find(plot.nodes, &dots, separation);
        }
    }

    /// Dots of every tree with one left out or one put in, for as many nodes as there are then.
    fn one_more_or_less(&mut self) {
        for separation in SEPARATIONS {
            let d = i32::from(separation);
            for plot in self.plots(1..=MOST, separation) {
                for dot in 0..usize::from(plot.nodes) {
                    let mut dots = plot.dots.clone();
                    dots.drain(2 * dot..2 * dot + 2);
                    self.find(plot.nodes - 1, &dots, separation);
                    if plot.nodes < 7 || self.run.random.once_in(8) {
                        let [level, place] = [plot.dots[2 * dot], plot.dots[2 * dot + 1]];
                        let beside = [[level, place + d], [level, place - d], [level + 1, place]];
                        for new in beside {
                            let dots = sorted(&[&plot.dots[..], &new].concat());
                            self.find(plot.nodes + 1, &dots, separation);
                        }
                    }
                }
            }
        }
        self.run.end_section("one dot more or less");
    }

    /// Slices of every length about the right one, and of lengths whose low bits alone are right.
    /// Whatever the length, what lies behind the entries goes on as the dots do.
    fn every_length(&mut self) {
        for separation in SEPARATIONS {
            for plot in self.plots(1..=MOST, separation) {
                let mut dots = plot.dots.clone();
                let [level, place] = [dots[dots.len() - 2], dots[dots.len() - 1]];
                for next in 1..=4 {
                    dots.extend([level, place + next]);
                }
                for dots_len in 0..=dots.len() {
                    self.call(Call {
                        nodes: plot.nodes,
                        dots: &dots,
                        dots_len,
                        separation,
                    });
                }
            }
        }
        for separation in [2, 0, 1_025] {
            for plot in self.plots(1..=MOST, 2).into_iter().step_by(25) {
                let exact = plot.dots.len();
                for base in [0, 256, 4_096, 65_536] {
                    for dots_len in base..=base + exact + 2 {
                        let mut dots = plot.dots.clone();
                        dots.resize(dots_len.max(exact), 7);
                        self.call(Call {
                            nodes: plot.nodes,
                            dots: &dots,
                            dots_len,
                            separation,
                        });
                    }
                }
            }
        }
        self.run.end_section("slices of every length");
    }

    /// Every count of nodes, with dots that are right for another, or for none, and as many entries
    /// as it would need.
    fn every_count(&mut self) {
        let plots = self.plots(1..=MOST, 3);
        let rising: Vec<i32> = (0..1_024).flat_map(|dot| [dot.min(7), dot]).collect();
        for nodes in 0..=u16::MAX {
            let exact = 2 * usize::from(nodes);
            let plot = &plots[self.run.random.below(plots.len())];
            for separation in [3, 0] {
                self.find(nodes, &plot.dots, separation);
            }
            self.find(nodes, &rising[..exact.min(rising.len())], 3);
            self.find(nodes, &[], 1_025);
        }
        for nodes in [9_u16, 10, 256, 257, 264, 32_776, 65_535] {
            let dots: Vec<i32> = (0..i32::from(nodes)).flat_map(|place| [7, place]).collect();
            self.find(nodes, &dots, 3);
        }
        for plot in &plots {
            for nodes in 0..=MOST + 2 {
                for separation in [3, 1_025] {
                    self.find(nodes, &plot.dots, separation);
                }
            }
        }
        self.run.end_section("every count of nodes");
    }

    /// Every separation out of its range, with dots that are right under one of the others, with
    /// dots that are refused and with a count that is refused.
    fn wrong_separations(&mut self) {
        let plots: Vec<Plot> = SEPARATIONS
            .into_iter()
            .flat_map(|separation| self.plots(1..=MOST, separation))
            .collect();
        for separation in (0..=u16::MAX).filter(|one| !(1..=1_024).contains(one)) {
            for plot in [0; 2].map(|_| plots[self.run.random.below(plots.len())].clone()) {
                self.find(plot.nodes, &plot.dots, separation);
                let falling: Vec<i32> = plot.dots.iter().rev().copied().collect();
                self.find(plot.nodes, &falling, separation);
                self.find(plot.nodes, &plot.dots[1..], separation);
                self.find(9, &plot.dots, separation);
            }
        }
        for plot in plots {
            for separation in [0, 1_025, 1_026, 2_048, 32_769, 65_535] {
                self.find(plot.nodes, &plot.dots, separation);
            }
        }
        self.run.end_section("separations out of range");
    }

    /// Every set of so many dots on a grid, under small separations.
    fn every_set(&mut self) {
        for (nodes, levels, places) in [(1, 9, 3), (2, 9, 3), (3, 4, 3), (4, 4, 2), (5, 4, 2)] {
            let grid: Vec<Dot> = (-1..levels)
                .flat_map(|level| (-places..=places).map(move |place| (level, place)))
                .collect();
            self.sets_of(nodes, &grid, &[]);
        }
        // Of the next, those under a root that stands right.
        let grid: Vec<Dot> = (1..=4)
            .flat_map(|level| (-2..=2).map(move |place| (level, place)))
            .collect();
        self.sets_of(6, &grid, &[(0, 0)]);
        self.run.end_section("every set of a few dots on a grid");
    }

    fn sets_of(&mut self, nodes: u16, grid: &[Dot], chosen: &[Dot]) {
        if chosen.len() == usize::from(nodes) {
            let dots: Vec<i32> = chosen
                .iter()
                .flat_map(|&(level, place)| [level, place])
                .collect();
            for separation in [1, 2] {
                self.find(nodes, &dots, separation);
            }
            return;
        }
        for (index, &dot) in grid.iter().enumerate() {
            self.sets_of(nodes, &grid[index + 1..], &[chosen, &[dot]].concat());
        }
    }

    /// Well-formed dots: on any levels, or on those of a tree; at places of any size, or of some
    /// half separations.
    fn random_dots(&mut self) {
        for _ in 0..150_000 {
            let random = &mut self.run.random;
            let nodes = random.between(1, MOST_NODES) as u16;
            let separation = [1, 2, 3, 4, 5, 10, 100, 1_023, 1_024][random.below(9)];
            let list = self.drawings.list(nodes);
            let levels: Vec<i32> = match random.once_in(3) {
                true => (0..nodes).map(|_| random.below(8) as i32).collect(),
                false => {
                    let tree = &list[random.below(list.len())];
                    tree.levels.iter().copied().map(i32::from).collect()
                }
            };
            let kind = random.below(4);
            let dots: BTreeSet<Dot> = levels
                .into_iter()
                .map(|level| (level, some_place(kind, level, separation, random)))
                .collect();
            let dots = entries(&dots);
            self.find((dots.len() / 2) as u16, &dots, separation);
        }
        self.run.end_section("random dots that rise");
    }

    /// Slices of any entries, near the ends of their ranges often, with counts and separations in
    /// range or not.
    fn random_slices(&mut self) {
        const LEVELS: [i32; 8] = [-1, 0, 0, 1, 2, 7, 8, i32::MAX];
        const PLACES: [i32; 8] = [i32::MIN, i32::MIN + 1, -1, 0, 0, 1, i32::MAX - 1, i32::MAX];
        for _ in 0..300_000 {
            let random = &mut self.run.random;
            let nodes = random.between(0, MOST_NODES + 1) as u16;
            let len = match random.once_in(8) {
                true => random.below(20),
                false => 2 * usize::from(nodes),
            };
            let mut dots: Vec<i32> = (0..len)
                .map(|entry| match (random.once_in(20), entry % 2) {
                    (true, _) => random.bits() as i32,
                    (false, 0) => LEVELS[random.below(8)],
                    (false, _) => PLACES[random.below(8)],
                })
                .collect();
            if !random.once_in(4) && len % 2 == 0 {
                dots = sorted(&dots);
            }
            let separation = match random.once_in(3) {
                true => [0, 1_025, 65_535, random.word()][random.below(4)],
                false => [1, 2, 3, 1_024][random.below(4)],
            };
            self.find(nodes, &dots, separation);
        }
        self.run.end_section("random slices");
    }
}

/// Other numbers for an entry, first those that are 1 and 65,536 off.
fn others(entry: i32, separation: u16) -> Vec<i32> {
    let d = i32::from(separation);
    let first = [1, -1, 65_536, -65_536].map(|by| entry + by);
    let near = [2, -2, d, -d, 2 * d, -2 * d, (d + 1) / 2].map(|by| entry + by);
    let far = [256, -256, 1 << 24, i32::MIN].map(|by| entry.wrapping_add(by));
    let ends = [-1, 8, i32::MIN, i32::MAX];
    let mut others: BTreeSet<i32> = near.into_iter().chain(far).chain(ends).collect();
    others.retain(|other| *other != entry && !first.contains(other));
    first.into_iter().chain(others).collect()
}

/// The same dots in rising order; equal ones stay beside each other.
fn sorted(dots: &[i32]) -> Vec<i32> {
    let mut dots: Vec<[i32; 2]> = dots.chunks(2).map(|dot| [dot[0], dot[1]]).collect();
    dots.sort_unstable();
    dots.concat()
}

/// A place of some kind; that of a root is mostly 0.
fn some_place(kind: usize, level: i32, separation: u16, random: &mut Random) -> i32 {
    if level == 0 && !random.once_in(10) {
        return 0;
    }
    let d = i64::from(separation);
    let steps = random.between(0, 12) as i64 - 6;
    let place = match kind {
        0 => steps,
        1 => (steps * d).div_euclid(2),
        2 => steps * d,
        _ => i64::from(random.bits() as i32),
    };
    place as i32
}

#[test]
fn the_trees_of_dots_agree_with_the_model() {
    let mut comparison = Comparison {
        run: Run::start("trees of dots"),
        drawings: Drawings::new(),
        answers: [0; 3],
    };
    comparison.cases();
    comparison.found_again();
    comparison.every_separation();
    comparison.one_changed();
    comparison.two_changed();
    comparison.drawn_otherwise();
    comparison.one_more_or_less();
    comparison.every_length();
    comparison.every_count();
    comparison.wrong_separations();
    comparison.every_set();
    comparison.random_dots();
    comparison.random_slices();
    let Comparison { run, answers, .. } = comparison;
    let [none, one, more] = answers;
    run.note(&format!(
        "of those that gave 0, {none} fit no tree, {one} one, {more} more than one"
    ));
    let enough = answers.iter().zip(LEAST_OF_ANSWERS);
    let rare = enough.filter(|(count, least)| *count < least).count();
    run.expect("answers that are rare", rare, 0, &"all calls");
    run.expect_often(&[0, 6, 20, 22], LEAST_OF_EACH);
    run.finish(LEAST_CALLS);
}

/// A tree of the library's list, by its table.
fn small_tree(nodes: u16, place: u16, run: &Run) -> Vec<u16> {
    let mut table = vec![0; 2 * usize::from(nodes)];
    let number = ffi::small_tree(nodes, place, &mut table);
    run.expect("number of small_tree", number, 0, &place);
    table
}

/// The dots of the library's layout of a table, by level and then place.
fn laid_out(table: &[u16], separation: u16, run: &Run) -> Vec<i32> {
    let nodes = table.len() / 2;
    let (mut places, mut levels) = (vec![0; nodes], vec![0; nodes]);
    let mut lent = Slices {
        places: &mut places,
        levels: &mut levels,
        record: &mut vec![0; 2 * nodes],
        work: &mut vec![0; 16 * nodes],
    };
    let half_widths = vec![0; nodes];
    let mut fields = Fields::default();
    let number = ffi::layout(table, separation, &half_widths, &mut lent, &mut fields);
    run.expect("number of layout", number, 0, &Shown(table));
    let dots: BTreeSet<Dot> = levels.into_iter().map(i32::from).zip(places).collect();
    run.expect("dots", dots.len(), nodes, &Shown(table));
    entries(&dots)
}

/// Of each set of dots that trees of a list have by the library, the places of all that have it.
type Classes = BTreeMap<Vec<i32>, Vec<u16>>;

fn classes(nodes: u16, separation: u16, run: &Run) -> Classes {
    let mut classes = Classes::new();
    for place in 0..LENGTHS[usize::from(nodes) - 1] {
        let table = small_tree(nodes, place, run);
        let dots = laid_out(&table, separation, run);
        classes.entry(dots).or_default().push(place);
    }
    classes
}

/// One call for the dots of these places, which must give the lowest and how many they are. Gives
/// the count.
fn count_of(nodes: u16, separation: u16, dots: &[i32], places: &[u16], run: &mut Run) -> u16 {
    run.count_call();
    let (mut lowest, mut count) = (u16::MAX, u16::MAX);
    let number = ffi::trees_of_dots(nodes, dots, separation, &mut lowest, &mut count);
    run.count_number(number);
    let case = format!("{nodes} nodes, D = {separation}, {dots:?}");
    let wanted = (0, places[0], places.len() as u16);
    run.expect("answer", (number, lowest, count), wanted, &case);
    count
}

/// The places of the trees that share their dots, set by set.
fn shared(classes: Classes) -> Vec<Vec<u16>> {
    let mut shared: Vec<Vec<u16>> = classes
        .into_values()
        .filter(|places| places.len() > 1)
        .collect();
    shared.sort_unstable();
    shared
}

/// How many trees there are of 1 node, of 2, and so on.
const LENGTHS: [u16; MOST_NODES] = [1, 1, 2, 5, 14, 42, 132, 429];

/// The sets of dots that more than one tree has, by count of nodes: with D = 1, and with any other.
const SETS_BY_1: [usize; MOST_NODES] = [0, 0, 0, 0, 1, 6, 24, 89];
const SETS: [usize; MOST_NODES] = [0, 0, 0, 0, 0, 0, 1, 7];

/// The places of the trees that share them, unless D is 1.
const PAIR_OF_SEVEN: [[u16; 2]; 1] = [[21, 48]];
const PAIRS_OF_EIGHT: [[u16; 2]; 7] = [
    [21, 48],
    [61, 148],
    [63, 177],
    [66, 150],
    [72, 161],
    [91, 270],
    [236, 296],
];

#[test]
fn the_dots_of_every_tree_lead_back_to_it() {
    let mut run = Run::start("trees of dots, lists");
    for separation in SEPARATIONS {
        let mut sets = Vec::new();
        for nodes in 1..=MOST {
            let classes = classes(nodes, separation, &run);
            let counts: Vec<u16> = classes
                .iter()
                .map(|(dots, places)| count_of(nodes, separation, dots, places, &mut run))
                .collect();
            let length = LENGTHS[usize::from(nodes) - 1];
            run.expect("trees that fit", counts.iter().sum(), length, &nodes);
            sets.push(shared(classes));
        }
        let counts: Vec<usize> = sets.iter().map(Vec::len).collect();
        let trees: Vec<usize> = sets.iter().flatten().map(Vec::len).collect();
        run.note(&format!(
            "D = {separation}: {counts:?} sets of dots are shared, by {} trees, at most {} a set",
            trees.iter().sum::<usize>(),
            trees.iter().max().expect("some are shared")
        ));
        let wanted = match separation {
            1 => SETS_BY_1,
            _ => SETS,
        };
        run.expect_slice("sets that are shared", &counts, &wanted, &separation);
    }
    run.expect_numbers(&[0]);
    run.finish(2_943);
}

#[test]
fn two_trees_of_seven_nodes_share_their_dots_and_seven_pairs_of_eight() {
    let mut run = Run::start("trees of dots, shared");
    for separation in 2..=1_024 {
        for (nodes, pairs) in [(7, &PAIR_OF_SEVEN[..]), (8, &PAIRS_OF_EIGHT)] {
            let classes = classes(nodes, separation, &run);
            let several = classes.iter().filter(|(_, places)| places.len() > 1);
            let some = classes
                .iter()
                .skip(usize::from(separation) % 50)
                .step_by(50);
            for (dots, places) in several.chain(some) {
                count_of(nodes, separation, dots, places, &mut run);
            }
            let pairs: Vec<Vec<u16>> = pairs.iter().map(|pair| pair.to_vec()).collect();
            run.expect_slice("pairs", &shared(classes), &pairs, &separation);
        }
    }
    run.expect_numbers(&[0]);
    run.finish(15_000);
}
