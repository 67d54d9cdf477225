//! The library's layout for TreeTeX held against the model, call by call; without an extra space
//! against the plain layout; and without any model against what is promised of its drawings.

use reference::binary_shapes::{crowded, every_tree, most_children, BINARY};
use reference::half_widths::{self, some_of, some_up_to, to_be_refused, KINDS};
use reference::layout::{Given, LaidOut};
use reference::layout_call::{
    compare_every_length, expect_same, some_separation, Call, Lengths, Room,
};
use reference::random::Random;
use reference::run::{Run, Shown};
use reference::shapes::{self, disconnected, renumbered_at_random, table_of_levels, twice, ANY};
use reference::table::{
    children_of, level_by_level, parents_first, refusal, Children, MOST_NODES, NONE,
};
use reference::treetex::Profile;
use std::collections::hash_map::{Entry, HashMap};
use std::fmt::Debug;

/// The separations and extra spaces under which every small tree is laid out.
const SEPARATIONS: [u16; 3] = [1, 2, 1_024];
const EXTRAS: [u16; 4] = [0, 1, 7, 1_024];

/// What a call for TreeTeX is given.
fn given<'a>(table: &'a [u16], separation: u16, half_widths: &'a [u16], extra: u16) -> Given<'a> {
    Given {
        profile: Profile::TreeTex { extra },
        ..Given::plain(table, separation, half_widths)
    }
}

struct Comparison {
    run: Run,
}

impl Comparison {
    /// One call with slices that are just long enough.
    fn exact(
        &mut self,
        table: &[u16],
        separation: u16,
        half_widths: &[u16],
        extra: u16,
    ) -> LaidOut {
        let given = given(table, separation, half_widths, extra);
        Call::exact(given).compare(&mut self.run)
    }

    /// The same with half-widths of any kind, for its number.
    fn any_widths(&mut self, table: &[u16], separation: u16, extra: u16) -> u16 {
        let half_widths = self.half_widths(table.len() / 2);
        self.exact(table, separation, &half_widths, extra).number
    }

    fn every_length(&mut self, table: &[u16]) {
        let separation = self.separation();
        let profile = Profile::TreeTex {
            extra: self.extra(),
        };
        compare_every_length(table, separation, profile, &mut self.run);
    }

    fn separation(&mut self) -> u16 {
        some_separation(&mut self.run.random)
    }

    /// An extra space from 0 to 1,024, often a small one.
    fn extra(&mut self) -> u16 {
        let random = &mut self.run.random;
        let greatest = [0, 3, 12, 1_024][random.below(4)];
        random.between(0, greatest) as u16
    }

    /// One above 1,024.
    fn wrong_extra(&mut self) -> u16 {
        let random = &mut self.run.random;
        let any = random.between(1_025, usize::from(u16::MAX));
        [1_025, 2_048, 32_768, u16::MAX, any as u16][random.below(5)]
    }

    fn wrong_separation(&mut self) -> u16 {
        [0, 1_025, u16::MAX][self.run.random.below(3)]
    }

    fn half_widths(&mut self, nodes: usize) -> Vec<u16> {
        half_widths::of_any_kind(nodes, &mut self.run.random)
    }

    /// The perfect tree of seven nodes, by hand. The root 0 has the children 4 and 1, node 4 the
    /// leaves 6 and 2, node 1 the leaves 3 and 5. With D = 2 leaves stand 2 apart under each of
    /// them, at -1 and 1. Node 1 starts at 2 from node 4; its first leaf and the last leaf of node 4
    /// are then at one place, so it moves by 2. That is below the children's own level: with E = 3
    /// it moves by 3 more, to 7. The root stands at 3, half of 7 rounded down. Without E it is 4,
    /// and the root stands at 2.
    fn by_hand(&mut self) {
        let table = [
            4, NONE, 3, NONE, NONE, NONE, NONE, 5, 6, 1, NONE, NONE, NONE, 2,
        ];
        for (extra, places) in [(0, [0, 2, -1, 1, -2, 3, -3]), (3, [0, 4, -2, 3, -3, 5, -4])] {
            let laid = self.exact(&table, 2, &[0; 7], extra);
            let wanted = LaidOut {
                number: 0,
                nodes: 7,
                level_count: 3,
                least: places[6],
                greatest: places[5],
                pairs: 4,
                places: places.to_vec(),
                levels: vec![0, 1, 2, 2, 1, 2, 2],
                record: [&[4, 1, 6, 2, 2, 3, 3, 5][..], &laid.record[8..]].concat(),
                work: vec![0; 112],
            };
            expect_same(&laid, &wanted, &self.run, &"the perfect tree");
        }
        self.run.end_section("a tree by hand");
    }

    /// Two chains whose nodes grow wider from level to level, by one half-width a pair: each level
    /// has a conflict of 1, but for the first, and E is added once.
    fn conflicts_on_every_level(&mut self) {
        for length in [1, 2, 3, 16, 17, 255, 256, 257, 258, 511] {
            let levels: Vec<usize> = (0..=length).chain(1..=length).collect();
            let half_widths: Vec<u16> = (0..=2 * length)
                .map(|node| (levels[node] - usize::from(node > length)) as u16 / 2)
                .collect();
            for extra in EXTRAS {
                let laid = self.exact(&table_of_levels(&levels), 5, &half_widths, extra);
                let added = i32::from(number_if(length > 1, extra));
                let distance = 5 + (length as i32 - 1) + added;
                let wanted = (-(distance / 2), distance - distance / 2);
                let case = format!("two chains of {length} nodes, E = {extra}");
                self.run
                    .expect("extremes", (laid.least, laid.greatest), wanted, &case);
            }
        }
        self.run
            .end_section("two chains with a conflict on every level");
    }

    /// Calls with the number that the words give them.
    fn numbers_of_the_words(&mut self) {
        let (pair, three) = (shapes::star(3), shapes::star(4));
        let deep = table_of_levels(&[0, 1, 2, 3, 3, 3]);
        let (longest, too_long) = (shapes::binary(1_024), shapes::binary(1_025));
        let cases: [(&[u16], u16, u16, u16); 22] = [
            (&[], 5, 0, 1),
            (&too_long, 5, 0, 1),
            (&[NONE, 1, NONE, NONE], 5, 0, 3),
            (&[0, NONE], 5, 1_025, 4),
            (&[NONE; 4], 0, 0, 5),
            (&[NONE, NONE, 2, NONE, 1, NONE], 5, 0, 14),
            (&[NONE; 2], 5, 1_024, 0),
            (&longest, 1_024, 1_024, 0),
            (&pair, 5, 0, 0),
            (&pair, 1, 1_024, 0),
            (&pair, 1_024, 1_025, 24),
            (&pair, 1, u16::MAX, 24),
            (&pair, 0, 0, 6),
            (&pair, 1_025, 1_024, 6),
            (&pair, 0, 1_025, 6),
            (&three, 5, 0, 23),
            (&three, 5, 1_025, 23),
            (&three, 0, 0, 23),
            (&three, 1_025, u16::MAX, 23),
            (&deep, 5, 7, 23),
            (&deep, 0, 1_025, 23),
            (&shapes::star(1_024), 5, 7, 23),
        ];
        for (table, separation, extra, wanted) in cases {
            let half_widths = vec![0; table.len() / 2];
            let number = self.exact(table, separation, &half_widths, extra).number;
            let case = format!("D = {separation}, E = {extra}, {}", Shown(table));
            self.run
                .expect("number of the words", number, wanted, &case);
            self.every_length(table);
        }
        self.run.end_section("calls answered by the words");
    }

    fn every_small_tree(&mut self) {
        for table in (1..=9).flat_map(every_tree) {
            let nodes = table.len() / 2;
            for (separation, extra) in SEPARATIONS
                .into_iter()
                .flat_map(|separation| EXTRAS.map(|extra| (separation, extra)))
            {
                self.exact(&table, separation, &vec![0; nodes], extra);
                self.any_widths(&table, separation, extra);
                let half_widths = some_of(&[0, 1, 256], nodes, &mut self.run.random);
                self.exact(&table, separation, &half_widths, extra);
            }
            let (separation, extra) = (self.separation(), self.wrong_extra());
            self.any_widths(&table, separation, extra);
            let (separation, extra) = (self.wrong_separation(), self.extra());
            self.any_widths(&table, separation, extra);
            let renumbered = renumbered_at_random(&table, &mut self.run.random);
            self.every_length(&renumbered);
        }
        self.run
            .end_section("every tree of up to 9 nodes with at most two children a node");
    }

    /// Every shape in many sizes, as it is and with other numbers; then the same damaged.
    fn shapes(&mut self) {
        let tables = BINARY.of_many_sizes(40, 20, 5, &mut self.run.random);
        for table in &tables {
            let nodes = table.len() / 2;
            for extra in EXTRAS {
                let separation = self.separation();
                let number = self.any_widths(table, separation, extra);
                self.run.expect("number", number, 0, &"a binary tree");
            }
            let extra = self.extra();
            self.exact(table, 2, &vec![0; nodes], extra);
            self.exact(table, 1_024, &vec![256; nodes], 1_024);
            if nodes < 300 {
                self.every_length(table);
                for kind in &KINDS {
                    let half_widths = (kind.make)(nodes, &mut self.run.random);
                    let (separation, extra) = (self.separation(), self.extra());
                    self.exact(table, separation, &half_widths, extra);
                }
            }
        }
        self.run
            .end_section("binary trees of many shapes and sizes");
        for table in &tables {
            for count in 1..=4 {
                let damaged = shapes::damaged(table, count, &mut self.run.random);
                let (separation, extra) = (self.separation(), self.extra());
                self.any_widths(&damaged, separation, extra);
            }
            let damaged = shapes::damaged(table, 1, &mut self.run.random);
            self.every_length(&damaged);
        }
        self.run
            .end_section("the same with one to four entries damaged");
    }

    /// Calls whose number must be 23, whatever else is wrong.
    fn expect_23(&mut self, table: &[u16]) {
        let nodes = table.len() / 2;
        let random = &mut self.run.random;
        let lengths = match random.once_in(2) {
            true => Lengths::exact(nodes),
            false => Lengths::any(nodes, random),
        };
        let half_widths = match random.once_in(2) {
            true => half_widths::of_any_kind(nodes, random),
            false => to_be_refused(nodes, random),
        };
        for separation in [self.separation(), self.wrong_separation()] {
            for extra in [self.extra(), self.wrong_extra()] {
                let given = given(table, separation, &half_widths, extra);
                let laid = Call { given, lengths }.compare(&mut self.run);
                self.run
                    .expect("number", laid.number, 23, &"three children");
            }
        }
    }

    /// Trees with a node of three children or more: small ones, those of any shape, and binary ones
    /// with a single such node.
    fn three_children(&mut self) {
        let small = (4..=8).flat_map(shapes::every_tree);
        let large = ANY.of_many_sizes(12, 4, 1, &mut self.run.random);
        let tables: Vec<Vec<u16>> = small
            .chain(large)
            .filter(|table| most_children(table) > 2)
            .collect();
        for table in &tables {
            self.expect_23(table);
        }
        for nodes in (3..60).chain([500, 1_000]) {
            for shape in BINARY.shapes {
                let random = &mut self.run.random;
                let table = (shape.make)(nodes, random);
                if most_children(&table) == 2 {
                    let most = random.between(3, 6);
                    for most in [3, most] {
                        let crowded = crowded(&table, most, &mut self.run.random);
                        self.expect_23(&crowded);
                        let other = renumbered_at_random(&crowded, &mut self.run.random);
                        self.expect_23(&other);
                    }
                }
            }
        }
        self.run
            .end_section("trees with three children or more at a node");
    }

    /// Every combination of what can be wrong: the first condition decides.
    fn order_of_conditions(&mut self) {
        for nodes in [3, 4, 7, 20, 51] {
            let random = &mut self.run.random;
            let binary = renumbered_at_random(&shapes::binary(nodes), random);
            let crowded = crowded(&binary, 3, random);
            let mut tables = vec![(0, binary.clone()), (23, crowded.clone())];
            for tree in [binary, crowded] {
                tables.extend(faulty(&tree, random));
            }
            for (of_table, table) in &tables {
                for separation in [0, 1, 5, 1_024, 1_025] {
                    for extra in [0, 7, 1_024, 1_025, u16::MAX] {
                        for widths_taken in [true, false] {
                            self.several_faults(*of_table, table, separation, extra, widths_taken);
                        }
                    }
                }
            }
        }
        self.run.end_section("several faults at once");
    }

    /// With slices that are long enough, each too short by one, and two of them.
    fn several_faults(
        &mut self,
        of_table: u16,
        table: &[u16],
        separation: u16,
        extra: u16,
        widths_taken: bool,
    ) {
        let nodes = table.len() / 2;
        let mut two = Lengths::exact(nodes);
        two.record -= 1;
        two.work -= 1;
        let random = &mut self.run.random;
        let half_widths = match widths_taken {
            true => half_widths::of_any_kind(nodes, random),
            false => to_be_refused(nodes, random),
        };
        for (of_slices, lengths) in Lengths::short_by_one(nodes).into_iter().chain([(7, two)]) {
            let tried = [
                of_table,
                number_if(!(1..=1_024).contains(&separation), 6),
                number_if(!widths_taken, 17),
                number_if(extra > 1_024, 24),
                of_slices,
            ];
            let wanted = tried.into_iter().find(|&number| number != 0).unwrap_or(0);
            let given = given(table, separation, &half_widths, extra);
            let call = Call { given, lengths };
            let number = call.compare(&mut self.run).number;
            self.run.expect("number", number, wanted, &call);
        }
    }

    /// Strays and rings, with D and E at their bounds and slices of all lengths.
    fn strays_and_rings(&mut self) {
        for nodes in (2..=20).chain([64, 300, 1_024]) {
            for (wanted, table) in shapes::strays_and_rings(nodes, &mut self.run.random) {
                for (separation, extra) in [(1, 0), (0, 0), (1_024, 1_025), (1_025, 1_024)] {
                    let number = self.any_widths(&table, separation, extra);
                    self.run
                        .expect("number", number, wanted, &"strays and rings");
                }
                if nodes <= 64 {
                    self.every_length(&table);
                }
            }
        }
        self.run.end_section("strays and rings");
    }

    /// Every extra space, with trees of which some node is significant and with others.
    fn every_extra_space(&mut self) {
        let trees: Vec<Vec<u16>> = (1..=9).flat_map(every_tree).collect();
        let perfect = shapes::binary(7);
        for extra in 0..=u16::MAX {
            let separation = self.separation();
            self.exact(&perfect, separation, &[0; 7], extra);
            if extra <= 1_100 {
                for _ in 0..8 {
                    let table = &trees[self.run.random.below(trees.len())];
                    self.any_widths(table, separation, extra);
                }
            }
        }
        self.run.end_section("every extra space");
    }

    /// Trees at random: many small ones and some large, with slices of any length, half-widths that
    /// are refused, extra spaces above the greatest and nodes of three children now and then.
    fn random_trees(&mut self) {
        for count in 0..40_000 {
            let separation = self.separation();
            let extra = match self.run.random.once_in(16) {
                true => self.wrong_extra(),
                false => self.extra(),
            };
            let random = &mut self.run.random;
            let nodes = match count % 200 {
                0 => random.between(300, 1_024),
                _ => random.between(1, 48),
            };
            let table = match random.once_in(16) {
                true => ANY.random_table(nodes, random),
                false => BINARY.random_table(nodes, random),
            };
            let lengths = match random.once_in(8) {
                true => Lengths::any(nodes, random),
                false => Lengths::exact(nodes),
            };
            let half_widths = match random.once_in(16) {
                true => to_be_refused(nodes, random),
                false => half_widths::of_any_kind(nodes, random),
            };
            let given = given(&table, separation, &half_widths, extra);
            Call { given, lengths }.compare(&mut self.run);
        }
        self.run.end_section("random trees");
        let lengths = Lengths::LONG;
        for nodes in [1, 2, 3, 64, 1_024] {
            let table = BINARY.random_table(nodes, &mut self.run.random);
            let mut half_widths = self.half_widths(nodes);
            half_widths.resize(65_536, u16::MAX);
            let given = given(&table, 5, &half_widths, 7);
            Call { given, lengths }.compare(&mut self.run);
        }
        self.run.end_section("slices of 65,536 entries");
    }
}

/// The number, or 0 where the condition does not hold.
fn number_if(holds: bool, number: u16) -> u16 {
    u16::from(holds) * number
}

/// The table of a tree with each of the conditions 1 to 5 and 14 in turn the first that holds.
fn faulty(tree: &[u16], random: &mut Random) -> Vec<(u16, Vec<u16>)> {
    let nodes = (tree.len() / 2) as u16;
    let with = |entry: usize, word: u16| {
        let mut table = tree.to_vec();
        table[entry] = word;
        table
    };
    let free: Vec<usize> = (2..tree.len())
        .filter(|&entry| tree[entry] == NONE)
        .collect();
    let mut tables = vec![
        (1, [tree, &[NONE]].concat()),
        (2, with(random.below(tree.len()), nodes)),
        (3, with(1, random.below(usize::from(nodes)) as u16)),
        (4, with(free[random.below(free.len())], 1)),
    ];
    for wanted in [5, 14] {
        let found = std::iter::repeat_with(|| disconnected(tree, random));
        tables.extend(found.into_iter().find(|(number, _)| *number == wanted));
    }
    tables
}

#[test]
fn the_layout_for_treetex_agrees_with_the_model() {
    let mut comparison = Comparison {
        run: Run::start("treetex"),
    };
    comparison.by_hand();
    comparison.conflicts_on_every_level();
    comparison.numbers_of_the_words();
    comparison.every_small_tree();
    comparison.shapes();
    comparison.three_children();
    comparison.order_of_conditions();
    comparison.strays_and_rings();
    comparison.every_extra_space();
    comparison.random_trees();
    let run = comparison.run;
    run.expect_often(&[0, 1, 2, 3, 4, 5, 6, 7, 8, 14, 17, 23, 24], 1_000);
    run.finish(200_000);
}

/// Calls of both layouts on slices that hold the same, which must give the same.
fn expect_plain(plain: Given, lengths: Lengths, run: &mut Run) {
    let room = Room::new(lengths, &mut run.random);
    let treetex = Given {
        profile: Profile::TreeTex { extra: 0 },
        ..plain
    };
    let [plain, treetex] = [plain, treetex].map(|given| Call { given, lengths });
    let wanted = plain.make(room.clone(), run);
    let got = treetex.make(room, run);
    expect_same(&got, &wanted, run, &treetex);
}

#[test]
fn without_an_extra_space_it_is_the_plain_layout() {
    let mut run = Run::start("treetex, plain");
    let small = (1..=10).flat_map(every_tree);
    let large = BINARY.of_many_sizes(30, 10, 1, &mut run.random);
    for table in small.chain(large) {
        let nodes = table.len() / 2;
        let (none, exact) = (vec![0; nodes], Lengths::exact(nodes));
        for separation in [0, 1, 1_024, some_separation(&mut run.random)] {
            let random = &mut run.random;
            let taken = half_widths::of_any_kind(nodes, random);
            let refused = to_be_refused(nodes, random);
            let any = Lengths::any(nodes, random);
            for (half_widths, lengths) in [
                (&none, exact),
                (&taken, exact),
                (&taken, any),
                (&refused, any),
            ] {
                expect_plain(
                    Given::plain(&table, separation, half_widths),
                    lengths,
                    &mut run,
                );
            }
        }
        // What is damaged may be a tree that only the plain layout takes.
        let damaged = shapes::damaged(&table, 1, &mut run.random);
        if refusal(&damaged) != 0 {
            expect_plain(Given::plain(&damaged, 5, &none), exact, &mut run);
        }
    }
    run.expect_often(&[0, 2, 3, 4, 5, 6, 7, 8, 14, 17], 50);
    run.finish(80_000);
}

/// A drawing that the library made, and its tree by the links alone.
struct Drawing<'a> {
    given: Given<'a>,
    laid: LaidOut,
    children: Children,
    parents: Vec<usize>,
}

/// What was seen of the drawings: how many nodes with two children are significant, how many are
/// not, and how many nodes have a shape that was met before.
#[derive(Default)]
struct Seen {
    significant: u64,
    others: u64,
    again: u64,
}

/// The shapes that were met under one separation and one extra space, by half-width and the
/// children's shapes: the number of each, from 1, and how far from its root the children stand.
type Met = HashMap<(u16, [usize; 2]), (usize, [i32; 2])>;

impl<'a> Drawing<'a> {
    fn made(given: Given<'a>, run: &mut Run) -> Self {
        let nodes = given.table.len() / 2;
        let call = Call::exact(given);
        let room = Room::new(call.lengths, &mut run.random);
        let laid = call.make(room, run);
        run.expect("number", laid.number, 0, &call);
        let children = children_of(given.table);
        let mut parents = vec![0; nodes];
        for (parent, family) in children.iter().enumerate() {
            for &child in family {
                parents[child] = parent;
            }
        }
        Drawing {
            given,
            laid,
            children,
            parents,
        }
    }

    fn place(&self, node: usize) -> i32 {
        self.laid.places[node]
    }

    /// By how much the distance of two neighbours is more than what they need.
    fn slack(&self, left: usize, right: usize) -> i32 {
        let width = |node: usize| i32::from(self.given.half_widths[node]);
        let needed = i32::from(self.given.separation) + width(left) + width(right);
        self.place(right) - self.place(left) - needed
    }

    fn expect<T: Debug + PartialEq>(&self, what: &str, got: T, wanted: T, run: &Run) {
        run.expect(what, got, wanted, &Call::exact(self.given));
    }

    /// Levels and record are those of the tree, neighbours stand in tree order and as far apart as
    /// they need, and each parent halfway between its children.
    fn expect_promises(&self, run: &Run) {
        let rows = level_by_level(&self.children);
        let mut record = Vec::new();
        for (level, row) in rows.iter().enumerate() {
            for &node in row {
                self.expect("level", usize::from(self.laid.levels[node]), level, run);
            }
            for pair in row.windows(2) {
                record.extend([pair[0] as u16, pair[1] as u16]);
                let kept = self.slack(pair[0], pair[1]) >= 0;
                self.expect("whether neighbours keep their distance", kept, true, run);
            }
        }
        let LaidOut { pairs, places, .. } = &self.laid;
        let written = &self.laid.record[..2 * usize::from(*pairs)];
        self.expect("record", written, &record[..], run);
        let counts = (places.len() as u16, rows.len() as u16);
        let got = (self.laid.nodes, self.laid.level_count);
        self.expect("counts of nodes and levels", got, counts, run);
        let extremes = (places.iter().min(), places.iter().max());
        let got = (Some(&self.laid.least), Some(&self.laid.greatest));
        self.expect("least and greatest place", got, extremes, run);
        self.expect("place of the root", places[0], 0, run);
        for (node, family) in self.children.iter().enumerate() {
            if let (Some(&first), Some(&last)) = (family.first(), family.last()) {
                let halfway = self.place(first) + (self.place(last) - self.place(first)) / 2;
                self.expect("place of a parent", self.place(node), halfway, run);
            }
        }
    }

    /// The closest pair between a node's two subtrees stands at the distance that it needs, and by
    /// the extra space farther apart where the node is significant: where some pair below the
    /// children is closer than they are.
    fn expect_significant(&self, run: &Run, seen: &mut Seen) {
        let nodes = self.children.len();
        // Neighbours belong to the two subtrees of the node where their ways up meet.
        let mut closest_below = vec![i32::MAX; nodes];
        for pair in self.laid.record[..2 * usize::from(self.laid.pairs)].chunks(2) {
            let (left, right) = (usize::from(pair[0]), usize::from(pair[1]));
            let slack = self.slack(left, right);
            let (mut left, mut right) = (self.parents[left], self.parents[right]);
            if left != right {
                while left != right {
                    (left, right) = (self.parents[left], self.parents[right]);
                }
                closest_below[left] = closest_below[left].min(slack);
            }
        }
        for (family, below) in self.children.iter().zip(closest_below) {
            if let [first, second] = family[..] {
                let own = self.slack(first, second);
                let significant = below < own;
                let wanted = number_if(significant, self.given.profile.extra());
                self.expect("closest pair", below.min(own), i32::from(wanted), run);
                seen.significant += u64::from(significant);
                seen.others += u64::from(!significant);
            }
        }
    }

    /// Nodes of one shape, with equal half-widths at corresponding nodes, have their children at
    /// the same distances, and so all that is below them.
    fn expect_equal_shapes(&self, met: &mut Met, run: &Run, seen: &mut Seen) {
        let mut shapes = vec![0; self.children.len()];
        for node in parents_first(&self.children).into_iter().rev() {
            let (mut below, mut distances) = ([0; 2], [0; 2]);
            for (nth, &child) in self.children[node].iter().enumerate() {
                below[nth] = shapes[child];
                distances[nth] = self.place(child) - self.place(node);
            }
            let number = 1 + met.len();
            shapes[node] = match met.entry((self.given.half_widths[node], below)) {
                Entry::Vacant(new) => new.insert((number, distances)).0,
                Entry::Occupied(known) => {
                    let (number, wanted) = *known.get();
                    self.expect("distances of a shape met before", distances, wanted, run);
                    seen.again += 1;
                    number
                }
            };
        }
    }
}

#[test]
fn drawings_keep_their_promises() {
    let mut run = Run::start("treetex, promises");
    let mut seen = Seen::default();
    let small = (1..=9).flat_map(every_tree);
    let large = BINARY.of_many_sizes(12, 6, 1, &mut run.random);
    let tables: Vec<Vec<u16>> = small.chain(large).collect();
    for separation in SEPARATIONS {
        for extra in EXTRAS {
            let mut met = Met::new();
            for table in &tables {
                let nodes = table.len() / 2;
                let random = &mut run.random;
                let none = (table.clone(), vec![0; nodes]);
                let small = (table.clone(), some_up_to(1, nodes, random));
                let any = half_widths::of_any_kind(nodes, random);
                let twice = match 2 * nodes < MOST_NODES {
                    true => (twice(table), [&[0], &any[..], &any].concat()),
                    false => (table.clone(), any),
                };
                for (table, half_widths) in [none, small, twice] {
                    let given = given(&table, separation, &half_widths, extra);
                    let drawing = Drawing::made(given, &mut run);
                    drawing.expect_promises(&run);
                    drawing.expect_significant(&run, &mut seen);
                    drawing.expect_equal_shapes(&mut met, &run, &mut seen);
                }
            }
        }
    }
    let Seen {
        significant,
        others,
        again,
    } = seen;
    run.note(&format!(
        "of the nodes with two children {significant} are significant and {others} are not; \
        {again} nodes have a shape that was met before"
    ));
    let often = significant.min(others).min(again) > 100_000;
    run.expect("whether all were seen often", often, true, &"all drawings");
    run.expect_numbers(&[0]);
    run.finish(40_000);
}
