//! The library's lists of all small trees held against the model, call by call, and against what
//! its own functions say of the trees.
//!
//! The slice lies between margins and holds random entries at first. After a refusal every entry
//! must be as it was; after an acceptance every entry past those of the tree must be as it was.

use reference::ffi::{self, Fields, Slices};
use reference::lent::Lent;
use reference::run::{Run, Shown};
use reference::shapes::{self, renumbered_at_random};
use reference::small_trees::{self, Lists, Written, MOST_NODES};
use reference::table::NONE;
use std::collections::BTreeMap;
use std::fmt;

/// How many calls there are at least, and how often each number must come out.
const LEAST_CALLS: u64 = 10_000_000;
const LEAST_OF_EACH: u64 = 150_000;

/// How many trees there are of 1 node, of 2, and so on.
const COUNTS: [u16; MOST_NODES] = [1, 1, 2, 5, 14, 42, 132, 429];

/// What a call is given.
#[derive(Clone, Copy)]
struct Call {
    nodes: u16,
    place: u16,
    table_len: usize,
}

impl fmt::Display for Call {
    fn fmt(&self, f: &mut fmt::Formatter) -> fmt::Result {
        let Call {
            nodes,
            place,
            table_len,
        } = self;
        write!(
            f,
            "small_tree with nodes {nodes}, place {place}, table_len {table_len}"
        )
    }
}

struct Comparison {
    run: Run,
    lists: Lists,
}

impl Comparison {
    /// One call.
    fn write(&mut self, call: Call) -> Written {
        self.run.count_call();
        let Call {
            nodes,
            place,
            table_len,
        } = call;
        let mut table: Lent<u16> = Lent::new(table_len, &mut self.run.random);
        let wanted = self.lists.small_tree(nodes, place, table.before());
        let number = ffi::small_tree(nodes, place, table.slice());
        self.run.count_number(number);
        let run = &self.run;
        run.expect("number", number, wanted.number, &call);
        run.expect_slice("table", table.after(), &wanted.table, &call);
        let margins = table.margins_untouched();
        run.expect("margins of table untouched", margins, true, &call);
        wanted
    }

    /// One call for each of these lengths.
    fn lengths(&mut self, nodes: u16, place: u16, lengths: &[usize]) {
        for &table_len in lengths {
            self.write(Call {
                nodes,
                place,
                table_len,
            });
        }
    }

    /// Calls with the answer that the words give them.
    fn cases(&mut self) {
        let tables: [(u16, u16, &[u16]); 10] = [
            (1, 0, &[NONE, NONE]),
            (2, 0, &[1, NONE, NONE, NONE]),
            (3, 0, &[1, NONE, NONE, 2, NONE, NONE]),
            (3, 1, &[1, NONE, 2, NONE, NONE, NONE]),
            (4, 0, &[1, NONE, NONE, 2, NONE, 3, NONE, NONE]),
            (4, 1, &[1, NONE, NONE, 2, 3, NONE, NONE, NONE]),
            (4, 2, &[1, NONE, 2, 3, NONE, NONE, NONE, NONE]),
            (4, 3, &[1, NONE, 2, NONE, NONE, 3, NONE, NONE]),
            (4, 4, &[1, NONE, 2, NONE, 3, NONE, NONE, NONE]),
            // Levels 0, 1, 2, 2, 3.
            (5, 9, &[1, NONE, 2, NONE, NONE, 3, 4, NONE, NONE, NONE]),
        ];
        for (nodes, place, table) in tables {
            let table_len = table.len();
            let call = Call {
                nodes,
                place,
                table_len,
            };
            let written = self.write(call);
            self.run
                .expect("table of the words", &written.table[..], table, &call);
        }
        let numbers = [
            (0, 0, 2_048, 20),
            (9, 0, 18, 20),
            (0, 65_535, 0, 20),
            (9, 1_430, 0, 20),
            (65_535, 0, 0, 20),
            (1, 1, 2, 21),
            (2, 1, 4, 21),
            (3, 2, 6, 21),
            (4, 5, 8, 21),
            (5, 14, 10, 21),
            (6, 42, 12, 21),
            (7, 132, 14, 21),
            (8, 429, 16, 21),
            (8, 429, 0, 21),
            (1, 65_535, 1, 21),
            (1, 0, 1, 7),
            (8, 428, 15, 7),
            (8, 428, 0, 7),
            (8, 428, 16, 0),
            (1, 0, 2, 0),
        ];
        for (nodes, place, table_len, wanted) in numbers {
            let call = Call {
                nodes,
                place,
                table_len,
            };
            let number = self.write(call).number;
            self.run
                .expect("number of the words", number, wanted, &call);
        }
        self.run.end_section("calls answered by the words");
    }

    /// Every place, for counts that have a list, those next to them, and some that have one if cut
    /// to fewer bits.
    fn every_place(&mut self) {
        let others = [255, 256, 257, 264, 265, 4_104, 32_768, 32_773, 65_535];
        for nodes in (0..=10).chain(others) {
            let exact = 2 * usize::from(nodes).min(MOST_NODES + 2);
            let lengths = [
                0,
                1,
                exact.saturating_sub(1),
                exact,
                exact + 1,
                exact + 7,
                2_048,
            ];
            for place in 0..=u16::MAX {
                self.lengths(nodes, place, &lengths);
            }
        }
        self.run.end_section("every place");
    }

    /// Every count of nodes, at places that are in some list and not in others.
    fn every_count(&mut self) {
        for nodes in 0..=u16::MAX {
            for place in [0, 1, 13, 428, 429, 65_535] {
                self.lengths(nodes, place, &[0, 2, 16, 17]);
            }
        }
        for nodes in [9, 10, 257, 32_773, 65_535] {
            let exact = 2 * usize::from(nodes);
            for place in [0, 1, 429, 65_535] {
                self.lengths(nodes, place, &[exact - 1, exact, exact + 1]);
            }
        }
        self.run.end_section("every count of nodes");
    }

    /// Slices of every length up to 40, and of lengths whose low bits alone would not do, for every
    /// tree, for the places past the lists and for the counts next to those that have one.
    fn every_length(&mut self) {
        let short: Vec<usize> = (0..=40).chain(254..=272).collect();
        let long: Vec<usize> = (65_534..=65_552).collect();
        for nodes in 0..=MOST_NODES + 1 {
            let count = self.lists.of(nodes).map_or(1, <[_]>::len) as u16;
            for place in 0..=count + 1 {
                self.lengths(nodes as u16, place, &short);
            }
            for place in [0, count / 2, count - 1, count] {
                self.lengths(nodes as u16, place, &long);
            }
        }
        self.run.end_section("slices of every length");
    }

    /// Counts mostly of 0 to 9, places mostly in some list, and slices of up to 20 entries.
    fn random_calls(&mut self) {
        for _ in 0..1_000_000 {
            let random = &mut self.run.random;
            let nodes = match random.once_in(8) {
                true => random.word(),
                false => random.between(0, MOST_NODES + 1) as u16,
            };
            let bound = [2, 6, 50, 450, 65_536][random.below(5)];
            let place = random.below(bound) as u16;
            let table_len = random.between(0, 20);
            self.lengths(nodes, place, &[table_len]);
        }
        self.run.end_section("random calls");
    }
}

#[test]
fn the_small_trees_agree_with_the_model() {
    let mut comparison = Comparison {
        run: Run::start("small trees"),
        lists: Lists::all(),
    };
    comparison.cases();
    comparison.every_place();
    comparison.every_count();
    comparison.every_length();
    comparison.random_calls();
    let run = comparison.run;
    run.expect_often(&[0, 7, 20, 21], LEAST_OF_EACH);
    run.finish(LEAST_CALLS);
}

/// The tables of a list, from its first place to the first that is refused, which must be 21.
fn tables(nodes: u16, run: &mut Run) -> Vec<Vec<u16>> {
    let mut tables = Vec::new();
    for place in 0..=u16::MAX {
        run.count_call();
        let mut table = vec![0; 2 * usize::from(nodes)];
        let number = ffi::small_tree(nodes, place, &mut table);
        run.count_number(number);
        if number != 0 {
            run.expect("number at the end", number, 21, &place);
            break;
        }
        tables.push(table);
    }
    tables
}

/// The table renumbered by the library, and its map.
fn renumbered(table: &[u16], run: &Run) -> (Vec<u16>, Vec<u16>) {
    let (mut out, mut map) = (vec![0; table.len()], vec![0; table.len() / 2]);
    let number = ffi::renumber(table, &mut out, &mut map);
    run.expect("number of renumber", number, 0, &Shown(table));
    (out, map)
}

/// The levels that the library's layout gives the nodes.
fn levels(table: &[u16], run: &Run) -> Vec<u16> {
    let nodes = table.len() / 2;
    let mut levels = vec![0; nodes];
    let mut lent = Slices {
        places: &mut vec![0; nodes],
        levels: &mut levels,
        record: &mut vec![0; 2 * nodes],
        work: &mut vec![0; 16 * nodes],
    };
    let mut fields = Fields::default();
    let number = ffi::layout(table, 1, &vec![0; nodes], &mut lent, &mut fields);
    run.expect("number of layout", number, 0, &Shown(table));
    levels
}

/// Whether the lists differ and the first has the smaller level where they do first.
fn goes_before(left: &[u16], right: &[u16]) -> bool {
    let first = left.iter().zip(right).find(|(left, right)| left != right);
    first.is_some_and(|(left, right)| left < right)
}

/// A list is as long as the words say, from the star to the chain and sorted.
fn expect_list(nodes: u16, tables: &[Vec<u16>], run: &Run) {
    let count = usize::from(COUNTS[usize::from(nodes) - 1]);
    run.expect("trees", tables.len(), count, &format!("{nodes} nodes"));
    let (star, chain) = (shapes::star(nodes.into()), shapes::chain(nodes.into()));
    run.expect_slice("the first", &tables[0], &star, &"the star");
    run.expect_slice("the last", &tables[count - 1], &chain, &"the chain");
    let levels: Vec<Vec<u16>> = tables.iter().map(|table| levels(table, run)).collect();
    for (pair, tables) in levels.windows(2).zip(tables.windows(2)) {
        let sorted = goes_before(&pair[0], &pair[1]);
        run.expect("whether it is sorted", sorted, true, &Shown(&tables[1]));
    }
    for (levels, tree) in levels.iter().zip(small_trees::list(nodes.into())) {
        run.expect_slice("levels", levels, &tree.levels, &Shown(&tree.table));
    }
}

/// A table of a list is well-formed and numbered as by Renumber.
fn expect_numbered(nodes: u16, table: &[u16], run: &Run) {
    let mut checked = 0;
    let number = ffi::check_table(table, &mut checked);
    run.expect("check_table", (number, checked), (0, nodes), &Shown(table));
    let (out, map) = renumbered(table, run);
    run.expect_slice("the table renumbered", &out, table, &Shown(table));
    let unmoved: Vec<u16> = (0..nodes).collect();
    run.expect_slice("the map", &map, &unmoved, &Shown(table));
}

/// For each place of a list, in which no table may occur twice, how many of these tables have its
/// tree. Each that the library takes must have one of the list's.
fn tables_of_each(list: &[Vec<u16>], tables: Vec<Vec<u16>>, run: &Run) -> Vec<usize> {
    let places: BTreeMap<&[u16], usize> = list.iter().map(Vec::as_slice).zip(0..).collect();
    run.expect("tables", places.len(), list.len(), &"a table twice");
    let mut counts = vec![0; list.len()];
    for table in tables {
        if ffi::check_table(&table, &mut 0) == 0 {
            let (renumbered, _) = renumbered(&table, run);
            match places.get(&renumbered[..]) {
                Some(&place) => counts[place] += 1,
                None => run.expect("whether it is listed", false, true, &Shown(&table)),
            }
        }
    }
    counts
}

/// Every table of so few nodes of which none of 1 to 4 holds. The nodes of a tree but the root can
/// be numbered in as many ways as they can be put in a row.
fn expect_every_table(nodes: u16, list: &[Vec<u16>], run: &Run) {
    let tables = shapes::every_linking(nodes.into());
    let counts = tables_of_each(list, tables, run);
    let ways = (1..usize::from(nodes)).product();
    let wanted = vec![ways; list.len()];
    run.expect_slice("tables of a tree", &counts, &wanted, &nodes);
    run.note(&format!(
        "{nodes} nodes: {} trees, {ways} tables of each",
        list.len()
    ));
}

/// Trees of so many nodes with their nodes numbered at random.
fn expect_random_tables(nodes: u16, list: &[Vec<u16>], run: &mut Run) {
    let random = &mut run.random;
    let tables: Vec<Vec<u16>> = (0..100_000)
        .map(|_| renumbered_at_random(&shapes::uniform(nodes.into(), random), random))
        .collect();
    let counts = tables_of_each(list, tables, run);
    let least = counts.iter().min().copied();
    run.expect("a tree not met", least == Some(0), false, &nodes);
    run.note(&format!(
        "{nodes} nodes: {} trees, met in 100,000 tables",
        list.len()
    ));
}

#[test]
fn the_lists_hold_every_tree_once() {
    let mut run = Run::start("small trees, lists");
    for nodes in 1..=MOST_NODES as u16 {
        let list = tables(nodes, &mut run);
        expect_list(nodes, &list, &run);
        for table in &list {
            expect_numbered(nodes, table, &run);
        }
        if nodes <= 6 {
            expect_every_table(nodes, &list, &run);
        } else {
            expect_random_tables(nodes, &list, &mut run);
        }
    }
    run.expect_numbers(&[0, 21]);
    run.finish(634);
}
