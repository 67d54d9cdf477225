//! The library's reader of Newick texts held against the model, call by call.
//!
//! All slices lie between margins. Those to be written hold random entries at first, and the result
//! field a random number. After a refusal every entry must be as it was and the field 0; after an
//! acceptance every entry past those named must be as it was. The text is only read.

use reference::ffi;
use reference::lent::Lent;
use reference::newick::{self, text_of, tree_of, Read, Tree, MOST_BYTES};
use reference::run::Run;
use reference::shapes::{self, random_table, SHAPES};
use reference::table::{self, MOST_NODES};
use reference::texts::{chain_of_zeros, changed, labelled, of_length, MOST_DIGITS};
use std::fmt;
use std::thread;

/// How many texts there are at least, and how often each number must come out.
const LEAST_TEXTS: u64 = 400_000;
const LEAST_OF_EACH: u64 = 2_000;

/// The stack on which deep texts are read.
const SMALL_STACK: usize = 256 * 1_024;

/// The most nodes of the trees of every size.
const MOST_PRINTED: usize = 1_400;

/// A text in the message of a failure: its length and its first bytes.
struct Shown<'a>(&'a [u8]);

impl fmt::Display for Shown<'_> {
    fn fmt(&self, f: &mut fmt::Formatter) -> fmt::Result {
        let text = self.0;
        let first = text[..text.len().min(256)].escape_ascii();
        write!(f, "a text of {} bytes: {first}", text.len())
    }
}

/// What a call was given, for the message of a failure.
struct Call<'a> {
    text: &'a [u8],
    table_len: usize,
    tapes_len: usize,
}

impl fmt::Display for Call<'_> {
    fn fmt(&self, f: &mut fmt::Formatter) -> fmt::Result {
        let Call {
            text,
            table_len,
            tapes_len,
        } = self;
        write!(
            f,
            "read_newick with table_len {table_len}, tapes_len {tapes_len}, {}",
            Shown(text)
        )
    }
}

struct Comparison {
    run: Run,
    texts: u64,
}

impl Comparison {
    /// One call.
    fn read(&mut self, text: &[u8], table_len: usize, tapes_len: usize) -> Read {
        self.run.count_call();
        let call = Call {
            text,
            table_len,
            tapes_len,
        };
        let random = &mut self.run.random;
        let given: Lent<u8> = Lent::holding(text, random);
        let mut table: Lent<u16> = Lent::new(table_len, random);
        let mut tapes: Lent<u16> = Lent::new(tapes_len, random);
        let mut nodes: Lent<u16> = Lent::new(1, random);
        let wanted = newick::read(text, table.before(), tapes.before());
        let number = ffi::read_newick(
            given.after(),
            table.slice(),
            tapes.slice(),
            &mut nodes.slice()[0],
        );
        self.run.count_number(number);
        let run = &self.run;
        run.expect("number", number, wanted.number, &call);
        run.expect("nodes", nodes.after()[0], wanted.nodes, &call);
        run.expect_slice("table", table.after(), &wanted.table, &call);
        run.expect_slice("tapes", tapes.after(), &wanted.tapes, &call);
        run.expect_slice("text", given.after(), text, &call);
        let margins = given.margins_untouched();
        run.expect("margins of text untouched", margins, true, &call);
        for (what, lent) in [("table", &table), ("tapes", &tapes), ("nodes", &nodes)] {
            let what = format!("margins of {what} untouched");
            run.expect(&what, lent.margins_untouched(), true, &call);
        }
        wanted
    }

    /// One text with slices of all lengths. Gives its number where they are long enough.
    fn text(&mut self, text: &[u8]) -> u16 {
        self.texts += 1;
        match tree_of(text) {
            Err(_) => {
                // As many entries as bytes are enough for any tree.
                let ample = text.len().min(2 * MOST_NODES) + 1;
                let random = &mut self.run.random;
                let lens = [(ample, ample), (random.below(8), random.below(8))];
                let (table_len, tapes_len) = lens[random.below(2)];
                self.read(text, table_len, tapes_len).number
            }
            Ok(tree) => {
                self.all_slices(text, tree.table.len());
                self.promises(text, &tree);
                0
            }
        }
    }

    /// The same and, besides the model's, a number that must come out.
    fn text_as(&mut self, wanted: u16, what: &str, text: &[u8]) {
        let number = self.text(text);
        self.run.expect(what, number, wanted, &Shown(text));
    }

    /// Slices empty, too short by one, exact and longer.
    fn all_slices(&mut self, text: &[u8], len: usize) {
        let longer = len + self.run.random.between(1, 9);
        let lens = [
            (len, len, 0),
            (len - 1, len, 7),
            (len, len - 1, 7),
            (0, longer, 7),
            (longer, 0, 7),
            (longer, longer, 0),
        ];
        for (table_len, tapes_len, number) in lens {
            let read = self.read(text, table_len, tapes_len);
            self.run
                .expect("number", read.number, number, &"slices of a tree");
        }
    }

    /// What is read is a table that is well-formed and numbered as by Renumber, and it prints as
    /// the text.
    fn promises(&mut self, text: &[u8], tree: &Tree) {
        let (len, nodes) = (tree.table.len(), tree.table.len() / 2);
        let mut read = Tree {
            table: vec![0; len],
            tapes: vec![0; len],
        };
        let mut count = 0;
        ffi::read_newick(text, &mut read.table, &mut read.tapes, &mut count);
        let (mut out, mut map, mut checked) = (vec![0; len], vec![0; nodes], 0);
        let numbers = (
            ffi::check_table(&read.table, &mut checked),
            ffi::renumber(&read.table, &mut out, &mut map),
        );
        let (run, call) = (&self.run, Shown(text));
        run.expect("numbers of what is read", numbers, (0, 0), &call);
        run.expect("n of what is read", checked, count, &call);
        run.expect_slice("the table renumbered", &out, &read.table, &call);
        let unmoved: Vec<u16> = (0..nodes as u16).collect();
        run.expect_slice("the map", &map, &unmoved, &call);
        run.expect_slice("the text printed", &text_of(&read), text, &call);
    }

    /// The text of a tree, which must be read as that tree unless it is too long or has too many
    /// nodes.
    fn tree(&mut self, tree: &Tree) {
        let text = text_of(tree);
        let nodes = tree.table.len() / 2;
        let wanted = if text.len() > MOST_BYTES {
            15
        } else if nodes > MOST_NODES {
            16
        } else {
            0
        };
        self.text_as(wanted, "number of a printed tree", &text);
        if wanted == 0 {
            let renumbered = table::renumber(&tree.table, &tree.table, &vec![0; nodes]);
            let words = renumbered.map.iter().flat_map(|&node| {
                let word = 2 * usize::from(node);
                &tree.tapes[word..word + 2]
            });
            let printed = Tree {
                tapes: words.copied().collect(),
                table: renumbered.out,
            };
            let read = tree_of(&text);
            self.run
                .expect("what was printed", read, Ok(printed), &"a printed tree");
        }
    }

    /// Texts with the number that the rules give them.
    fn cases(&mut self) {
        let taken = "0;|4294967295;|(1)2;|(1,2)3;|((1)2,3)4;|(((0)0)0)0;";
        let refused = [
            "|;|0|0;;|0;0|0;\n|0;\r\n| 0;|0 ;|(1, 2)3;|'1';|a;|[x]1;|1:2;|(1:1)2;|_;",
            "00;|01;|(00)1;|-1;|+1;|1.0;|1e1;|0x1;|4294967296;|99999999999;",
            "();|()1;|(1)|(1);|(,)1;|(1,)2;|(,1)2;|((1)2;|(1))2;|1)2;|1,2;|(1)2(3)4;",
        ];
        for (number, texts) in [(0, taken), (15, &refused.join("|"))] {
            for text in texts.split('|') {
                self.text_as(number, "number of the rules", text.as_bytes());
            }
        }
        self.run.end_section("texts taken and refused by the rules");
    }

    /// Every text of up to so many bytes over an alphabet.
    fn every_text(&mut self, alphabet: &[u8], most_bytes: usize) {
        let before = self.texts;
        let mut texts = vec![vec![]];
        for len in 0..=most_bytes {
            for text in &texts {
                self.text(text);
            }
            if len < most_bytes {
                texts = texts
                    .iter()
                    .flat_map(|text| alphabet.iter().map(|&byte| [&text[..], &[byte]].concat()))
                    .collect();
            }
        }
        let title = format!(
            "all {} texts of up to {most_bytes} bytes of {}",
            self.texts - before,
            alphabet.escape_ascii()
        );
        self.run.end_section(&title);
    }

    /// Every byte in the place of each of a text's, and put in before and after each.
    fn every_byte(&mut self) {
        for text in [&b"0;"[..], b"(10,2)30;", b"((1)2,(3,4)5)678;"] {
            for place in 0..=text.len() {
                for byte in 0..=255 {
                    let (start, rest) = text.split_at(place);
                    self.text(&[start, &[byte], rest].concat());
                    self.text(&[start, &[byte], &rest[rest.len().min(1)..]].concat());
                }
            }
        }
        self.run
            .end_section("every byte in each place of a few texts");
    }

    /// A label of every kind in every place: the only one, a leaf's and a parent's.
    fn labels(&mut self) {
        let powers = (0..12).flat_map(|power| [0, 1, 2].map(|step| 10_u64.pow(power) + step - 1));
        let beside_the_greatest = 4_294_967_280..=4_294_967_310;
        let larger = [8_589_934_592, 9_999_999_999, 42_949_672_950, u64::MAX];
        for number in powers.chain(beside_the_greatest).chain(larger) {
            let label = number.to_string();
            let fits = number <= 4_294_967_295;
            self.label(&label, if fits { 0 } else { 15 });
            self.label(&format!("0{label}"), 15);
            self.label(&format!("{label} "), 15);
        }
        for digits in [11, 12, 19, 20, 21, 39, 40, 100, 5_000, 16_379] {
            for digit in ["0", "1", "4", "9"] {
                self.label(&digit.repeat(digits), 15);
            }
            self.label(&format!("{}1", "0".repeat(digits)), 15);
        }
        // 2 to the power of 64 and of 128, whose low bits alone would do, and no digits at all.
        self.label("18446744073709551616", 15);
        self.label("340282366920938463463374607431768211456", 15);
        self.label("", 15);
        self.run.end_section("labels at their bounds");
    }

    fn label(&mut self, label: &str, number: u16) {
        for text in [
            format!("{label};"),
            format!("({label})0;"),
            format!("(0){label};"),
            format!("(0,{label},0)0;"),
            format!("((0){label},0)0;"),
        ] {
            self.text_as(number, "number of a label", text.as_bytes());
        }
    }

    /// Trees of every size, each with labels of some kind, and every small tree.
    fn trees(&mut self) {
        for nodes in (0..4).flat_map(|_| 1..=MOST_PRINTED) {
            let table = random_table(nodes, &mut self.run.random);
            let tree = labelled(table, &mut self.run.random);
            self.tree(&tree);
        }
        for shape in &SHAPES {
            for nodes in (1..=20).chain([63, 64, 300, 1_022, 1_023, 1_024, 1_025, 1_026]) {
                let table = (shape.make)(nodes, &mut self.run.random);
                let tree = labelled(table, &mut self.run.random);
                self.tree(&tree);
            }
        }
        for table in (1..=7).flat_map(shapes::every_tree) {
            let tree = labelled(table, &mut self.run.random);
            self.tree(&tree);
        }
        self.run
            .end_section("printed trees of every size and shape");
    }

    /// Trees with one to three changes in their text.
    fn changed_trees(&mut self) {
        for _ in 0..50_000 {
            let random = &mut self.run.random;
            let greatest = [6, 6, 30, 30, 100, 100, 300, MOST_PRINTED][random.below(8)];
            let nodes = random.between(1, greatest);
            let table = random_table(nodes, random);
            let text = text_of(&labelled(table, random));
            let count = random.between(1, 3);
            let text = changed(&text, count, random);
            self.text(&text);
        }
        self.run
            .end_section("printed trees with one to three changes in their text");
    }

    /// Text after a tree's end, and a tree's text cut at each place.
    fn ends(&mut self) {
        for _ in 0..60 {
            let table = random_table(self.run.random.between(1, 12), &mut self.run.random);
            let text = text_of(&labelled(table, &mut self.run.random));
            for end in 0..text.len() {
                self.text_as(15, "number of a text cut off", &text[..end]);
            }
            for more in [";", "0", "0;", "\n", "\r\n", " ", "\0", "(0)0;"] {
                let longer = [&text, more.as_bytes()].concat();
                self.text_as(15, "number of text after the end", &longer);
            }
        }
        self.run.end_section("text after the end, and ends cut off");
    }

    /// Deep trees, brackets that are not closed or not opened, and other things repeated.
    fn depths(&mut self) {
        for depth in [
            1, 2, 3, 1_000, 1_023, 1_024, 1_025, 2_048, 5_460, 5_461, 5_462, 8_000,
        ] {
            let chain = chain_of_zeros(depth);
            let wanted = match depth {
                1..=1_024 => 0,
                1_025..=5_461 => 16,
                _ => 15,
            };
            self.text_as(wanted, "number of a chain", &chain);
            self.text_as(15, "number of a chain less a bracket", &chain[1..]);
            let unclosed = [b"(", &chain[..]].concat();
            self.text_as(15, "number of a chain and a bracket", &unclosed);
            self.text_as(15, "number of a chain cut off", &chain[..chain.len() - 1]);
        }
        for count in [
            1, 2, 1_023, 1_024, 1_025, 5_461, 8_192, 16_383, 16_384, 16_385, 70_000,
        ] {
            for part in ["(", ")", ",", "0", ";", "(0", "(0,", ")0", "()", "()0,"] {
                let text: Vec<u8> = part.bytes().cycle().take(count).collect();
                self.text_as(15, "number of one thing repeated", &text);
            }
        }
        self.run.end_section("deep texts on a small stack");
    }

    /// The broadest trees, and those that are both.
    fn breadths(&mut self) {
        for shape in &SHAPES {
            for nodes in [1_023, 1_024, 1_025, 1_300, 5_000, 8_191, 8_192] {
                let table = (shape.make)(nodes, &mut self.run.random);
                let tapes = vec![0; table.len()];
                self.tree(&Tree { table, tapes });
            }
        }
        self.run.end_section("trees of most nodes on a small stack");
    }

    /// Trees whose texts are as long as a text can be, and one byte shorter or longer; the longest
    /// that can be accepted.
    fn lengths(&mut self) {
        for round in 0..200 {
            for len in [
                4_096, 12_286, 12_287, 12_288, 16_383, 16_384, 16_385, 16_386, 20_000,
            ] {
                let random = &mut self.run.random;
                let shape = &SHAPES[round % SHAPES.len()];
                let nodes = random.between(len / 12, len / 2);
                let table = (shape.make)(nodes, random);
                let Some(tree) = of_length(table, len, MOST_DIGITS, random) else {
                    continue;
                };
                self.tree(&tree);
                let mut text = text_of(&tree);
                self.run.expect("length", text.len(), len, &shape.name);
                let place = self.run.random.below(len);
                text[place] = b' ';
                self.text_as(15, "number of a long text with a blank", &text);
            }
        }
        let random = &mut self.run.random;
        let longest = of_length(shapes::chain(MOST_NODES), 12_287, MOST_DIGITS, random);
        self.tree(&longest.expect("ten digits for each label"));
        self.run.end_section("texts of a given length");
    }

    /// Texts and slices of which the low 16 bits of the length alone would do or would not.
    fn long_slices(&mut self) {
        for text in [&b"0;"[..], b"(1,2)3;", &chain_of_zeros(1_024)] {
            for filling in [b'0', b';', b'\n', 0] {
                let mut longer = text.to_vec();
                longer.resize(65_536 + text.len(), filling);
                self.text_as(15, "number of a very long text", &longer);
            }
            let len = tree_of(text).expect("it is a tree").table.len();
            for (table_len, tapes_len) in [(65_536, len), (len, 65_536), (65_537, 65_538)] {
                self.read(text, table_len, tapes_len);
            }
        }
        self.run
            .end_section("texts and slices of 65,536 entries and more");
    }

    /// Refused texts with slices that are empty, and too short besides.
    fn several_faults(&mut self) {
        let chain = chain_of_zeros(1_025);
        let unclosed = &chain[..chain.len() - 1];
        for len in [0, 1, 2_047, 2_048, 2_049, 2_050] {
            for (text, number) in [(&chain[..], 16), (unclosed, 15), (b"", 15), (b"0", 15)] {
                for (table_len, tapes_len) in [(len, len), (0, len), (len, 0), (len, 4_096)] {
                    let read = self.read(text, table_len, tapes_len);
                    self.run
                        .expect("number", read.number, number, &"several faults");
                }
            }
        }
        self.run.end_section("several faults at once");
    }

    /// Makes calls on a thread with a small stack.
    fn on_a_small_stack(&mut self, calls: impl FnOnce(&mut Self) + Send) {
        thread::scope(|scope| {
            let builder = thread::Builder::new().stack_size(SMALL_STACK);
            let thread = builder.spawn_scoped(scope, || calls(self));
            thread
                .expect("a thread can be started")
                .join()
                .expect("all calls agree");
        });
    }
}

#[test]
fn the_reader_of_newick_texts_agrees_with_the_model() {
    let mut comparison = Comparison {
        run: Run::start("newick"),
        texts: 0,
    };
    comparison.cases();
    comparison.every_text(b"(),;01", 7);
    comparison.every_text(b"(),;019 \n:'[-+", 4);
    comparison.every_byte();
    comparison.labels();
    comparison.trees();
    comparison.changed_trees();
    comparison.ends();
    comparison.on_a_small_stack(Comparison::depths);
    comparison.on_a_small_stack(Comparison::breadths);
    comparison.lengths();
    comparison.long_slices();
    comparison.several_faults();
    let Comparison { run, texts } = comparison;
    run.note(&format!("{texts} texts"));
    assert!(texts >= LEAST_TEXTS, "fewer than {LEAST_TEXTS} texts");
    run.expect_often(&[0, 7, 15, 16], LEAST_OF_EACH);
    run.finish(LEAST_TEXTS);
}
