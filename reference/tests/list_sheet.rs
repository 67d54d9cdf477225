//! The library's way from a sheet file to its listing held against the model, call by call.
//!
//! File and text lie between margins, and the text's slice holds random bytes at first. Those past
//! the text must be as they were, and with too little room all of them.

use reference::ffi::{self, TEXT_ROOM};
use reference::files::KINDS;
use reference::lent::Lent;
use reference::listing::{listing, number_of, NUMBERS};
use reference::run::Run;
use reference::samples::samples;
use reference::table::over_start;
use std::fmt;

/// How often the files of each kind are made anew.
const ROUNDS: usize = 2;

/// Room of which the low 16 bits alone would be too short.
const LONG_ROOM: usize = 65_536;

/// What a call was given, for the message of a failure.
struct Call<'a> {
    file: &'a [u8],
    room: usize,
}

impl fmt::Display for Call<'_> {
    fn fmt(&self, f: &mut fmt::Formatter) -> fmt::Result {
        write!(
            f,
            "list_sheet with room {}, a file of {} bytes: {:?}",
            self.room,
            self.file.len(),
            &self.file[..self.file.len().min(32)]
        )
    }
}

struct Comparison {
    run: Run,
}

impl Comparison {
    /// One call; `text` is the model's.
    fn list(&mut self, file: &[u8], text: &[u8], room: usize) {
        self.run.count_call();
        let call = Call { file, room };
        let random = &mut self.run.random;
        let given: Lent<u8> = Lent::holding(file, random);
        let mut out: Lent<u8> = Lent::new(room, random);
        let wanted: &[u8] = if room < TEXT_ROOM { &[] } else { text };
        let written = ffi::list_sheet(given.after(), out.slice());
        let run = &self.run;
        run.expect("bytes written", written, wanted.len(), &call);
        let wanted = over_start(out.before(), wanted);
        run.expect_slice("out", out.after(), &wanted, &call);
        run.expect_slice("file", given.after(), file, &call);
        for (what, lent) in [("out", &out), ("file", &given)] {
            let what = format!("margins of {what} untouched");
            run.expect(&what, lent.margins_untouched(), true, &call);
        }
    }

    /// Just enough room; more and less of it once in three times.
    fn compare(&mut self, file: &[u8]) {
        let text = listing(file);
        self.run.count_number(number_of(&text));
        self.list(file, &text, TEXT_ROOM);
        let random = &mut self.run.random;
        if random.once_in(3) {
            let longer = [TEXT_ROOM + random.between(1, 9), LONG_ROOM][random.below(2)];
            self.list(file, &text, longer);
        }
        let random = &mut self.run.random;
        if random.once_in(3) {
            let shorter = [0, TEXT_ROOM - 1, random.below(TEXT_ROOM)][random.below(3)];
            self.list(file, &text, shorter);
        }
    }

    fn samples(&mut self) {
        for sample in samples() {
            let text = listing(&sample.file);
            for room in [
                0,
                1,
                text.len() - 1,
                text.len(),
                TEXT_ROOM - 1,
                TEXT_ROOM,
                TEXT_ROOM + 1,
                LONG_ROOM,
            ] {
                self.list(&sample.file, &text, room);
            }
        }
        self.run.end_section("the samples with room of every kind");
    }

    fn files(&mut self) {
        for kind in &KINDS {
            for _ in 0..ROUNDS {
                for file in (kind.make)(&mut self.run.random) {
                    self.compare(&file);
                }
            }
            self.run.end_section(kind.title);
        }
    }
}

#[test]
fn the_listing_of_a_sheet_agrees_with_the_model() {
    let mut comparison = Comparison {
        run: Run::start("list_sheet"),
    };
    comparison.samples();
    comparison.files();
    comparison.run.expect_numbers(&NUMBERS);
    comparison.run.finish(30_000);
}
