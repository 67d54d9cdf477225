//! One comparison under way: its seed, its random numbers, and the count of its calls.

use crate::random::{seed, Random};
use std::collections::BTreeMap;
use std::fmt::{self, Debug, Display};
use std::io::Write;

pub struct Run {
    name: &'static str,
    seed: u64,
    calls: u64,
    reported_calls: u64,
    /// How many calls gave each number.
    numbers: BTreeMap<u16, u64>,
    pub random: Random,
}

impl Run {
    /// Names the seed at once, so that it is known even if a call does not come back.
    pub fn start(name: &'static str) -> Self {
        let seed = seed();
        say(format_args!("{name}: seed {seed:#x}"));
        Run {
            name,
            seed,
            calls: 0,
            reported_calls: 0,
            numbers: BTreeMap::new(),
            random: Random::new(seed),
        }
    }

    pub fn count_call(&mut self) {
        self.calls += 1;
    }

    pub fn count_number(&mut self, number: u16) {
        *self.numbers.entry(number).or_default() += 1;
    }

    /// Fails the comparison unless what came out is what must.
    pub fn expect<T: Debug + PartialEq>(
        &self,
        what: &str,
        got: T,
        wanted: T,
        inputs: &dyn Display,
    ) {
        if got != wanted {
            panic!(
                "{}: seed {:#x}, call {}: {what}: got {got:?}, wanted {wanted:?}\n{inputs}",
                self.name, self.seed, self.calls
            );
        }
    }

    /// The same for a slice, of which only the first difference is shown.
    pub fn expect_slice<T: Debug + PartialEq>(
        &self,
        what: &str,
        got: &[T],
        wanted: &[T],
        inputs: &dyn Display,
    ) {
        let same = got.iter().zip(wanted).take_while(|(a, b)| a == b).count();
        let what = format!("{what}, entry {same} of {}", wanted.len());
        self.expect(&what, got.get(same), wanted.get(same), inputs);
    }

    /// Prints the calls since the last section.
    pub fn end_section(&mut self, title: &str) {
        let calls = self.calls - self.reported_calls;
        say(format_args!("{}: {calls:>8} calls: {title}", self.name));
        self.reported_calls = self.calls;
    }

    /// Prints a line under the comparison's name.
    pub fn note(&self, text: &str) {
        say(format_args!("{}: {text}", self.name));
    }

    /// Fails the comparison unless just these numbers have occurred, given in rising order.
    pub fn expect_numbers(&self, numbers: &[u16]) {
        let occurred: Vec<u16> = self.numbers.keys().copied().collect();
        self.expect(
            "numbers that occurred",
            &occurred[..],
            numbers,
            &"all calls",
        );
    }

    /// The same, each of them at least so often.
    pub fn expect_often(&self, numbers: &[u16], least: u64) {
        self.expect_numbers(numbers);
        let rare = self.numbers.iter().find(|(_, &count)| count < least);
        self.expect("a number that is rare", rare, None, &"all calls");
    }

    /// Prints all calls and how many gave each number; fails if they are too few.
    pub fn finish(self, least_calls: u64) {
        let Run { name, calls, .. } = self;
        say(format_args!("{name}: {calls:>8} calls in all"));
        for (number, count) in self.numbers {
            say(format_args!("{name}: {count:>8} gave {number}"));
        }
        assert!(calls >= least_calls, "fewer than {least_calls} calls");
    }
}

/// A table in the message of a failure: its length and its first entries.
pub struct Shown<'a>(pub &'a [u16]);

impl Display for Shown<'_> {
    fn fmt(&self, f: &mut fmt::Formatter) -> fmt::Result {
        let entries = self.0;
        let first = &entries[..entries.len().min(256)];
        write!(f, "a table of {} entries: {first:?}", entries.len())
    }
}

/// Prints a line even from a test that passes.
pub fn say(line: std::fmt::Arguments) {
    // A closed output is no reason to fail a comparison.
    let _ = writeln!(std::io::stdout().lock(), "{line}");
}
