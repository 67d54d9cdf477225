//! One call of a layout, held against the model.
//!
//! The four slices that are written lie between margins and hold random entries at first, the
//! result fields too. After a refusal every entry must be as it was and every field 0; after an
//! acceptance every entry past those named must be as it was. Table and half-widths are only read.

use crate::ffi::{self, Fields};
use crate::half_widths;
use crate::layout::{layout_under, Given, LaidOut, Slices};
use crate::lent::{Entry, Lent};
use crate::random::Random;
use crate::run::{Run, Shown};
use crate::treetex::Profile;
use std::fmt::{self, Display};

/// The lengths of the slices that are lent to be written.
#[derive(Clone, Copy, Debug)]
pub struct Lengths {
    pub places: usize,
    pub levels: usize,
    pub record: usize,
    pub work: usize,
}

impl Lengths {
    /// Just long enough for so many nodes.
    pub fn exact(nodes: usize) -> Self {
        Lengths {
            places: nodes,
            levels: nodes,
            record: 2 * nodes,
            work: 16 * nodes,
        }
    }

    /// All exact, and then each too short by one, with the number that it gives.
    pub fn short_by_one(nodes: usize) -> [(u16, Self); 5] {
        let exact = Lengths::exact(nodes);
        let mut cases = [(7, exact); 5];
        cases[0].0 = 0;
        cases[1].1.places = exact.places.saturating_sub(1);
        cases[2].1.levels = exact.levels.saturating_sub(1);
        cases[3].1.record = exact.record.saturating_sub(1);
        cases[4].0 = 8;
        cases[4].1.work = exact.work.saturating_sub(1);
        cases
    }

    /// All longer than so many nodes need.
    fn longer(nodes: usize, random: &mut Random) -> Self {
        let mut longer = Lengths::exact(nodes);
        longer.places += random.between(1, 9);
        longer.levels += random.between(1, 9);
        longer.record += random.between(1, 9);
        longer.work += random.between(1, 33);
        longer
    }

    /// Slices so long that the low 16 bits of their lengths alone would be too short.
    pub const LONG: Self = Lengths {
        places: 65_536,
        levels: 65_536,
        record: 65_536,
        work: 65_536,
    };

    /// Of any lengths up to three times what so many nodes need.
    pub fn any(nodes: usize, random: &mut Random) -> Self {
        Lengths {
            places: random.between(0, 3 * nodes),
            levels: random.between(0, 3 * nodes),
            record: random.between(0, 6 * nodes),
            work: random.between(0, 48 * nodes),
        }
    }
}

/// The slices that are lent to be written.
#[derive(Clone)]
pub struct Room {
    places: Lent<i32>,
    levels: Lent<u16>,
    record: Lent<u16>,
    work: Lent<i32>,
}

impl Room {
    pub fn new(lengths: Lengths, random: &mut Random) -> Self {
        Room {
            places: Lent::new(lengths.places, random),
            levels: Lent::new(lengths.levels, random),
            record: Lent::new(lengths.record, random),
            work: Lent::new(lengths.work, random),
        }
    }
}

/// A separation from 1 to 1,024, often a small one.
pub fn some_separation(random: &mut Random) -> u16 {
    let greatest = [3, 12, 1_024][random.below(3)];
    random.between(1, greatest) as u16
}

/// What a call is given.
#[derive(Clone, Copy)]
pub struct Call<'a> {
    pub given: Given<'a>,
    pub lengths: Lengths,
}

impl Display for Call<'_> {
    fn fmt(&self, f: &mut fmt::Formatter) -> fmt::Result {
        let Given {
            table,
            separation,
            half_widths,
            profile,
        } = self.given;
        write!(
            f,
            "layout, {profile:?}, with separation {separation}, {:?}, {}; half-widths as {}",
            self.lengths,
            Shown(table),
            Shown(half_widths)
        )
    }
}

impl<'a> Call<'a> {
    /// With slices that are just long enough.
    pub fn exact(given: Given<'a>) -> Self {
        Call {
            given,
            lengths: Lengths::exact(given.table.len() / 2),
        }
    }

    /// Holds what the library gives against the model. Inlined, so that only a program that makes
    /// calls needs the library.
    #[inline]
    pub fn compare(&self, run: &mut Run) -> LaidOut {
        let room = Room::new(self.lengths, &mut run.random);
        let before = Slices {
            places: room.places.before(),
            levels: room.levels.before(),
            record: room.record.before(),
            work: room.work.before(),
        };
        let wanted = layout_under(&self.given, &before);
        let got = self.make(room.clone(), run);
        expect_same(&got, &wanted, run, self);
        wanted
    }

    /// What the library gives. Inlined as above.
    #[inline]
    pub fn make(&self, mut room: Room, run: &mut Run) -> LaidOut {
        run.count_call();
        let table = Lent::holding(self.given.table, &mut run.random);
        let half_widths = Lent::holding(self.given.half_widths, &mut run.random);
        let random = &mut run.random;
        let mut fields = Fields {
            nodes: random.word(),
            level_count: random.word(),
            least: random.bits() as i32,
            greatest: random.bits() as i32,
            pairs: random.word(),
        };
        let mut lent = ffi::Slices {
            places: room.places.slice(),
            levels: room.levels.slice(),
            record: room.record.slice(),
            work: room.work.slice(),
        };
        let (given, widths) = (table.after(), half_widths.after());
        let separation = self.given.separation;
        let number = match self.given.profile {
            Profile::Plain => ffi::layout(given, separation, widths, &mut lent, &mut fields),
            Profile::TreeTex { extra } => {
                ffi::layout_treetex(given, separation, widths, extra, &mut lent, &mut fields)
            }
        };
        run.count_number(number);
        self.expect_kept("table", &table, run);
        self.expect_kept("half-widths", &half_widths, run);
        self.expect_margins("places", &room.places, run);
        self.expect_margins("levels", &room.levels, run);
        self.expect_margins("record", &room.record, run);
        self.expect_margins("work", &room.work, run);
        LaidOut {
            number,
            nodes: fields.nodes,
            level_count: fields.level_count,
            least: fields.least,
            greatest: fields.greatest,
            pairs: fields.pairs,
            places: room.places.after().to_vec(),
            levels: room.levels.after().to_vec(),
            record: room.record.after().to_vec(),
            work: room.work.after().to_vec(),
        }
    }

    fn expect_kept(&self, what: &str, lent: &Lent<u16>, run: &Run) {
        run.expect_slice(what, lent.after(), lent.before(), self);
        self.expect_margins(what, lent, run);
    }

    fn expect_margins<T: Entry>(&self, what: &str, lent: &Lent<T>, run: &Run) {
        let what = format!("margins of {what} untouched");
        run.expect(&what, lent.margins_untouched(), true, self);
    }
}

/// Fails the comparison unless two layouts agree in every field and slice.
pub fn expect_same(got: &LaidOut, wanted: &LaidOut, run: &Run, inputs: &dyn Display) {
    let fields = |laid: &LaidOut| Fields {
        nodes: laid.nodes,
        level_count: laid.level_count,
        least: laid.least,
        greatest: laid.greatest,
        pairs: laid.pairs,
    };
    run.expect("number", got.number, wanted.number, inputs);
    run.expect("fields", fields(got), fields(wanted), inputs);
    run.expect_slice("places", &got.places, &wanted.places, inputs);
    run.expect_slice("levels", &got.levels, &wanted.levels, inputs);
    run.expect_slice("record", &got.record, &wanted.record, inputs);
    run.expect_slice("work", &got.work, &wanted.work, inputs);
}

/// Each slice too short by one, all exact, and all longer; each time with half-widths that are
/// taken, past which any words stand, and with such as are refused. Inlined as above.
#[inline]
pub fn compare_every_length(table: &[u16], separation: u16, profile: Profile, run: &mut Run) {
    let nodes = table.len().div_ceil(2);
    let longer = Lengths::longer(nodes, &mut run.random);
    let cases = Lengths::short_by_one(nodes).map(|(_, lengths)| lengths);
    for lengths in cases.into_iter().chain([longer]) {
        let random = &mut run.random;
        let mut taken = half_widths::of_any_kind(nodes, random);
        taken.extend((0..random.below(4)).map(|_| random.word()));
        let refused = half_widths::to_be_refused(nodes, random);
        for half_widths in [taken, refused] {
            let given = Given {
                table,
                separation,
                half_widths: &half_widths,
                profile,
            };
            Call { given, lengths }.compare(run);
        }
    }
}
