//! The library's judgement of a node on the studio screen held against the model, call by call.
//!
//! Each of the three results lies between two neighbours, and all hold at first what no call gives.
//! A call must write the three and nothing beside them. Floats are compared by their bits.

use reference::binary_shapes::BINARY;
use reference::ffi::{self, Fields};
use reference::random::Random;
use reference::run::Run;
use reference::screen::{self, Judged, View, LEVEL_UNITS, MOST, MOST_ACROSS, MOST_DOWN, ZOOMS};
use reference::shapes::ANY;
use reference::table::MOST_NODES;
use reference::treetex::{Profile, MOST_EXTRA};
use std::fmt;

/// How many calls there are at least, and how often each number must come out.
const LEAST_CALLS: u64 = 5_000_000;
const LEAST_OF_EACH: u64 = 500_000;

/// What the results and their neighbours hold before a call.
const UNWRITTEN_ON: u8 = 0xa5;
const UNWRITTEN: u64 = 0x7ff4_5a5a_5a5a_5a5a;

/// The greatest size of a centre, and the lowest level on which the middle of a view can lie.
const MOST_UNITS: i64 = MOST as i64;
const LOWEST: u16 = 32_768;

/// Where a level stands.
fn units_down(level: u16) -> i64 {
    LEVEL_UNITS * i64::from(level)
}

fn zoom_of(eighths: i64) -> f64 {
    eighths as f64 / 8.0
}

/// A view of whole numbers and eighths.
fn view_of(across: i64, down: i64, eighths: i64) -> View {
    View {
        across: across as f64,
        down: down as f64,
        zoom: zoom_of(eighths),
    }
}

/// The floats whose bits are one more and one less.
fn beside(float: f64) -> [f64; 2] {
    [1, u64::MAX].map(|step| f64::from_bits(float.to_bits().wrapping_add(step)))
}

/// The same with the float itself, and all of them with the other sign.
fn around(float: f64) -> [f64; 6] {
    let [above, below] = beside(float);
    [float, above, below, -float, -above, -below]
}

/// A whole number of at most this size.
fn signed(most: i64, random: &mut Random) -> i64 {
    random.between(0, 2 * most as usize) as i64 - most
}

/// Floats that are no numbers, or of the least or the greatest size.
fn strange_floats() -> Vec<f64> {
    let sizes = [
        // The least and the greatest that is not normal, and the same of the normal ones.
        0x0000_0000_0000_0001,
        0x000f_ffff_ffff_ffff,
        0x0010_0000_0000_0000,
        0x7fef_ffff_ffff_ffff,
        // Infinity, signalling NaNs and quiet ones.
        0x7ff0_0000_0000_0000,
        0x7ff0_0000_0000_0001,
        0x7ff0_0000_0000_0008,
        0x7ff0_0000_0020_0000,
        0x7ff4_0000_0000_0000,
        0x7ff7_ffff_ffff_ffff,
        0x7ff8_0000_0000_0000,
        0x7ff8_0000_0000_0001,
        0x7ff8_0000_0020_0000,
        0x7ffc_0000_0000_0000,
        0x7fff_ffff_ffff_ffff,
    ];
    let both_signs = |bits: u64| [bits, bits | 1 << 63].map(f64::from_bits);
    sizes.into_iter().flat_map(both_signs).collect()
}

/// Some of every kind: strange ones, zooms and those beside them, whole numbers up to the bound and
/// past it, and fractions.
fn interesting_floats() -> Vec<f64> {
    let most = f64::from(MOST);
    let mut floats = vec![0.0, -0.0];
    floats.extend(strange_floats().into_iter().step_by(3));
    floats.extend(ZOOMS.map(zoom_of));
    floats.extend([-0.125, -1.0, -8.0, 0.0625, 16.0, 3.0, 0.1, 0.75, 1.5]);
    floats.extend(beside(1.0));
    floats.extend(beside(8.0));
    floats.extend([63.0, 64.0, 65.0, -64.0, 540.0, 541.0, -540.0]);
    floats.extend([960.0, 961.0, -960.0, 7_680.0, -7_681.0]);
    floats.extend(around(most));
    floats.extend([most - 1.0, most - 0.5, most + 1.0, 2.0 * most]);
    floats.extend([4_294_967_296.0, 9_007_199_254_740_992.0, -1e300]);
    floats
}

/// A float in the message of a failure: its bits, and as it prints.
#[derive(PartialEq)]
struct Bits(u64);

impl fmt::Debug for Bits {
    fn fmt(&self, f: &mut fmt::Formatter) -> fmt::Result {
        write!(f, "{:#018x} ({:?})", self.0, f64::from_bits(self.0))
    }
}

/// What a call is given.
#[derive(Clone, Copy)]
struct Call {
    view: View,
    level: u16,
    place: i32,
}

impl Call {
    /// The call with this float in the place of each of the view's.
    fn with(self, float: f64) -> [Self; 3] {
        let mut calls = [self; 3];
        calls[0].view.across = float;
        calls[1].view.down = float;
        calls[2].view.zoom = float;
        calls
    }
}

impl fmt::Display for Call {
    fn fmt(&self, f: &mut fmt::Formatter) -> fmt::Result {
        let View { across, down, zoom } = self.view;
        let [across, down, zoom] = [across, down, zoom].map(|float| Bits(float.to_bits()));
        write!(
            f,
            "on_screen with across {across:?}, down {down:?}, zoom {zoom:?}, level {}, place {}",
            self.level, self.place
        )
    }
}

struct Comparison {
    run: Run,
    /// How many nodes were on screen, and how many off, the view being accepted.
    on: u64,
    off: u64,
}

impl Comparison {
    fn start(name: &'static str) -> Self {
        Comparison {
            run: Run::start(name),
            on: 0,
            off: 0,
        }
    }

    /// One call.
    fn judge(&mut self, call: Call) -> Judged {
        self.run.count_call();
        let Call { view, level, place } = call;
        let wanted = screen::on_screen(view, level, place);
        let mut on = [UNWRITTEN_ON; 3];
        let mut x = [f64::from_bits(UNWRITTEN); 3];
        let mut y = x;
        let number = ffi::on_screen(view, level, place, &mut on[1], &mut x[1], &mut y[1]);
        self.run.count_number(number);
        match (number, on[1]) {
            (0, 1) => self.on += 1,
            (0, _) => self.off += 1,
            _ => (),
        }
        let run = &self.run;
        run.expect("number", number, wanted.number, &call);
        let wanted_on = [UNWRITTEN_ON, wanted.on, UNWRITTEN_ON];
        run.expect("on, between its neighbours", on, wanted_on, &call);
        for (what, got, wanted) in [("x", x, wanted.x), ("y", y, wanted.y)] {
            let got = got.map(|float| Bits(float.to_bits()));
            let wanted = [UNWRITTEN, wanted, UNWRITTEN].map(Bits);
            run.expect(what, got, wanted, &call);
        }
        wanted
    }

    /// The same and, besides the model's, a number that must come out.
    fn judge_as(&mut self, wanted: u16, what: &str, call: Call) {
        let number = self.judge(call).number;
        self.run.expect(what, number, wanted, &call);
    }

    /// Nodes with the answer that the words give them.
    fn cases(&mut self) {
        let on = |x: f64, y: f64| Judged {
            number: 0,
            on: 1,
            x: x.to_bits(),
            y: y.to_bits(),
        };
        let refused = |number| Judged {
            number,
            ..Judged::default()
        };
        let off = refused(0);
        let most = f64::from(MOST);
        let cases = [
            ([0.0, 0.0, 1.0], 0, 0, on(0.0, 0.0)),
            ([-0.0, -0.0, 8.0], 0, 0, on(0.0, 0.0)),
            ([3.0, 65.0, 0.125], 1, 0, on(-0.375, -0.125)),
            ([-5.0, most, 0.5], 32_760, -2, on(1.5, -256.0)),
            ([most, most, 8.0], LOWEST, MOST, on(0.0, 0.0)),
            ([-most, 70.0, 4.0], 1, 3 - MOST, on(12.0, -24.0)),
            // The edges across and down.
            ([0.0, 0.0, 1.0], 0, 960, on(960.0, 0.0)),
            ([0.0, 0.0, 1.0], 0, 961, off),
            ([0.0, 0.0, 1.0], 0, -960, on(-960.0, 0.0)),
            ([0.0, 0.0, 1.0], 0, -961, off),
            ([0.0, 36.0, 1.0], 9, 0, on(0.0, 540.0)),
            ([0.0, 35.0, 1.0], 9, 0, off),
            ([0.0, 540.0, 1.0], 0, 0, on(0.0, -540.0)),
            ([0.0, 541.0, 1.0], 0, 0, off),
            ([1.0, 135.0, 4.0], 0, 241, on(960.0, -540.0)),
            ([1.0, 136.0, 4.0], 0, 241, off),
            ([1.0, 135.0, 4.0], 0, 242, off),
            ([0.0, 0.0, 8.0], 1, -120, on(-960.0, 512.0)),
            ([0.0, 0.0, 8.0], 2, -120, off),
            ([0.0, 0.0, 0.125], 67, 7_680, on(960.0, 536.0)),
            ([0.0, 0.0, 0.125], 68, 7_680, off),
            ([0.0, 0.0, 0.125], 67, 7_681, off),
            // Far under the middle, and as far as can be.
            ([0.0, -most, 0.125], 0, 0, off),
            ([0.0, most, 0.125], u16::MAX, 0, off),
            ([-most, -most, 8.0], u16::MAX, MOST, off),
            // Another zoom.
            ([0.0, 0.0, 16.0], 0, 0, refused(18)),
            ([0.0, 0.0, 0.0625], 0, 0, refused(18)),
            ([0.0, 0.0, 3.0], 0, 0, refused(18)),
            ([0.0, 0.0, -1.0], 0, 0, refused(18)),
            ([0.0, 0.0, 0.0], 0, 0, refused(18)),
            ([0.5, f64::NAN, f64::NAN], 0, i32::MIN, refused(18)),
            // Centres and places that are not taken.
            ([0.5, 0.0, 1.0], 0, 0, refused(19)),
            ([0.0, -0.5, 1.0], 0, 0, refused(19)),
            ([f64::NAN, 0.0, 1.0], 0, 0, refused(19)),
            ([0.0, f64::INFINITY, 1.0], 0, 0, refused(19)),
            ([most + 1.0, 0.0, 1.0], 0, MOST, refused(19)),
            ([0.0, -most - 1.0, 1.0], 0, 0, refused(19)),
            ([most, 0.0, 1.0], 0, MOST + 1, refused(19)),
            ([-most, 0.0, 1.0], 0, -MOST - 1, refused(19)),
        ];
        for ([across, down, zoom], level, place, wanted) in cases {
            let view = View { across, down, zoom };
            let call = Call { view, level, place };
            let judged = self.judge(call);
            self.run
                .expect("answer of the words", judged, wanted, &call);
        }
        self.run.end_section("nodes judged by the words");
    }

    /// Nodes on each edge, up to two units from it, and in the middle, both ways and on both axes,
    /// at each zoom; then each float of the view replaced by those beside it.
    fn edges(&mut self) {
        for zoom in ZOOMS {
            // At 8 the edges above and below lie between two units.
            let (most_across, most_down) = (8 * MOST_ACROSS / zoom, 8 * MOST_DOWN / zoom);
            for step in -2..=2 {
                for across in [most_across + step, -most_across - step, step] {
                    for down in (most_down - 2..=most_down + 2).flat_map(|it| [it, -it]) {
                        let on = across.abs() <= most_across && down.abs() <= most_down;
                        self.at_distances(across, down, zoom, on);
                    }
                    self.at_distances(across, step, zoom, across.abs() <= most_across);
                }
            }
        }
        self.run
            .end_section("edges at each zoom, and floats beside them");
    }

    /// Nodes that stand so many units from the middle, and whether they are on screen.
    fn at_distances(&mut self, across: i64, down: i64, zoom: i64, on: bool) {
        for place in [0, 5, -64, 1_000_003, MOST, -MOST] {
            for level in [0, 1, 9, LOWEST - 1, LOWEST, u16::MAX] {
                let view = view_of(i64::from(place) - across, units_down(level) - down, zoom);
                let call = Call { view, level, place };
                let judged = self.judge(call);
                if judged.number == 0 {
                    self.run
                        .expect("whether on screen", judged.on, u8::from(on), &call);
                }
                for across in beside(view.across) {
                    self.judge(call.with(across)[0]);
                }
                for down in beside(view.down) {
                    self.judge(call.with(down)[1]);
                }
                for zoom in beside(view.zoom) {
                    self.judge_as(18, "number beside a zoom", call.with(zoom)[2]);
                }
            }
        }
    }

    /// Centres, places and levels at their bounds and past them, at each zoom.
    fn bounds(&mut self) {
        let most = f64::from(MOST);
        let mut centres = vec![0.0, -0.0, 64.0, -1.0];
        for size in [most - 1.0, most, most + 1.0] {
            centres.extend(around(size));
        }
        centres.extend([most - 0.5, 0.5 - most, most + 0.5, 2.0 * most - 64.0]);
        let mut places = vec![0, 1, -64, i32::MIN, i32::MIN + 1, i32::MAX - 1, i32::MAX];
        for size in [MOST - 1, MOST, MOST + 1, 2 * MOST] {
            places.extend([size, -size]);
        }
        for &across in &centres {
            for &down in &centres {
                for zoom in ZOOMS.map(zoom_of) {
                    let view = View { across, down, zoom };
                    for &place in &places {
                        for level in [0, 1, LOWEST - 1, LOWEST, LOWEST + 1, u16::MAX] {
                            self.judge(Call { view, level, place });
                        }
                    }
                }
            }
        }
        self.run
            .end_section("centres, places and levels at and past their bounds");
    }

    /// Strange and interesting floats, and some of each exponent, in the place of each of a view's.
    fn strange_fields(&mut self) {
        let mut floats = strange_floats();
        floats.extend(interesting_floats());
        floats.extend(ZOOMS.map(zoom_of).into_iter().flat_map(around));
        floats.extend([0.0625, 16.0, 3.0, 0.1].into_iter().flat_map(around));
        for exponent in 0..2_048 {
            for digits in [0, 1, 1 << 51, 3 << 50, 1 << 31, (1 << 52) - 1] {
                let float = f64::from_bits(exponent << 52 | digits);
                floats.extend([float, -float]);
            }
        }
        let view = view_of(-3, 60, 4);
        for float in floats {
            for (level, place) in [(0, 0), (1, -3), (LOWEST, MOST)] {
                for call in (Call { view, level, place }).with(float) {
                    self.judge(call);
                }
            }
        }
        self.run
            .end_section("strange floats and all exponents in each field");
    }

    /// Whole numbers up to the bound and a little past it, the floats beside them, and fractions,
    /// as each centre. The node stands near it, but for a centre above the root.
    fn whole_numbers(&mut self) {
        let powers = (0..=21).flat_map(|power| [-1, 0, 1].map(|step| (1 << power) + step));
        let sizes = (0..=8_192).chain(powers).chain((8_192..=MOST).step_by(257));
        for size in sizes.chain(MOST - 64..=MOST + 64) {
            let (whole, level) = (f64::from(size), (size / 64) as u16);
            let fractions = [0.5, 0.25, 0.125, 0.1, 0.75].map(|part| whole + part);
            for float in around(whole).into_iter().chain(fractions) {
                let place = if float < 0.0 { -size } else { size };
                for zoom in [1, 64] {
                    let view = view_of(0, units_down(level), zoom);
                    let near = Call { view, level, place };
                    self.judge(near.with(float)[0]);
                    self.judge(Call { place: 7, ..near }.with(float)[1]);
                }
            }
        }
        self.run
            .end_section("whole numbers as centres, the floats beside them, and fractions");
    }

    /// Interesting floats in all three places, and as both centres at each zoom.
    fn interesting_views(&mut self) {
        let floats = interesting_floats();
        let zooms: Vec<f64> = floats.iter().copied().chain(ZOOMS.map(zoom_of)).collect();
        for &across in &floats {
            for &down in &floats {
                for &zoom in &zooms {
                    let view = View { across, down, zoom };
                    for (level, place) in [(0, 0), (8, 961), (LOWEST, -MOST), (1, MOST + 1)] {
                        self.judge(Call { view, level, place });
                    }
                }
            }
        }
        let title = format!("views of {} interesting floats", floats.len());
        self.run.end_section(&title);
    }

    /// 18 goes before 19, whatever gives it, alone and together.
    fn order(&mut self) {
        let most = f64::from(MOST);
        let taken = [0.0, most];
        let centres = [0.0, most, 0.5, -most - 1.0, f64::NAN, f64::INFINITY];
        for across in centres {
            for down in centres {
                for place in [0, -MOST, MOST + 1, i32::MIN] {
                    let call = |zoom| Call {
                        view: View { across, down, zoom },
                        level: 5,
                        place,
                    };
                    for zoom in [0.0, 3.0, -8.0, 16.0, 0.0625, 1e-310, f64::NAN] {
                        self.judge_as(18, "number of another zoom", call(zoom));
                    }
                    let holds = !taken.contains(&across)
                        || !taken.contains(&down)
                        || ![0, -MOST].contains(&place);
                    for zoom in ZOOMS.map(zoom_of) {
                        let wanted = if holds { 19 } else { 0 };
                        self.judge_as(wanted, "number of a zoom", call(zoom));
                    }
                }
            }
        }
        self.run.end_section("18 before 19");
    }

    /// Every level at each zoom, near the middle if that can be.
    fn levels(&mut self) {
        for level in 0..=u16::MAX {
            for zoom in ZOOMS {
                let far = signed(8 * MOST_DOWN / zoom + 2, &mut self.run.random);
                let down = (units_down(level) + far).min(MOST_UNITS);
                self.judge(Call {
                    view: view_of(0, down, zoom),
                    level,
                    place: 1,
                });
            }
        }
        self.run.end_section("every level at each zoom");
    }

    /// Views that are accepted, with one or two bits of a float changed, or of all three.
    fn changed_bits(&mut self) {
        for (across, down, zoom, place) in [
            (0, 0, 8, 7),
            (-5, 64, 1, -7_000),
            (2_000_001, 60, 64, 2_000_002),
        ] {
            let view = view_of(across, down, zoom);
            let level = 1;
            let call = Call { view, level, place };
            for change in (0..64).flat_map(|one| (one..64).map(move |two| 1 << one | 1 << two)) {
                let changed = |float: f64| f64::from_bits(float.to_bits() ^ change);
                let view = View {
                    across: changed(view.across),
                    down: changed(view.down),
                    zoom: changed(view.zoom),
                };
                self.judge(call.with(view.across)[0]);
                self.judge(call.with(view.down)[1]);
                self.judge(call.with(view.zoom)[2]);
                self.judge(Call { view, ..call });
            }
        }
        self.run.end_section("views with one or two bits changed");
    }

    /// A view that is accepted, and a node that is mostly on screen.
    fn random_call(&mut self) -> Call {
        let random = &mut self.run.random;
        let zoom = ZOOMS[random.below(ZOOMS.len())];
        let most = [4, 2_000, MOST_UNITS][random.below(3)];
        let (place, level) = (signed(most, random), random.between(0, most as usize / 64));
        let mut call = Call {
            view: view_of(0, 0, zoom),
            level: level as u16,
            place: place as i32,
        };
        // Often a little farther from the middle than the edge.
        let mut centre = |units: i64, edge: i64| {
            let far = match random.once_in(8) {
                true => MOST_UNITS,
                false => edge * 9 / zoom + 1,
            };
            let centre = (units + signed(far, random)).clamp(-MOST_UNITS, MOST_UNITS);
            match random.once_in(2) {
                // The same but for the sign of a 0.
                true => -(-centre as f64),
                false => centre as f64,
            }
        };
        call.view.across = centre(place, MOST_ACROSS);
        call.view.down = centre(units_down(call.level), MOST_DOWN);
        call
    }

    fn random_views(&mut self) {
        let (on, off) = (self.on, self.off);
        for _ in 0..2_000_000 {
            let call = self.random_call();
            self.judge_as(0, "number of an accepted view", call);
        }
        let (on, off) = (self.on - on, self.off - off);
        self.run
            .end_section(&format!("random views, {on} nodes on screen, {off} off"));
        assert!(2 * on >= off && 4 * off >= on, "on or off is rare");
        for _ in 0..300_000 {
            let call = self.random_call();
            let random = &mut self.run.random;
            let (level, place) = (random.word(), random.bits() as i32);
            self.judge(Call { level, ..call });
            self.judge(Call { place, ..call });
        }
        self.run.end_section("random views with any level or place");
    }

    /// Random bits as one float of a view that is accepted otherwise, and as all three.
    fn random_bits(&mut self) {
        for _ in 0..200_000 {
            let call = self.random_call();
            let float = f64::from_bits(self.run.random.bits());
            for call in call.with(float) {
                self.judge(call);
            }
        }
        self.run.end_section("random bits as one float");
        for _ in 0..300_000 {
            let random = &mut self.run.random;
            let [across, down, zoom] = [(); 3].map(|_| f64::from_bits(random.bits()));
            let (level, place) = (random.word(), random.bits() as i32);
            let view = View { across, down, zoom };
            self.judge(Call { view, level, place });
        }
        self.run.end_section("random bits as all floats");
    }

    /// Numbers of few binary digits before and after the point, as one float.
    fn random_fractions(&mut self) {
        for _ in 0..300_000 {
            let call = self.random_call();
            let random = &mut self.run.random;
            let before = random.between(1, 22);
            let all = random.between(1, 2 * before);
            let digits = signed((1 << all) - 1, random) as f64;
            let float = digits * 2_f64.powi(before as i32 - all as i32);
            for call in call.with(float) {
                self.judge(call);
            }
        }
        self.run
            .end_section("few digits before and after the point as one float");
    }
}

#[test]
fn the_judgement_of_a_node_agrees_with_the_model() {
    let mut comparison = Comparison::start("screen");
    comparison.cases();
    comparison.edges();
    comparison.bounds();
    comparison.strange_fields();
    comparison.whole_numbers();
    comparison.interesting_views();
    comparison.order();
    comparison.levels();
    comparison.changed_bits();
    comparison.random_views();
    comparison.random_bits();
    comparison.random_fractions();
    let Comparison { run, on, off } = comparison;
    run.note(&format!("{on} nodes on screen, {off} off"));
    assert!(on.min(off) >= LEAST_OF_EACH, "on or off is rare");
    run.expect_often(&[0, 18, 19], LEAST_OF_EACH);
    run.finish(LEAST_CALLS);
}

/// The places and levels of a tree under a profile, where half-widths are all the same.
fn laid_out(
    table: &[u16],
    separation: u16,
    half_width: u16,
    profile: Profile,
) -> (Vec<i32>, Vec<u16>) {
    let nodes = table.len() / 2;
    let (mut places, mut levels) = (vec![0; nodes], vec![0; nodes]);
    let mut lent = ffi::Slices {
        places: &mut places,
        levels: &mut levels,
        record: &mut vec![0; 2 * nodes],
        work: &mut vec![0; 16 * nodes],
    };
    let widths = vec![half_width; nodes];
    let mut fields = Fields::default();
    let number = match profile {
        Profile::Plain => ffi::layout(table, separation, &widths, &mut lent, &mut fields),
        Profile::TreeTex { extra } => {
            ffi::layout_treetex(table, separation, &widths, extra, &mut lent, &mut fields)
        }
    };
    assert_eq!(number, 0, "the tree is laid out");
    (places, levels)
}

impl Comparison {
    /// Every node of a sheet, at each zoom, with one of them in the middle, the root, and none.
    fn sheet(&mut self, shape: &'static str, places: &[i32], levels: &[u16]) {
        for zoom in ZOOMS {
            let node = self.run.random.below(places.len());
            let (place, level) = (places[node], levels[node]);
            let view = view_of(i64::from(place), units_down(level), zoom);
            let on = self.judge(Call { view, level, place }).on;
            let run = &self.run;
            run.expect("whether the node in the middle is on screen", on, 1, &shape);
            let far = view_of(-MOST_UNITS, MOST_UNITS, zoom);
            for view in [view, view_of(0, 0, zoom), far] {
                for (&place, &level) in places.iter().zip(levels) {
                    self.judge_as(0, shape, Call { view, level, place });
                }
            }
        }
    }
}

#[test]
fn no_node_of_a_sheet_is_refused() {
    let mut comparison = Comparison::start("screen, sheets");
    let mut farthest = 0;
    let extra = MOST_EXTRA;
    for (kind, profile) in [(ANY, Profile::Plain), (BINARY, Profile::TreeTex { extra })] {
        for (shape, table) in kind.trees_of_each_shape(MOST_NODES, &mut comparison.run.random) {
            for (separation, half_width) in [(1, 0), (1, 256), (1_024, 0), (1_024, 256)] {
                let (places, levels) = laid_out(&table, separation, half_width, profile);
                farthest = places.iter().fold(farthest, |far, it| far.max(it.abs()));
                comparison.sheet(shape, &places, &levels);
            }
        }
    }
    let Comparison { run, on, off } = comparison;
    run.note(&format!("{on} nodes on screen, {off} off"));
    run.note(&format!("the farthest node at {farthest}"));
    run.finish(1_000_000);
}
