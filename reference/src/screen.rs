//! The model of a view of the studio screen, in whole numbers alone.
//!
//! No float is computed with or compared. Each is taken apart by its bits, a distance is counted in
//! eighths, and the float that must come out is put together from bits.

/// The greatest size of a centre and of a place.
pub const MOST: i32 = 2_097_152;

/// How far a node on screen is from the middle at most.
pub const MOST_ACROSS: i64 = 960;
pub const MOST_DOWN: i64 = 540;

/// How far each level is under the one above.
pub const LEVEL_UNITS: i64 = 64;

/// Eight times each zoom.
pub const ZOOMS: [i64; 7] = [1, 2, 4, 8, 16, 32, 64];

#[derive(Clone, Copy, Debug)]
pub struct View {
    pub across: f64,
    pub down: f64,
    pub zoom: f64,
}

/// What a call must give. The distances are floats by their bits.
#[derive(Clone, Copy, Debug, Default, PartialEq, Eq)]
pub struct Judged {
    pub number: u16,
    pub on: u8,
    pub x: u64,
    pub y: u64,
}

pub fn on_screen(view: View, level: u16, place: i32) -> Judged {
    match distances(view, level, place) {
        Err(number) => Judged {
            number,
            ..Judged::default()
        },
        Ok((across, down)) if across.abs() > 8 * MOST_ACROSS || down.abs() > 8 * MOST_DOWN => {
            Judged::default()
        }
        Ok((across, down)) => Judged {
            number: 0,
            on: 1,
            x: bits_of_eighths(across),
            y: bits_of_eighths(down),
        },
    }
}

/// Eight times each distance from the middle, or the first of 18 and 19 that holds.
fn distances(view: View, level: u16, place: i32) -> Result<(i64, i64), u16> {
    let zoom = eighths_of_zoom(view.zoom).ok_or(18_u16)?;
    let across = centre_of(view.across).ok_or(19_u16)?;
    let down = centre_of(view.down).ok_or(19_u16)?;
    if place.unsigned_abs() > MOST.unsigned_abs() {
        return Err(19);
    }
    Ok((
        (i64::from(place) - across) * zoom,
        (LEVEL_UNITS * i64::from(level) - down) * zoom,
    ))
}

fn eighths_of_zoom(float: f64) -> Option<i64> {
    let eighths = eighths_of(float)?;
    ZOOMS.into_iter().find(|&zoom| i128::from(zoom) == eighths)
}

/// The whole number that a centre is.
fn centre_of(float: f64) -> Option<i64> {
    let eighths = eighths_of(float)?;
    let taken = eighths % 8 == 0 && eighths.abs() <= 8 * i128::from(MOST);
    taken.then_some((eighths / 8) as i64)
}

/// Eight times a float, where that is a whole number; nothing either where it is a greater one than
/// any that is taken.
fn eighths_of(float: f64) -> Option<i128> {
    let bits = float.to_bits();
    let (field, digits) = (bits >> 52 & 2_047, bits & ((1 << 52) - 1));
    // The size is so many units, each 2 to the power of so much.
    let (units, power) = match field {
        0 => (digits, -1_074),
        // The infinities and every NaN.
        2_047 => return None,
        _ => (digits + (1 << 52), field as i64 - 1_075),
    };
    if units == 0 {
        return Some(0);
    }
    // An odd number, times a power of 2 that is below 1, is no whole number.
    let zeros = units.trailing_zeros();
    let (odd, power) = (units >> zeros, power + i64::from(zeros) + 3);
    if !(0..=64).contains(&power) {
        return None;
    }
    let size = i128::from(odd) << power;
    Some(if bits >> 63 == 1 { -size } else { size })
}

/// The bits of the float that is so many eighths, fewer than 2 to the power of 53; 0 has no sign.
fn bits_of_eighths(eighths: i64) -> u64 {
    let size = eighths.unsigned_abs();
    // The place of the first binary digit, which is not stored.
    let Some(first) = size.checked_ilog2() else {
        return 0;
    };
    let sign = u64::from(eighths < 0);
    let digits = (size - (1 << first)) << (52 - first);
    sign << 63 | (1_023 + u64::from(first) - 3) << 52 | digits
}

#[cfg(test)]
mod tests {
    use super::*;

    fn judged(across: f64, down: f64, zoom: f64, level: u16, place: i32) -> Judged {
        on_screen(View { across, down, zoom }, level, place)
    }

    fn on(x: f64, y: f64) -> Judged {
        Judged {
            number: 0,
            on: 1,
            x: x.to_bits(),
            y: y.to_bits(),
        }
    }

    const OFF: Judged = Judged {
        number: 0,
        on: 0,
        x: 0,
        y: 0,
    };

    #[test]
    fn distances_worked_by_hand() {
        assert_eq!(judged(0.0, 0.0, 1.0, 0, 0), on(0.0, 0.0));
        assert_eq!(judged(-0.0, -0.0, 8.0, 0, 0), on(0.0, 0.0));
        assert_eq!(judged(3.0, 65.0, 0.125, 1, 0), on(-0.375, -0.125));
        assert_eq!(judged(-10.0, 640.0, 0.25, 11, 7), on(4.25, 16.0));
        assert_eq!(judged(100.0, 4.0, 8.0, 1, 90), on(-80.0, 480.0));
        let (most, lowest) = (2_097_152.0, 32_768);
        assert_eq!(judged(most, most, 4.0, lowest, MOST), on(0.0, 0.0));
        assert_eq!(
            judged(-most, most, 0.5, lowest - 1, 4 - MOST),
            on(2.0, -32.0)
        );
    }

    #[test]
    fn the_edges_are_on_screen() {
        for sign in [1, -1] {
            let far = f64::from(sign);
            assert_eq!(judged(0.0, 0.0, 1.0, 0, sign * 960), on(far * 960.0, 0.0));
            assert_eq!(judged(0.0, 0.0, 1.0, 0, sign * 961), OFF);
            assert_eq!(judged(0.0, 0.0, 8.0, 0, sign * 120), on(far * 960.0, 0.0));
            assert_eq!(judged(0.0, 0.0, 8.0, 0, sign * 121), OFF);
            assert_eq!(
                judged(0.0, 0.0, 0.125, 0, sign * 7_680),
                on(far * 960.0, 0.0)
            );
            assert_eq!(judged(0.0, 0.0, 0.125, 0, sign * 7_681), OFF);
            assert_eq!(judged(0.0, far * -540.0, 1.0, 0, 0), on(0.0, far * 540.0));
            assert_eq!(judged(0.0, far * -541.0, 1.0, 0, 0), OFF);
            // At 8 the edge lies between 67 and 68 units.
            assert_eq!(judged(0.0, far * -67.0, 8.0, 0, 0), on(0.0, far * 536.0));
            assert_eq!(judged(0.0, far * -68.0, 8.0, 0, 0), OFF);
        }
        assert_eq!(judged(0.0, 0.0, 8.0, u16::MAX, 0), OFF);
    }

    #[test]
    fn the_first_number_that_holds() {
        let number = |across, down, zoom, place| {
            let judged = judged(across, down, zoom, 0, place);
            assert_eq!((judged.on, judged.x, judged.y), (0, 0, 0));
            judged.number
        };
        for zoom in [0.0, -1.0, 3.0, 16.0, 0.0625, f64::NAN, f64::INFINITY] {
            assert_eq!(number(0.0, 0.0, zoom, 0), 18);
            assert_eq!(number(0.5, f64::NAN, zoom, i32::MIN), 18);
        }
        let step_past = f64::from_bits(2_097_152_f64.to_bits() + 1);
        for centre in [0.5, -0.125, 5e-324, step_past, -2_097_153.0, 1e300] {
            assert_eq!(number(centre, 0.0, 2.0, 0), 19);
            assert_eq!(number(0.0, centre, 2.0, 0), 19);
        }
        for centre in [f64::NAN, -f64::NAN, f64::INFINITY, f64::NEG_INFINITY] {
            assert_eq!(number(centre, 0.0, 2.0, 0), 19);
            assert_eq!(number(0.0, centre, 2.0, 0), 19);
        }
        for place in [MOST + 1, -MOST - 1, i32::MAX, i32::MIN] {
            assert_eq!(number(0.0, 0.0, 2.0, place), 19);
        }
        for place in [MOST, -MOST] {
            assert_eq!(number(0.0, 0.0, 2.0, place), 0);
        }
    }

    #[test]
    fn floats_are_taken_apart_and_put_together() {
        for eighths in (-70_000..70_000).chain([1 << 40, (1 << 53) - 1, 1 - (1 << 53)]) {
            let float = f64::from_bits(bits_of_eighths(eighths));
            assert_eq!(float.to_bits(), (eighths as f64 / 8.0).to_bits());
            assert_eq!(eighths_of(float), Some(i128::from(eighths)));
        }
        assert_eq!(eighths_of(-0.0), Some(0));
        assert_eq!(eighths_of(2_f64.powi(61)), Some(1 << 64));
        assert_eq!(eighths_of(0.0625), None);
        assert_eq!(eighths_of(f64::MIN_POSITIVE), None);
        assert_eq!(eighths_of(f64::MAX), None);
    }
}
