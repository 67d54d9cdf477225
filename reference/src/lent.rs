//! A slice to lend to the library, with margins that a call must not touch.

use crate::random::Random;

/// Entries that can be filled with random bits.
pub trait Entry: Copy + PartialEq {
    fn of_bits(bits: u64) -> Self;
}

impl Entry for u8 {
    fn of_bits(bits: u64) -> Self {
        bits as u8
    }
}

impl Entry for u16 {
    fn of_bits(bits: u64) -> Self {
        bits as u16
    }
}

impl Entry for i32 {
    fn of_bits(bits: u64) -> Self {
        bits as i32
    }
}

/// A slice between two margins. Slice and margins hold random entries at first, so that a write
/// of any other value shows wherever it lands.
#[derive(Clone)]
pub struct Lent<T> {
    entries: Vec<T>,
    before: Vec<T>,
    start: usize,
    len: usize,
}

const MARGIN: usize = 6;

impl<T: Entry> Lent<T> {
    /// The start varies by one entry, so that the slice is aligned no better than its entries are.
    pub fn new(len: usize, random: &mut Random) -> Self {
        let start = MARGIN + random.below(2);
        let entries: Vec<T> = (0..start + len + MARGIN)
            .map(|_| T::of_bits(random.bits()))
            .collect();
        Lent {
            before: entries.clone(),
            entries,
            start,
            len,
        }
    }

    /// A slice that holds these entries.
    pub fn holding(entries: &[T], random: &mut Random) -> Self {
        let mut lent = Lent::new(entries.len(), random);
        lent.slice().copy_from_slice(entries);
        lent.before.clone_from(&lent.entries);
        lent
    }

    pub fn slice(&mut self) -> &mut [T] {
        &mut self.entries[self.start..self.start + self.len]
    }

    /// What the slice held at first.
    pub fn before(&self) -> &[T] {
        &self.before[self.start..self.start + self.len]
    }

    /// What the slice holds now.
    pub fn after(&self) -> &[T] {
        &self.entries[self.start..self.start + self.len]
    }

    pub fn margins_untouched(&self) -> bool {
        let end = self.start + self.len;
        self.entries[..self.start] == self.before[..self.start]
            && self.entries[end..] == self.before[end..]
    }
}

#[cfg(test)]
mod tests {
    use super::*;

    #[test]
    fn writes_inside_are_seen_and_margins_kept() {
        let mut lent: Lent<u16> = Lent::new(3, &mut Random::new(1));
        let first = lent.before()[0];
        lent.slice()[0] = first.wrapping_add(1);
        assert_ne!(lent.before(), lent.after());
        assert!(lent.margins_untouched());
        let end = lent.start + lent.len;
        lent.entries[end] = lent.entries[end].wrapping_add(1);
        assert!(!lent.margins_untouched());
    }

    #[test]
    fn a_slice_holds_what_it_is_given() {
        let lent = Lent::holding(&[7_u16, 8, 9], &mut Random::new(1));
        assert_eq!(
            (lent.before(), lent.after()),
            (&[7, 8, 9][..], &[7, 8, 9][..])
        );
        assert!(lent.margins_untouched());
    }
}
