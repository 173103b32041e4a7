//! Buffers that are lent with guards on both sides.

use std::fmt::Debug;

/// The number of guarding elements on each side.
const GUARD: usize = 64;

/// An element of a lent buffer.
pub trait Element: Copy + Debug + PartialEq {
    /// A value that depends on the place and is seldom what is written there.
    fn pattern(place: usize) -> Self;
}

impl Element for u8 {
    fn pattern(place: usize) -> u8 {
        (place.wrapping_mul(167) ^ 0xa5) as u8
    }
}

impl Element for u64 {
    fn pattern(place: usize) -> u64 {
        0xdead_beef_0000_0000 | place as u64
    }
}

/// A buffer between guards.
pub struct Lent<T> {
    whole: Vec<T>,
    given: Vec<T>,
}

impl<T: Element> Lent<T> {
    /// A buffer of so many elements, each with its pattern.
    pub fn new(length: usize) -> Lent<T> {
        let given: Vec<T> = (0..length).map(|place| T::pattern(place + 7)).collect();
        Lent::holding(&given)
    }

    /// A buffer that holds these elements.
    pub fn holding(given: &[T]) -> Lent<T> {
        let guard = |from: usize| (from..from + GUARD).map(T::pattern);
        let whole = guard(0).chain(given.iter().copied()).chain(guard(GUARD)).collect();
        Lent { whole, given: given.to_vec() }
    }

    /// What is lent.
    pub fn lend(&mut self) -> &mut [T] {
        let end = self.whole.len() - GUARD;
        &mut self.whole[GUARD..end]
    }

    /// What the buffer holds now; fails if a guard was touched.
    pub fn look(&self) -> &[T] {
        let end = self.whole.len() - GUARD;
        let is_guard =
            |from: usize, part: &[T]| (from..).zip(part).all(|(place, &seen)| seen == T::pattern(place));
        assert!(is_guard(0, &self.whole[..GUARD]), "written in front of what was lent");
        assert!(is_guard(GUARD, &self.whole[end..]), "written behind what was lent");
        &self.whole[GUARD..end]
    }

    /// Fails unless each element is as lent.
    pub fn assert_as_lent(&self) {
        assert_eq!(self.look(), self.given, "not as lent");
    }

    /// Fails unless the buffer holds these elements and then what was lent.
    pub fn assert_begins(&self, written: &[T]) {
        assert_eq!(&self.look()[..written.len()], written, "written");
        assert_eq!(&self.look()[written.len()..], &self.given[written.len()..], "behind what is written");
    }
}
