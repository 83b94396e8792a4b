//! A lent part with guards at both ends, so that a write past it is seen.

/// How many items stand guard at the end.
const GUARD: usize = 16;

#[derive(Clone, Debug, PartialEq, Eq)]
pub struct Lent<T> {
    all: Vec<T>,
    first: usize,
    guard: T,
}

impl<T: Copy + PartialEq> Lent<T> {
    /// Lends a copy of `items`, from the place `first` of a longer row on.
    pub fn new(items: &[T], first: usize, guard: T) -> Lent<T> {
        let mut all = Vec::with_capacity(first + items.len() + GUARD);
        all.resize(first, guard);
        all.extend_from_slice(items);
        all.resize(first + items.len() + GUARD, guard);
        Lent { all, first, guard }
    }

    /// Lends so many of one item, likewise.
    pub fn filled(length: usize, item: T, first: usize, guard: T) -> Lent<T> {
        let mut all = Vec::with_capacity(first + length + GUARD);
        all.resize(first, guard);
        all.resize(first + length, item);
        all.resize(first + length + GUARD, guard);
        Lent { all, first, guard }
    }

    /// The part that is lent.
    pub fn part(&mut self) -> &mut [T] {
        let end = self.all.len() - GUARD;
        &mut self.all[self.first..end]
    }

    /// The part as it came back, or None where a guard was written over.
    pub fn back(mut self) -> Option<Vec<T>> {
        let end = self.all.len() - GUARD;
        let mut guards = self.all[..self.first].iter().chain(&self.all[end..]);
        if guards.any(|&item| item != self.guard) {
            return None;
        }
        self.all.truncate(end);
        self.all.drain(..self.first);
        Some(self.all)
    }
}

#[cfg(test)]
mod tests {
    use super::Lent;

    #[test]
    fn a_write_past_the_lent_part_is_seen() {
        assert_eq!(Lent::filled(3, 1, 2, 9), Lent::new(&[1, 1, 1], 2, 9));
        let mut lent = Lent::new(&[1, 2, 3], 2, 9);
        lent.part()[2] = 4;
        assert_eq!(lent.clone().back(), Some(vec![1, 2, 4]));
        for place in [0, 1, 5, 20] {
            let mut written = lent.clone();
            written.all[place] = 7;
            assert_eq!(written.back(), None);
        }
    }
}
