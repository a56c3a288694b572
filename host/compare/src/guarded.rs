//! Memory with guard zones around the part that a job is given.

use vectors::random::Random;

/// The entries of each guard zone.
const GUARD: usize = 24;

/// A part to be given to a job, between two guard zones.
#[derive(Clone, Debug, PartialEq, Eq)]
pub struct Guarded<T> {
    memory: Vec<T>,
    start: usize,
}

/// An entry that rubbish can be made of.
pub trait Entry: Copy {
    fn from_bits(bits: u64) -> Self;
}

impl Entry for i32 {
    fn from_bits(bits: u64) -> i32 {
        bits as i32
    }
}

impl Entry for u8 {
    fn from_bits(bits: u64) -> u8 {
        bits as u8
    }
}

impl<T: Entry> Guarded<T> {
    /// A part of a length, full of rubbish as its guard zones are.
    pub fn rubbish(random: &mut Random, length: usize) -> Guarded<T> {
        // Where the part starts in memory differs, and so does its alignment.
        let start = GUARD + random.range(0, 7) as usize;
        let memory = (0..start + length + GUARD)
            .map(|_| T::from_bits(random.bits()))
            .collect();
        Guarded { memory, start }
    }

    /// A part with these contents, between rubbish.
    pub fn holding(random: &mut Random, contents: &[T]) -> Guarded<T> {
        let mut guarded = Guarded::rubbish(random, contents.len());
        guarded.part_mut().copy_from_slice(contents);
        guarded
    }

    /// The part to give.
    pub fn part(&self) -> &[T] {
        &self.memory[self.start..self.memory.len() - GUARD]
    }

    /// The part to give, to be written.
    pub fn part_mut(&mut self) -> &mut [T] {
        let end = self.memory.len() - GUARD;
        &mut self.memory[self.start..end]
    }

    /// The first entry of the whole memory that differs, counted from the part's start, and both
    /// values.
    pub fn first_difference(&self, other: &Guarded<T>) -> Option<(isize, T, T)>
    where
        T: PartialEq,
    {
        let pairs = self.memory.iter().zip(&other.memory);
        pairs
            .enumerate()
            .find(|(_, (ours, theirs))| ours != theirs)
            .map(|(k, (&ours, &theirs))| (k as isize - self.start as isize, ours, theirs))
    }
}

#[cfg(test)]
mod tests {
    use super::*;

    #[test]
    fn a_change_anywhere_is_found() {
        let mut random = Random::new(1);
        let before = Guarded::holding(&mut random, &[1, 2, 3]);
        assert_eq!(before.part(), [1, 2, 3]);
        assert_eq!(before.first_difference(&before.clone()), None);
        for index in 0..before.memory.len() {
            let mut after = before.clone();
            after.memory[index] ^= 1;
            let (found, old, new) = before.first_difference(&after).unwrap();
            assert_eq!(found, index as isize - before.start as isize);
            assert_eq!(old ^ new, 1);
        }
        let empty: Guarded<u8> = Guarded::rubbish(&mut random, 0);
        assert_eq!(empty.part(), [0; 0]);
        assert!(empty.memory.len() >= 2 * GUARD);
    }
}
