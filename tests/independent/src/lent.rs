// Lent memory: a run of entries between guards, with a copy of all of it from before the call.

use crate::random::Random;

const GUARD: usize = 16;

pub trait Entry: Copy + PartialEq + std::fmt::Debug {
    fn cut(word: u64) -> Self;
}

impl Entry for u8 {
    fn cut(word: u64) -> u8 {
        word as u8
    }
}

impl Entry for u16 {
    fn cut(word: u64) -> u16 {
        word as u16
    }
}

impl Entry for i16 {
    fn cut(word: u64) -> i16 {
        word as i16
    }
}

impl Entry for u32 {
    fn cut(word: u64) -> u32 {
        word as u32
    }
}

impl Entry for u64 {
    fn cut(word: u64) -> u64 {
        word
    }
}

pub struct Lent<T> {
    cells: Vec<T>,
    before: Vec<T>,
    start: usize,
    entries: usize,
}

impl<T: Entry> Lent<T> {
    /// Guards and entries hold anything: words of any size, now and then small ones that could be
    /// taken for positions, or zeros.
    pub fn dirty(random: &mut Random, entries: usize) -> Lent<T> {
        let start = GUARD + random.below(GUARD);
        let mask = if random.chance(1, 2) {
            u64::MAX
        } else {
            (1 << random.below(22)) - 1
        };
        let cells: Vec<T> = (0..start + entries + GUARD)
            .map(|_| T::cut(random.next() & mask))
            .collect();
        let before = cells.clone();
        Lent {
            cells,
            before,
            start,
            entries,
        }
    }

    pub fn holding(random: &mut Random, contents: &[T]) -> Lent<T> {
        let mut lent = Lent::dirty(random, contents.len());
        let end = lent.start + contents.len();
        lent.cells[lent.start..end].copy_from_slice(contents);
        lent.before[lent.start..end].copy_from_slice(contents);
        lent
    }

    pub fn now_mut(&mut self) -> &mut [T] {
        &mut self.cells[self.start..self.start + self.entries]
    }

    pub fn now(&self) -> &[T] {
        &self.cells[self.start..self.start + self.entries]
    }

    pub fn before(&self) -> &[T] {
        &self.before[self.start..self.start + self.entries]
    }

    /// What a call left wrong: a guard that is not as it was, or the first entry that is not as
    /// expected. Nothing expected means that all entries are as they were.
    pub fn fault(&self, name: &str, expected: Option<&[T]>) -> Option<String> {
        let end = self.start + self.entries;
        if self.cells[..self.start] != self.before[..self.start] {
            return Some(format!("{name}: guard before it written"));
        }
        if self.cells[end..] != self.before[end..] {
            return Some(format!("{name}: guard after it written"));
        }
        let due = expected.unwrap_or(self.before());
        assert_eq!(due.len(), self.entries);
        let at = (0..self.entries).find(|i| self.now()[*i] != due[*i])?;
        let (is, due) = (self.now()[at], due[at]);
        Some(format!("{name}[{at}] is {is:?}, should be {due:?}"))
    }
}
