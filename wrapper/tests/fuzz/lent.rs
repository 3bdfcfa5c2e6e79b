//! A buffer as a call gets it, between guards.

use cases::random::Random;

/// So many guards at the least stand before and after a buffer.
const MARGIN: usize = 40;

/// A buffer in the middle of guards. An empty one may instead be a slice that
/// points nowhere.
pub struct Lent<T> {
    all: Vec<T>,
    start: usize,
    guard: T,
    before: Vec<T>,
}

impl<T: Copy + PartialEq> Lent<T> {
    pub fn new(random: &mut Random, content: Vec<T>, guard: T) -> Lent<T> {
        if content.is_empty() && random.one_in(2) {
            return Lent {
                all: Vec::new(),
                start: 0,
                guard,
                before: content,
            };
        }
        // Any alignment.
        let start = MARGIN + random.below(16);
        let mut all = vec![guard; start + content.len() + MARGIN];
        all[start..start + content.len()].copy_from_slice(&content);
        Lent {
            all,
            start,
            guard,
            before: content,
        }
    }

    pub fn lend(&mut self) -> &mut [T] {
        &mut self.all[self.start..][..self.before.len()]
    }

    pub fn before(&self) -> &[T] {
        &self.before
    }

    pub fn after(&self) -> &[T] {
        &self.all[self.start..][..self.before.len()]
    }

    pub fn stayed(&self) -> bool {
        self.after() == self.before
    }

    pub fn guards_stayed(&self) -> bool {
        let (before, rest) = self.all.split_at(self.start);
        let after = &rest[self.before.len()..];
        before.iter().chain(after).all(|guard| *guard == self.guard)
    }
}
