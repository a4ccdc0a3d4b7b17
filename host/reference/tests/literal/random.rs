//! Random terms, sound and not.

use crate::{Term, Term::*, Way};

/// Numbers that look random (xorshift).
pub struct Random(pub u64);

impl Random {
    pub fn below(&mut self, end: u64) -> u64 {
        self.0 ^= self.0 << 13;
        self.0 ^= self.0 >> 7;
        self.0 ^= self.0 << 17;
        (self.0 >> 11) % end
    }

    /// A term of about so many nodes, with keys from 1 to `keys` at random prefixes: seldom sound.
    pub fn term(&mut self, size: u64, keys: u64) -> Term {
        if size <= 1 {
            return Nil;
        }
        match self.below(9) {
            0..=3 => {
                let action = [0, 1, 129, 1, 129, 2, 130][self.below(7) as usize];
                let key = if self.below(2) == 0 { 0 } else { self.below(keys + 1) as u16 };
                Prefix(action, key, self.term(size - 1, keys).into())
            }
            4 => Restriction(1 + self.below(2) as u8, self.term(size - 1, keys).into()),
            kind => {
                let left = 1 + self.below(size);
                let (left, right) =
                    (self.term(left, keys).into(), self.term(size.saturating_sub(left + 1), keys).into());
                if kind == 5 {
                    Choice(left, right)
                } else {
                    Parallel(left, right)
                }
            }
        }
    }
    /// A blank term with steps made as the rules allow them, under keys from 1 to `keys`: always sound.
    pub fn sound(&mut self, size: u64, keys: u64) -> Term {
        let mut term = self.term(size, 0);
        for _ in 0..2 * keys {
            let key = 1 + self.below(keys) as u16;
            let steps = term.steps(0, key, Way::Forward);
            if term.times(key) == 0 && !steps.is_empty() {
                let (_, places) = &steps[self.below(steps.len() as u64) as usize];
                term = term.with_key(0, places, key);
            }
        }
        term
    }
}
