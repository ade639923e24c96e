//! Sets of bindings and of types as bits.

use super::MOST_BINDINGS;

/// Bits for the bindings, or for the types, 64 in a word.
pub const WORDS: usize = MOST_BINDINGS / 64;

/// A set of bindings or of types. Words that `full` lacks hold anything.
#[derive(Clone, Copy)]
pub struct Set {
    pub full: u32,
    pub words: [u64; WORDS],
}

impl Set {
    pub const NONE: Set = Set { full: 0, words: [0; WORDS] };

    pub fn clear(&mut self) {
        self.full = 0;
    }

    #[inline]
    pub fn word(&self, word: usize) -> u64 {
        if self.full >> word & 1 == 1 {
            self.words[word]
        } else {
            0
        }
    }

    #[inline]
    pub fn put(&mut self, item: usize) {
        self.words[item / 64] = self.word(item / 64) | 1 << (item % 64);
        self.full |= 1 << (item / 64);
    }

    pub fn join(&mut self, other: &Set) {
        for word in bits_in(u64::from(other.full)) {
            self.words[word] = self.word(word) | other.words[word];
        }
        self.full |= other.full;
    }

    pub fn copy(&mut self, other: &Set) {
        self.full = other.full;
        bits_in(u64::from(other.full)).for_each(|word| self.words[word] = other.words[word]);
    }

    pub fn meets(&self, other: &Set) -> bool {
        bits_in(u64::from(self.full & other.full)).any(|word| self.words[word] & other.words[word] != 0)
    }
}

/// The numbers of the bits that a word has.
pub fn bits_in(mut word: u64) -> impl Iterator<Item = usize> {
    std::iter::from_fn(move || {
        let bit = (word != 0).then_some(word.trailing_zeros() as usize);
        word &= word.wrapping_sub(1);
        bit
    })
}

/// The places from one to another that are still to be gone through.
pub struct Span {
    from: usize,
    to: usize,
}

impl Span {
    pub fn new((from, to): (u16, u16)) -> Span {
        Span { from: usize::from(from), to: usize::from(to) }
    }

    /// The next place that has a bit.
    #[inline]
    pub fn next(&mut self, bits: &[u64; WORDS]) -> Option<usize> {
        while self.from < self.to {
            let left = bits[self.from / 64] >> (self.from % 64);
            if left != 0 {
                let place = self.from + left.trailing_zeros() as usize;
                self.from = place + 1;
                return (place < self.to).then_some(place);
            }
            self.from = (self.from / 64 + 1) * 64;
        }
        None
    }
}
