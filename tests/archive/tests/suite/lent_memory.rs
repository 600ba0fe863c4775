//! The buffers of a call, what they hold before it, and what lies around them.

use evaluator::document;
use evaluator::random::Random;
use yurzhoad::limits::needed_words;

/// How long a lent buffer is, given what the document needs.
#[derive(Clone, Copy, Debug, PartialEq, Eq)]
pub enum Length {
    Needed,
    Longer(usize),
    /// By so much, or empty if it would need no more.
    Shorter(usize),
    /// Whatever the document needs; of a refused one that is nothing.
    Just(usize),
}

impl Length {
    fn given(self, needed: usize) -> usize {
        match self {
            Length::Needed => needed,
            Length::Longer(more) => needed + more,
            Length::Shorter(less) => needed.saturating_sub(less),
            Length::Just(length) => length,
        }
    }
}

/// How the buffers of a call are made.
#[derive(Clone, Copy, Debug)]
pub struct Buffers {
    pub words: Length,
    pub marks: Length,
    /// Seed of what they hold before the call.
    pub seed: u64,
}

/// Buffers just large enough, filled from this seed.
pub fn needed(seed: u64) -> Buffers {
    Buffers {
        words: Length::Needed,
        marks: Length::Needed,
        seed,
    }
}

/// So many words lie before and behind the lent ones in the same memory, and
/// as many bytes around the marks. Nothing may be written there.
pub const AROUND: usize = 5;

/// What a call may change: the lent buffers and what lies around them.
#[derive(Clone, PartialEq, Eq)]
pub struct Memory {
    pub scratch: Vec<u16>,
    pub marks: Vec<u8>,
}

impl Memory {
    /// As the buffers of a call are made.
    pub fn before(document: &[u8], buffers: Buffers) -> Memory {
        let nodes = document::check(document).nodes;
        let words = buffers.words.given(needed_words(nodes));
        let marks = buffers.marks.given(nodes);
        let random = &mut Random::new(buffers.seed);
        Memory {
            scratch: random.words(words + 2 * AROUND),
            marks: random.bytes(marks + 2 * AROUND),
        }
    }

    /// The lent buffers alone.
    pub fn lent(&mut self) -> (&mut [u16], &mut [u8]) {
        let (words, marks) = (self.scratch.len(), self.marks.len());
        (
            &mut self.scratch[AROUND..words - AROUND],
            &mut self.marks[AROUND..marks - AROUND],
        )
    }
}
