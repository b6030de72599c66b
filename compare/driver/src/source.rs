//! The two draw sources.

use rand_core::Rng;
use std::fmt::{self, Display, Formatter};

/// An endless row of words, and how many of them were taken.
#[derive(Clone, Debug)]
pub struct Source {
    words: Words,
    taken: u64,
}

#[derive(Clone, Debug)]
enum Words {
    /// These words, then zeros.
    List(Vec<u64>),
    /// Marsaglia's xorshift; each word is the state after a step.
    Xorshift(u64),
}

/// A source as a script names it.
#[derive(Clone, Debug, PartialEq, Eq)]
pub enum SourceName {
    List(Vec<u64>),
    Xorshift(u64),
}

impl Source {
    pub fn new(name: &SourceName) -> Self {
        let words = match name {
            SourceName::List(words) => Words::List(words.clone()),
            SourceName::Xorshift(seed) => Words::Xorshift((*seed).max(1)),
        };
        Self { words, taken: 0 }
    }

    /// Words taken so far.
    pub fn taken(&self) -> u64 {
        self.taken
    }
}

impl Rng for Source {
    fn next_u64(&mut self) -> u64 {
        let word = match &mut self.words {
            Words::List(words) => words.get(self.taken as usize).copied().unwrap_or(0),
            Words::Xorshift(state) => {
                *state ^= *state << 13;
                *state ^= *state >> 7;
                *state ^= *state << 17;
                *state
            }
        };
        self.taken += 1;
        word
    }
}

impl Display for SourceName {
    fn fmt(&self, f: &mut Formatter<'_>) -> fmt::Result {
        match self {
            Self::List(words) => {
                let words: Vec<String> = words.iter().map(u64::to_string).collect();
                write!(f, "list:{}", words.join(","))
            }
            Self::Xorshift(seed) => write!(f, "xorshift:{seed}"),
        }
    }
}
