//! Stand-in for `rand`: drawing from a range.

use rand_core::{Rng, below};
use std::ops::Range;

pub trait RngExt: Rng {
    fn random_range(&mut self, range: Range<u64>) -> u64 {
        range.start + below(self, range.end - range.start)
    }
}

impl<R: Rng + ?Sized> RngExt for R {}
