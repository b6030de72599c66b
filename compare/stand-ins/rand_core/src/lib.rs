//! Stand-in for `rand_core`: a row of 64-bit words, and the one rule by which
//! a word becomes a number below a bound.

/// An endless row of 64-bit words.
pub trait Rng {
    fn next_u64(&mut self) -> u64;
}

/// A number below `n`: the next word modulo `n`. Every draw on this side goes
/// through here, save an engine's first id, which is a plain word.
pub fn below<R: Rng + ?Sized>(rng: &mut R, n: u64) -> u64 {
    rng.next_u64() % n
}
