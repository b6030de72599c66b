//! Stand-in for `commonware-utils`.
//!
//! The priority set, the weighted index and the draw without replacement follow
//! the written rules that both sides of the comparison use.

pub mod channel;
pub mod futures;
mod priority_set;
pub mod sampling;
pub mod vec;

pub use priority_set::PrioritySet;

use commonware_codec::{EncodeSize, Read, Write};
use std::{
    fmt::Debug,
    hash::Hash,
    time::{Duration, SystemTime, UNIX_EPOCH},
};

/// What the resolver asks of a key.
pub trait Span:
    Clone + Ord + Hash + Debug + Write + EncodeSize + Read<Cfg = ()> + Send + Sync + 'static
{
}

/// A duration above zero.
#[derive(Clone, Copy, Debug, PartialEq, Eq)]
pub struct NonZeroDuration(Duration);

impl NonZeroDuration {
    pub fn new(duration: Duration) -> Option<Self> {
        (!duration.is_zero()).then_some(Self(duration))
    }

    pub const fn get(&self) -> Duration {
        self.0
    }
}

pub mod time {
    pub const NANOS_PER_SEC: u128 = 1_000_000_000;
}

/// The nanosecond that stands for "no time at all will do": 2^63 - 1.
pub const LIMIT_NANOS: u64 = i64::MAX as u64;

pub trait SystemTimeExt {
    fn limit() -> SystemTime;
}

impl SystemTimeExt for SystemTime {
    fn limit() -> SystemTime {
        UNIX_EPOCH + Duration::from_nanos(LIMIT_NANOS)
    }
}
