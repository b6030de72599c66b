//! Stand-in for `commonware-cryptography`: what the resolver asks of a peer's name.

use std::{fmt::Debug, hash::Hash};

/// A peer's name: ordered, hashable, copied about freely. Numbers do as well.
pub trait PublicKey: Clone + Ord + Hash + Debug + Send + Sync + 'static {}
