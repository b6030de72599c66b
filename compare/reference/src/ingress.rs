//! The messages of a resolver's mailbox.

use commonware_utils::vec::NonEmptyVec;

/// A key to fetch, those who want it, and where to look (`metadata`).
pub struct FetchKey<K, S, M> {
    pub key: K,
    pub subscribers: NonEmptyVec<(S, tracing::Span)>,
    pub metadata: M,
}

pub enum Message<K, S, M> {
    Fetch(Vec<FetchKey<K, S, M>>),
    Retain {
        predicate: Box<dyn Fn(&K, &S) -> bool + Send>,
    },
}
