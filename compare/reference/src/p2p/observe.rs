//! What the driver sees of an engine after a call.

use std::time::{SystemTime, UNIX_EPOCH};

/// A row of the roster.
#[derive(Clone, Debug)]
pub struct PeerSeen<P> {
    pub peer: P,
    /// Its weight in the shared index.
    pub share: u64,
    /// What its rating weighs.
    pub rating: u64,
    /// The rating's two means, of length times 2^32 and of nanoseconds.
    pub means: Option<(u128, u128)>,
}

/// A row of the queue.
#[derive(Clone, Debug)]
pub struct QueuedSeen<K> {
    pub key: K,
    pub retried: bool,
    pub deadline: u64,
}

/// A request that is out.
#[derive(Clone, Debug)]
pub struct RequestSeen<P, K> {
    pub id: u64,
    pub key: K,
    pub peer: P,
    pub start: u64,
    /// Absent if the row of deadlines has none for this id.
    pub deadline: Option<u64>,
}

/// Everything in a fetcher; lists are in order.
#[derive(Clone, Debug)]
pub struct FetcherSeen<P, K> {
    pub roster: Vec<PeerSeen<P>>,
    pub blocked: Vec<P>,
    pub next_id: Option<u64>,
    /// In queue order.
    pub queue: Vec<QueuedSeen<K>>,
    /// In the order of deadlines, then ids.
    pub deadlines: Vec<(u64, u64)>,
    /// In the order of ids.
    pub requests: Vec<RequestSeen<P, K>>,
    /// In the order of keys, peers in their order.
    pub targets: Vec<(K, Vec<P>)>,
    /// In the order of keys.
    pub retries: Vec<(K, u32)>,
    pub waiter: Option<u64>,
    pub pending_deadline: Option<u64>,
    pub active_deadline: Option<u64>,
}

/// Everything in an engine that the comparison looks at.
#[derive(Clone, Debug)]
pub struct Seen<P, K, S> {
    pub fetcher: FetcherSeen<P, K>,
    /// The keys that somebody waits for, with those who do.
    pub waits: Vec<(K, Vec<S>)>,
    /// The keys that are in flight, in order.
    pub inflight: Vec<K>,
}

/// A time as nanoseconds.
pub fn nanos(time: SystemTime) -> u64 {
    let since = time.duration_since(UNIX_EPOCH).expect("times start at 0");
    u64::try_from(since.as_nanos()).expect("a time of 64 bits")
}

/// The two means out of a rating's `Debug` form, which is the only way to them
/// from outside their module.
pub fn means_of(rating: &impl std::fmt::Debug) -> Option<(u128, u128)> {
    let text = format!("{rating:?}");
    let mut numbers = text
        .split(|c: char| !c.is_ascii_digit())
        .filter(|digits| !digits.is_empty())
        .map(|digits| digits.parse().expect("a mean"));
    let length = numbers.next()?;
    let time = numbers.next().expect("two means");
    Some((length, time))
}

/// Methods of the fetcher, written inside its own module (the derive on one of its
/// structs puts them there), so that they can reach its private fields.
macro_rules! look_inside_fetcher {
    () => {
        impl<E, P, Key> Fetcher<E, P, Key>
        where
            E: Clock + Rng + Metrics,
            P: PublicKey,
            Key: Span,
        {
            /// Reads everything out and changes nothing.
            pub fn observe(&self) -> crate::p2p::observe::FetcherSeen<P, Key> {
                use crate::p2p::observe::*;

                let roster = self.participants.peers.iter().enumerate();
                let roster = roster.map(|(place, (peer, score))| PeerSeen {
                    peer: peer.clone(),
                    share: self.participants.weights.weight(place),
                    rating: score.weight(),
                    means: means_of(score),
                });
                let mut blocked: Vec<P> = self.blocked.iter().cloned().collect();
                blocked.sort();
                let queue = self.pending.iter();
                let queue = queue.map(|(key, (retried, deadline))| QueuedSeen {
                    key: key.clone(),
                    retried: *retried,
                    deadline: nanos(*deadline),
                });
                let deadlines: Vec<(u64, u64)> = self
                    .active
                    .iter()
                    .map(|(id, deadline)| (nanos(*deadline), *id))
                    .collect();
                let mut deadline_by_id = deadlines.clone();
                deadline_by_id.sort_by_key(|(_, id)| *id);
                let mut requests: Vec<_> = self
                    .requests
                    .iter()
                    .map(|(id, request)| RequestSeen {
                        id: *id,
                        key: request.key.clone(),
                        peer: request.peer.clone(),
                        start: nanos(request.start),
                        deadline: deadline_by_id
                            .binary_search_by_key(id, |(_, id)| *id)
                            .ok()
                            .map(|place| deadline_by_id[place].0),
                    })
                    .collect();
                requests.sort_by_key(|request| request.id);
                let mut targets: Vec<(Key, Vec<P>)> = self
                    .targets
                    .iter()
                    .map(|(key, peers)| {
                        let mut peers: Vec<P> = peers.iter().cloned().collect();
                        peers.sort();
                        (key.clone(), peers)
                    })
                    .collect();
                targets.sort();
                let mut retries: Vec<(Key, u32)> = self
                    .retries
                    .iter()
                    .map(|(key, retries)| (key.clone(), *retries))
                    .collect();
                retries.sort();
                FetcherSeen {
                    roster: roster.collect(),
                    blocked,
                    next_id: self.request_id,
                    queue: queue.collect(),
                    deadlines,
                    requests,
                    targets,
                    retries,
                    waiter: self.waiter.map(nanos),
                    pending_deadline: self.get_pending_deadline().map(nanos),
                    active_deadline: self.get_active_deadline().map(nanos),
                }
            }

            /// For rehearsals: the order in which a draw over the whole roster picks.
            pub fn draw_order(&mut self, retries: u32) -> Vec<P> {
                let mut order = Vec::new();
                let mut selection = Candidates::All.select(&mut self.participants.weights);
                while let Some(place) = selection.next(&mut self.context, retries) {
                    order.push(self.participants.peers[place].0.clone());
                }
                order
            }

            /// For rehearsals: the id of the next send.
            pub fn set_next_id(&mut self, id: Option<ID>) {
                self.request_id = id;
            }

            /// For rehearsals: a key's retries.
            pub fn set_retries(&mut self, key: Key, retries: u32) {
                self.retries.insert(key, retries);
            }

            /// Puts the waiter back after a fetch that was only tried out.
            pub fn waiter(&self) -> Option<SystemTime> {
                self.waiter
            }

            pub fn set_waiter(&mut self, waiter: Option<SystemTime>) {
                self.waiter = waiter;
            }
        }
    };
}

pub(crate) use look_inside_fetcher;
