//! Which number refuses a call, if any. The Rust has no such judgement, so it is
//! made here, on what is seen of the engine before the call.

use crate::{
    kinds::{KeyKind, Kind, PeerKind},
    script::Call,
    session::Session,
};

/// The last time that a call may have.
pub const LAST_TIME: u64 = (1 << 62) - 1;

/// The length of the longest record.
pub const LONGEST_RECORD: u64 = 1_048_576;

/// The smallest number that fits, save that 10 goes before 9.
pub fn refusal<P: PeerKind, K: KeyKind>(
    session: &Session<P, K>,
    call: &Call<P, K>,
    time: u64,
    engine: Option<u32>,
) -> Option<u32> {
    if engine.is_some_and(|engine| engine != session.engine) {
        return Some(3);
    }
    if time > LAST_TIME {
        return Some(4);
    }
    let rows = &session.rows;
    match call {
        Call::Reconcile(peers) => list(peers, rows.roster),
        Call::SetBlocked(peers) => list(peers, rows.blocked),
        Call::Want {
            key,
            subscribers,
            aim,
        } => want(session, key, subscribers, aim.as_deref()),
        Call::AddTargets { key, peers } => {
            not_live(session, key).or_else(|| no_room_for_targets(session, key, peers))
        }
        Call::ClearTargets(key) => not_live(session, key),
        Call::Fetch | Call::Retain(_) => None,
        Call::Expire => {
            let due = session
                .seen
                .fetcher
                .active_deadline
                .is_some_and(|at| at <= time);
            (!due).then_some(11)
        }
        Call::Response {
            id, peer, length, ..
        } => no_request(session, *id, peer)
            .or((*length > LONGEST_RECORD).then_some(13))
            .or((session.slips.len() as u64 >= rows.slips).then_some(14)),
        Call::Missing { id, peer } => no_request(session, *id, peer),
        Call::Verdict { slip, .. } => (!session.slips.contains_key(slip)).then_some(15),
    }
}

fn list<P: Kind>(peers: &[P], rows: u64) -> Option<u32> {
    let ascending = peers.windows(2).all(|pair| pair[0] < pair[1]);
    (!ascending || peers.len() as u64 > rows).then_some(5)
}

fn want<P: PeerKind, K: KeyKind>(
    session: &Session<P, K>,
    key: &K,
    subscribers: &[P],
    aim: Option<&[P]>,
) -> Option<u32> {
    if subscribers.is_empty() {
        return Some(6);
    }
    let new_key = !session.is_live(key);
    if new_key && session.seen.waits.len() as u64 >= session.rows.live {
        return Some(7);
    }
    let added = new_items(subscribers, |subscriber| session.has_pair(key, subscriber));
    if session.waiting_pairs() + added > session.rows.waiting {
        return Some(8);
    }
    match aim {
        Some(peers) if new_key => no_room_for_targets(session, key, peers),
        _ => None,
    }
}

fn no_room_for_targets<P: PeerKind, K: KeyKind>(
    session: &Session<P, K>,
    key: &K,
    peers: &[P],
) -> Option<u32> {
    let targets = session.targets(key).unwrap_or(&[]);
    let added = new_items(peers, |peer| targets.binary_search(peer).is_ok());
    (session.target_pairs() + added > session.rows.targets).then_some(9)
}

/// How many different items of a list are not there yet.
fn new_items<P: Kind>(list: &[P], is_there: impl Fn(&P) -> bool) -> u64 {
    let mut items = list.to_vec();
    items.sort();
    items.dedup();
    items.iter().filter(|item| !is_there(item)).count() as u64
}

fn not_live<P: PeerKind, K: KeyKind>(session: &Session<P, K>, key: &K) -> Option<u32> {
    (!session.is_live(key)).then_some(10)
}

/// 12 if no request of that id is out at that peer.
pub fn no_request<P: PeerKind, K: KeyKind>(
    session: &Session<P, K>,
    id: u64,
    peer: &P,
) -> Option<u32> {
    let requests = &session.seen.fetcher.requests;
    let there = requests
        .binary_search_by_key(&id, |request| request.id)
        .is_ok_and(|place| requests[place].peer == *peer);
    (!there).then_some(12)
}
