//! What the driver holds the Rust to after each call, apart from any trace. A
//! breach stops the driver at the line.

use crate::{
    kinds::{KeyKind, PeerKind},
    link::Word,
    session::{Answer, Session},
};
use reference::p2p::observe::{PeerSeen, Seen};
use std::{
    collections::{BTreeMap, BTreeSet},
    fmt::Debug,
};

type Checked = Result<(), String>;

fn same<T: PartialEq + Debug>(what: &str, is: T, should: T) -> Checked {
    if is == should {
        Ok(())
    } else {
        Err(format!("{what}: is {is:?}, should be {should:?}"))
    }
}

/// The roster is the last one given. A peer weighs zero exactly if it is own or
/// blocked, else what its rating weighs.
pub fn shares<P: PeerKind, K: KeyKind>(session: &Session<P, K>) -> Checked {
    let fetcher = &session.seen.fetcher;
    let roster: Vec<P> = fetcher.roster.iter().map(|row| row.peer).collect();
    same("roster", &roster, &session.history.roster)?;
    same("blocked list", &fetcher.blocked, &session.history.blocked)?;
    for row in &fetcher.roster {
        let out = session.me == Some(row.peer) || session.history.blocked.contains(&row.peer);
        let weight = weight_by_means(row);
        same("a rating's weight", row.rating, weight)?;
        same("a peer's weight", row.share, if out { 0 } else { weight })?;
    }
    Ok(())
}

fn weight_by_means<P>(row: &PeerSeen<P>) -> u64 {
    let Some((length, time)) = row.means else {
        return 1;
    };
    let quotient = length * 1_000_000_000 / (time << 32);
    u64::try_from(quotient).expect("a weight of 64 bits") + 1
}

/// A key is live exactly if somebody waits for it, by the history of calls, and is
/// then in exactly one place. Nothing is left over from keys that are not live.
pub fn places<P: PeerKind, K: KeyKind>(session: &Session<P, K>) -> Checked {
    let seen = &session.seen;
    let fetcher = &seen.fetcher;
    let waits: BTreeMap<K, BTreeSet<P>> = seen
        .waits
        .iter()
        .map(|(key, waits)| (*key, waits.iter().copied().collect()))
        .collect();
    same("who waits", &waits, &session.history.waits)?;
    let live: Vec<K> = waits.keys().copied().collect();
    same("keys in flight", &seen.inflight, &live)?;

    let queued = fetcher.queue.iter().map(|row| row.key);
    let out = fetcher.requests.iter().map(|row| row.key);
    let judged = session.slips.values().filter_map(|slip| slip.key);
    let mut places: Vec<K> = queued.chain(out).chain(judged).collect();
    places.sort();
    same("keys by their places", &places, &live)?;

    let mut deadlines: Vec<(u64, u64)> = fetcher
        .requests
        .iter()
        .map(|row| (row.start + session.timeout, row.id))
        .collect();
    deadlines.sort();
    same("deadlines", &fetcher.deadlines, &deadlines)?;

    let with_rows = fetcher.targets.iter().map(|(key, _)| key);
    let with_rows = with_rows.chain(fetcher.retries.iter().map(|(key, _)| key));
    for key in with_rows {
        if !waits.contains_key(key) {
            return Err(format!("{key} is not live and has targets or retries"));
        }
    }
    Ok(())
}

/// What a fetch should do.
pub struct ExpectedSend<P, K> {
    /// The first due key, in queue order, with an allowed peer that the link takes,
    /// and all such peers.
    first: Option<(K, Vec<P>)>,
    count: u64,
    /// The waiter that is left.
    waiter: Option<u64>,
}

/// To be asked before the fetch, with the clock set.
pub fn expected_send<P: PeerKind, K: KeyKind>(session: &Session<P, K>) -> ExpectedSend<P, K> {
    let now = session.world.now();
    let link = session.link.borrow();
    let (due, later): (Vec<_>, Vec<_>) = session
        .seen
        .fetcher
        .queue
        .iter()
        .partition(|row| row.deadline <= now);
    let words: Vec<(K, Vec<(P, Word)>)> = due
        .iter()
        .map(|row| {
            let allowed = allowed(session, &row.key).into_iter();
            let words = allowed.map(|peer| (peer, link.word(&peer, now)));
            (row.key, words.collect())
        })
        .collect();
    let first = words
        .iter()
        .map(|(key, words)| {
            let taken = words.iter().filter(|(_, word)| *word == Word::Take);
            (*key, taken.map(|(peer, _)| *peer).collect::<Vec<P>>())
        })
        .find(|(_, taken)| !taken.is_empty());
    let words: Vec<Word> = words
        .iter()
        .flat_map(|(_, words)| words)
        .map(|(_, w)| *w)
        .collect();
    let deadlines = later.iter().map(|row| row.deadline).min();
    let waiter = first.is_none().then(|| waiter(session, deadlines, &words));
    ExpectedSend {
        first,
        count: link.count(),
        waiter,
    }
}

/// The peers that a key may be asked of: with a weight, and among its targets if it
/// has a target set.
fn allowed<P: PeerKind, K: KeyKind>(session: &Session<P, K>, key: &K) -> Vec<P> {
    let targets = session.targets(key);
    let roster = session
        .seen
        .fetcher
        .roster
        .iter()
        .filter(|row| row.share != 0);
    let peers = roster.map(|row| row.peer);
    peers
        .filter(|peer| targets.is_none_or(|targets| targets.contains(peer)))
        .collect()
}

/// The waiter after a fetch without a send: the least of the deadlines not due and
/// the wait times met; or, if no wait was met but there was an allowed peer, now plus
/// delay; or the end of time.
fn waiter<P: PeerKind, K: KeyKind>(
    session: &Session<P, K>,
    deadline: Option<u64>,
    words: &[Word],
) -> u64 {
    let waits = words.iter().filter_map(|word| match word {
        Word::Wait(time) => Some(*time),
        Word::Take | Word::Closed => None,
    });
    let again = || (!words.is_empty()).then(|| session.world.now() + session.delay);
    let retry = waits.min().or_else(again);
    let end = commonware_utils::LIMIT_NANOS;
    end.min(deadline.unwrap_or(end)).min(retry.unwrap_or(end))
}

/// A fetch sends exactly what it should, and moves no other key.
pub fn sent<P: PeerKind, K: KeyKind>(
    session: &Session<P, K>,
    before: &Seen<P, K, P>,
    expected: &ExpectedSend<P, K>,
    answer: &Answer<P, K>,
) -> Checked {
    let queue_of =
        |seen: &Seen<P, K, P>| -> Vec<K> { seen.fetcher.queue.iter().map(|row| row.key).collect() };
    same("the waiter", session.seen.fetcher.waiter, expected.waiter)?;
    let mut queue = queue_of(before);
    let Answer::Sent(message) = answer else {
        return Err("a fetch answers what it sent".into());
    };
    let sends = u64::from(expected.first.is_some());
    let count = session.link.borrow().count();
    same(
        "the link's count",
        count,
        expected.count.wrapping_add(sends),
    )?;
    match (message, &expected.first) {
        (None, None) => {
            let requests = session.seen.fetcher.requests.len();
            same("requests out", requests, before.fetcher.requests.len())?;
        }
        (Some(message), Some((key, peers))) => {
            same("the key sent", message.key, *key)?;
            if !peers.contains(&message.peer) {
                return Err(format!("{} was not to be sent to", message.peer));
            }
            if before
                .fetcher
                .requests
                .iter()
                .any(|row| row.id == message.id)
            {
                return Err(format!("id {} was still out", message.id));
            }
            let requests = &session.seen.fetcher.requests;
            let row = requests.iter().find(|row| row.id == message.id);
            let row = row.ok_or("the request is not out under its id")?;
            same("the key out", row.key, *key)?;
            same("the peer asked", row.peer, message.peer)?;
            same("the start", row.start, session.world.now())?;
            queue.retain(|queued| queued != key);
        }
        (message, first) => {
            return Err(format!("sent {message:?}, should be {first:?}"));
        }
    }
    same("the queue", queue_of(&session.seen), queue)
}
