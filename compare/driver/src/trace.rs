//! The tables that a trace shows after each line.

use crate::{
    kinds::{KeyKind, Kind, PeerKind},
    session::Session,
};
use std::{
    collections::BTreeSet,
    fmt::{Display, Write as _},
};

/// A value, or `-` if it is absent.
pub fn or_dash<T: Display>(value: &Option<T>) -> String {
    value.as_ref().map_or_else(|| "-".into(), T::to_string)
}

/// A list, or `-` if it is empty.
pub fn list<T: Kind>(items: &[T]) -> String {
    if items.is_empty() {
        return "-".into();
    }
    let items: Vec<String> = items.iter().map(T::to_string).collect();
    items.join(",")
}

/// Where a key is, in the words of its line; absent if it is nowhere.
pub fn place<P: PeerKind, K: KeyKind>(session: &Session<P, K>, key: &K) -> Option<String> {
    let fetcher = &session.seen.fetcher;
    if let Some(row) = fetcher.queue.iter().find(|row| row.key == *key) {
        let class = if row.retried { "retried" } else { "fresh" };
        return Some(format!("queued {class} {}", row.deadline));
    }
    if let Some(row) = fetcher.requests.iter().find(|row| row.key == *key) {
        return Some(format!(
            "out id={} peer={} start={} deadline={}",
            row.id,
            row.peer,
            row.start,
            or_dash(&row.deadline)
        ));
    }
    let (slip, _) = session.running_slip(key)?;
    Some(format!("judged slip={slip}"))
}

/// All tables, with the blank line that ends a block.
pub fn tables<P: PeerKind, K: KeyKind>(session: &Session<P, K>) -> String {
    let mut out = String::new();
    roster(session, &mut out);
    keys(session, &mut out);
    slips(session, &mut out);
    rows(session, &mut out);
    times(session, &mut out);
    link(session, &mut out);
    out.push('\n');
    out
}

fn roster<P: PeerKind, K: KeyKind>(session: &Session<P, K>, out: &mut String) {
    let fetcher = &session.seen.fetcher;
    out.push_str("roster");
    for row in &fetcher.roster {
        write!(out, " {}={}", row.peer, row.share).unwrap();
        match row.means {
            Some((length, time)) => write!(out, "({length}/{time})").unwrap(),
            None => out.push_str("(-)"),
        }
    }
    if fetcher.roster.is_empty() {
        out.push_str(" -");
    }
    writeln!(out, "\nblocked {}", list(&fetcher.blocked)).unwrap();
}

fn keys<P: PeerKind, K: KeyKind>(session: &Session<P, K>, out: &mut String) {
    // By the rules these are the keys that somebody waits for. Left alone, a key may
    // be in flight and in no place at all; then its line says `lost`.
    let mut keys: BTreeSet<K> = session.seen.inflight.iter().copied().collect();
    keys.extend(session.seen.waits.iter().map(|(key, _)| *key));
    keys.extend(session.seen.fetcher.targets.iter().map(|(key, _)| *key));
    for key in keys {
        let place = place(session, &key).unwrap_or_else(|| "lost".into());
        let targets = match session.targets(&key) {
            None => "all".into(),
            Some([]) => "nobody".into(),
            Some(peers) => list(peers),
        };
        let retries = session.retries(&key);
        let waits = list(session.waits(&key).unwrap_or(&[]));
        writeln!(
            out,
            "key {key} {place} retries={retries} targets={targets} waits={waits}"
        )
        .unwrap();
    }
}

fn slips<P: PeerKind, K: KeyKind>(session: &Session<P, K>, out: &mut String) {
    for (number, slip) in &session.slips {
        writeln!(
            out,
            "slip {number} key={} peer={} elapsed={} len={} number={} accepted={} delivered={}",
            or_dash(&slip.key),
            slip.peer,
            slip.elapsed,
            slip.record.len(),
            slip.record.number(),
            u8::from(slip.accepted),
            list(&slip.delivered)
        )
        .unwrap();
    }
}

fn rows<P: PeerKind, K: KeyKind>(session: &Session<P, K>, out: &mut String) {
    writeln!(
        out,
        "rows live={} waiting={} targets={} slips={}",
        session.seen.waits.len(),
        session.waiting_pairs(),
        session.target_pairs(),
        session.slips.len()
    )
    .unwrap();
}

fn times<P: PeerKind, K: KeyKind>(session: &Session<P, K>, out: &mut String) {
    let fetcher = &session.seen.fetcher;
    writeln!(
        out,
        "times pending={} active={} waiter={}",
        or_dash(&fetcher.pending_deadline),
        or_dash(&fetcher.active_deadline),
        or_dash(&fetcher.waiter)
    )
    .unwrap();
    writeln!(
        out,
        "draws words={} next_id={}",
        session.world.words(),
        or_dash(&fetcher.next_id)
    )
    .unwrap();
}

fn link<P: PeerKind, K: KeyKind>(session: &Session<P, K>, out: &mut String) {
    let link = session.link.borrow();
    let latest = link
        .latest()
        .map(|message| format!("{},{},{}", message.id, message.peer, message.key));
    write!(
        out,
        "link count={} latest={} ",
        link.count(),
        or_dash(&latest)
    )
    .unwrap();
    link.write_state(out);
    out.push('\n');
}
