//! One engine under a script: the reference's engine, and around it what the
//! rules add: refusals, slip numbers, ids that are passed over.

use crate::{
    check,
    context::World,
    engine::{Handed, Running},
    history::History,
    judge,
    kinds::{KeyKind, PeerKind},
    link::{Message, SharedLink},
    script::{Call, Expected, Make, OutcomeName, Rows, Rule, Step, own_peer},
    source::Source,
    trace,
};
use bytes::Bytes;
use commonware_utils::{NonZeroDuration, channel::oneshot, futures::poll_only, vec::NonEmptyVec};
use reference::{
    Outcome, Resolution,
    p2p::{drive::Order, observe::Seen},
};
use std::{
    collections::BTreeMap,
    fmt::{self, Display, Formatter},
    time::Duration,
};

/// How a session treats a call.
#[derive(Clone, Copy, Debug, PartialEq, Eq)]
pub enum Mode {
    /// By the rules: judged before it is made, and checked after.
    Rules,
    /// The Rust left alone: made whatever it is, through the original loop where
    /// the loop has a branch for it.
    Raw,
}

/// Why a line did not get an answer.
#[derive(Debug)]
pub enum Stop {
    /// The line is not as the format says.
    Bad(Expected),
    /// The engine is not as the rules say.
    Breach(String),
}

impl From<Expected> for Stop {
    fn from(expected: Expected) -> Self {
        Self::Bad(expected)
    }
}

#[derive(Clone, Debug, PartialEq, Eq)]
pub enum Answer<P, K> {
    Done,
    Refused(u32),
    Sent(Option<Message<P, K>>),
    Slip(u32),
    Judged {
        slip: Option<u32>,
        block: Option<P>,
    },
    Order(Vec<P>),
    Value(Option<String>),
    NotLive,
    /// Only in raw mode: the reference's types have no such call.
    NotPossible,
    /// Only in raw mode: the reference made nothing of the call.
    Nothing,
}

impl<P: PeerKind, K: KeyKind> Display for Answer<P, K> {
    fn fmt(&self, f: &mut Formatter<'_>) -> fmt::Result {
        match self {
            Self::Done => f.write_str("done"),
            Self::Refused(number) => write!(f, "refused {number}"),
            Self::Sent(Some(message)) => {
                write!(f, "sent {} {} {}", message.key, message.id, message.peer)
            }
            Self::Sent(None) => f.write_str("sent -"),
            Self::Slip(slip) => write!(f, "slip {slip}"),
            Self::Judged { slip, block } => {
                write!(
                    f,
                    "judged slip={} block={}",
                    trace::or_dash(slip),
                    trace::or_dash(block)
                )
            }
            Self::Order(order) => write!(f, "order {}", trace::list(order)),
            Self::Value(value) => write!(f, "{}", trace::or_dash(value)),
            Self::NotLive => f.write_str("not live"),
            Self::NotPossible => f.write_str("not possible"),
            Self::Nothing => f.write_str("nothing"),
        }
    }
}

/// An outstanding slip.
pub struct Slip<P, K> {
    /// The number of the delivery.
    delivery: u64,
    /// The key that it judges; absent once canceled.
    pub key: Option<K>,
    pub peer: P,
    pub elapsed: u64,
    pub record: Bytes,
    pub accepted: bool,
    pub delivered: Vec<P>,
    verdict: oneshot::Sender<Outcome>,
}

pub struct Session<P: PeerKind, K: KeyKind> {
    pub mode: Mode,
    pub engine: u32,
    pub timeout: u64,
    pub delay: u64,
    pub me: Option<P>,
    pub rows: Rows,
    pub world: World,
    pub link: SharedLink<P, K>,
    pub seen: Seen<P, K, P>,
    pub slips: BTreeMap<u32, Slip<P, K>>,
    pub history: History<P, K>,
    last_slip: Option<u32>,
    running: Running<P, K>,
    /// Whether the engine is looked at after each call.
    watched: bool,
    /// What the last call took inside the reference.
    pub took: Duration,
}

impl<P: PeerKind, K: KeyKind> Session<P, K> {
    /// The engine of a `make` that is not refused.
    pub fn new(make: &Make, mode: Mode) -> Result<Self, Expected> {
        let world = World::new(Source::new(&make.source));
        let link = SharedLink::new(make.link, world.clone());
        let me = own_peer(make)?;
        let timeout = NonZeroDuration::new(Duration::from_nanos(make.timeout))
            .ok_or("a timeout above 0, which is all that the Rust can be given")?;
        let delay = Duration::from_nanos(make.delay);
        let mut running = Running::start(world.clone(), link.clone(), me, timeout, delay);
        Ok(Self {
            mode,
            engine: make.engine,
            timeout: make.timeout,
            delay: make.delay,
            me,
            rows: make.rows,
            world,
            link,
            seen: running.look(),
            slips: BTreeMap::new(),
            history: History::default(),
            last_slip: None,
            running,
            watched: true,
            took: Duration::ZERO,
        })
    }

    /// From now on nothing is judged, checked or looked at: for timing calls that
    /// are known to be good.
    pub fn stop_watching(&mut self) {
        self.watched = false;
    }

    /// Answers a line.
    pub fn step(&mut self, step: &Step<P, K>) -> Result<Answer<P, K>, Stop> {
        match step {
            Step::Call { call, time, engine } => self.call(call, *time, *engine),
            Step::Lane { station, lane } => {
                if self.link.borrow_mut().set_lane(*station, *lane) {
                    Ok(Answer::Done)
                } else {
                    Err(Stop::Bad(
                        "a lane link, and this engine's is an outbox".into(),
                    ))
                }
            }
            Step::SetId(id) => {
                self.running.order(Order::SetId(Some(*id)));
                self.look();
                Ok(Answer::Done)
            }
            Step::SetRetries { key, retries } => {
                if !self.is_live(key) {
                    return Ok(Answer::NotLive);
                }
                self.running.order(Order::SetRetries {
                    key: *key,
                    retries: *retries,
                });
                self.look();
                Ok(Answer::Done)
            }
            Step::Record {
                peer,
                length,
                elapsed,
            } => {
                self.running.order(Order::Record {
                    peer: *peer,
                    elapsed: Duration::from_nanos(*elapsed),
                    length: *length as usize,
                });
                self.look();
                check::shares(self).map_err(Stop::Breach)?;
                Ok(Answer::Done)
            }
            Step::Order(retries) => {
                let order = self.running.draw_order(*retries);
                self.look();
                check::shares(self).map_err(Stop::Breach)?;
                Ok(Answer::Order(order))
            }
            Step::AskWeight(peer) => Ok(Answer::Value(self.weight(peer).map(|w| w.to_string()))),
            Step::AskPlace(key) => Ok(Answer::Value(trace::place(self, key))),
            Step::AskNth(key, n) => Ok(Answer::Value(self.nth(key, *n).map(|s| s.to_string()))),
        }
    }

    fn call(
        &mut self,
        call: &Call<P, K>,
        time: u64,
        engine: Option<u32>,
    ) -> Result<Answer<P, K>, Stop> {
        if self.mode == Mode::Raw {
            self.world.set_now(time);
            let answer = self.make_raw(call);
            self.look();
            return Ok(answer);
        }
        if self.watched
            && let Some(number) = judge::refusal(self, call, time, engine)
        {
            return Ok(Answer::Refused(number));
        }
        self.world.set_now(time);
        let expected = (self.watched && *call == Call::Fetch).then(|| check::expected_send(self));
        let answer = self.make(call);
        if self.watched {
            let before = self.look();
            self.cancel_slips();
            let checks = || {
                check::shares(self)?;
                check::places(self)?;
                match &expected {
                    Some(expected) => check::sent(self, &before, expected, &answer),
                    None => Ok(()),
                }
            };
            checks().map_err(Stop::Breach)?;
        }
        Ok(answer)
    }

    /// Looks at the engine; answers what was seen before.
    fn look(&mut self) -> Seen<P, K, P> {
        let seen = self.running.look();
        std::mem::replace(&mut self.seen, seen)
    }

    fn order(&mut self, order: Order<P, K, P>) -> bool {
        let (done, took) = self.running.order(order);
        self.took = took;
        done
    }

    /// Makes a call that is known to be good.
    fn make(&mut self, call: &Call<P, K>) -> Answer<P, K> {
        match call {
            Call::Reconcile(peers) => {
                self.history.roster.clone_from(peers);
                self.order(Order::Reconcile(peers.clone()));
            }
            Call::SetBlocked(peers) => {
                self.history.blocked.clone_from(peers);
                self.order(Order::SetBlocked(peers.clone()));
            }
            Call::Want {
                key,
                subscribers,
                aim,
            } => self.make_want(*key, subscribers, aim.clone()),
            Call::AddTargets { key, peers } => {
                self.order(Order::AddTargets {
                    key: *key,
                    peers: peers.clone(),
                });
            }
            Call::ClearTargets(key) => {
                self.order(Order::ClearTargets(*key));
            }
            Call::Fetch => return Answer::Sent(self.make_fetch()),
            Call::Expire => {
                self.order(Order::Expire);
            }
            Call::Response {
                id,
                peer,
                length,
                number,
            } => return self.make_response(*id, *peer, Bytes::new(*length as usize, *number)),
            Call::Missing { id, peer } => {
                self.order(Order::Missing {
                    id: *id,
                    peer: *peer,
                });
            }
            Call::Verdict { slip, outcome } => return self.make_verdict(*slip, *outcome),
            Call::Retain(rule) => self.make_retain(*rule),
        }
        Answer::Done
    }

    fn make_want(&mut self, key: K, subscribers: &[P], aim: Option<Vec<P>>) {
        self.history.wanted(key, subscribers);
        let subscribers: Vec<_> = subscribers.iter().map(|s| (*s, tracing::Span)).collect();
        self.order(Order::Want {
            key,
            subscribers: NonEmptyVec::try_from(subscribers).expect("a subscriber"),
            aim,
        });
    }

    fn make_fetch(&mut self) -> Option<Message<P, K>> {
        if self.watched {
            self.pass_over_ids();
        }
        let count = self.link.borrow().count();
        self.order(Order::Fetch);
        let link = self.link.borrow();
        if link.count() == count {
            None
        } else {
            link.latest()
        }
    }

    /// Sets the next id so that the fetch to come passes over ids still out, as the
    /// rules want, where the Rust would take them again.
    ///
    /// Every send takes an id, also one that the link refuses; the ids of refused
    /// sends are seen by nobody. So it is enough to know how many sends there will
    /// be, which a fetch that is only tried out tells.
    fn pass_over_ids(&mut self) {
        /// More sends than any fetch can make: 1,024 keys at 1,024 peers each.
        const MOST_SENDS: u64 = 1024 * 1024;

        let Some(next) = self.seen.fetcher.next_id else {
            return;
        };
        let out: Vec<u64> = self.seen.fetcher.requests.iter().map(|r| r.id).collect();
        let reachable = MOST_SENDS + out.len() as u64;
        if !out.iter().any(|id| id.wrapping_sub(next) <= reachable) {
            return;
        }
        let sends = self.count_sends();
        if sends == 0 {
            return;
        }
        let mut id = next;
        for send in 0..sends {
            id = id.wrapping_add(u64::from(send > 0));
            while out.binary_search(&id).is_ok() {
                id = id.wrapping_add(1);
            }
        }
        self.order(Order::SetId(Some(id.wrapping_sub(sends - 1))));
    }

    fn count_sends(&mut self) -> u64 {
        let source = self.world.source();
        self.link.borrow_mut().start_trial();
        self.order(Order::TryFetch);
        self.world.put_source_back(source);
        self.link.borrow_mut().end_trial()
    }

    fn make_response(&mut self, id: u64, peer: P, record: Bytes) -> Answer<P, K> {
        self.order(Order::Response { id, peer, record });
        match self.take_slip() {
            Some(slip) => Answer::Slip(slip),
            None => Answer::Nothing,
        }
    }

    /// Sends the verdict on its way, has the engine take up that delivery alone, and
    /// sees what came of it.
    fn make_verdict(&mut self, slip: u32, outcome: OutcomeName) -> Answer<P, K> {
        let Slip {
            delivery,
            key,
            accepted,
            delivered,
            verdict,
            ..
        } = self.slips.remove(&slip).expect("an outstanding slip");
        if let Some(key) = key {
            self.history.judged(&key, &delivered, accepted, outcome);
        }
        send_verdict(verdict, outcome);
        poll_only(Some(delivery));
        self.order(Order::Verdict);
        poll_only(None);
        self.judged()
    }

    /// The new slip and the peer to block, each if any.
    fn judged(&mut self) -> Answer<P, K> {
        Answer::Judged {
            slip: self.take_slip(),
            block: self.running.take_named(),
        }
    }

    fn make_retain(&mut self, rule: Rule<P>) {
        self.history.retained(&rule);
        self.order(Order::Retain(Box::new(move |key, subscriber| {
            rule.keeps(key, subscriber)
        })));
    }

    /// A slip whose key is no longer in flight judges no key.
    fn cancel_slips(&mut self) {
        for slip in self.slips.values_mut() {
            if let Some(key) = &slip.key
                && self.seen.inflight.binary_search(key).is_err()
            {
                slip.key = None;
                slip.delivered.clear();
            }
        }
    }

    /// Numbers the delivery that the last order started, if any.
    fn take_slip(&mut self) -> Option<u32> {
        let handed = self.running.take_handed()?;
        let number = self.next_slip();
        let Handed {
            number: delivery,
            key,
            subscribers,
            record,
            verdict,
            peer,
            elapsed,
            accepted,
        } = handed;
        let slip = Slip {
            delivery,
            key: Some(key),
            peer,
            elapsed,
            record,
            accepted,
            delivered: subscribers,
            verdict,
        };
        self.slips.insert(number, slip);
        self.last_slip = Some(number);
        Some(number)
    }

    /// The next after the last given, 0 following the last row, passing over those
    /// outstanding. Left alone there are no rows, and so no end.
    fn next_slip(&self) -> u32 {
        let rows = match self.mode {
            Mode::Rules => self.rows.slips as u32,
            Mode::Raw => u32::MAX,
        };
        let mut slip = self.last_slip.map_or(0, |last| (last + 1) % rows);
        while self.slips.contains_key(&slip) {
            slip = (slip + 1) % rows;
        }
        slip
    }

    /// Makes a call as the Rust left alone takes it.
    fn make_raw(&mut self, call: &Call<P, K>) -> Answer<P, K> {
        let answer = match call {
            Call::Reconcile(peers) => {
                self.running.publish_roster(peers.clone());
                Answer::Done
            }
            Call::SetBlocked(peers) => {
                self.running.publish_blocked(peers.clone());
                Answer::Done
            }
            Call::Want {
                key,
                subscribers,
                aim,
            } => {
                let aim = aim.clone().map(NonEmptyVec::try_from).transpose();
                match aim {
                    Ok(aim) if !subscribers.is_empty() => {
                        self.running.post_want(*key, subscribers, aim);
                        Answer::Done
                    }
                    _ => Answer::NotPossible,
                }
            }
            Call::Retain(rule) => {
                let rule = *rule;
                self.running
                    .post_retain(move |key, subscriber| rule.keeps(key, subscriber));
                Answer::Done
            }
            Call::Verdict { slip, outcome } => match self.slips.remove(slip) {
                Some(slip) => {
                    send_verdict(slip.verdict, *outcome);
                    self.running.turn();
                    self.judged()
                }
                None => Answer::Nothing,
            },
            Call::Fetch => {
                let count = self.link.borrow().count();
                self.order(Order::Fetch);
                let link = self.link.borrow();
                Answer::Sent(link.latest().filter(|_| link.count() != count))
            }
            Call::Expire => match self.order(Order::Expire) {
                true => Answer::Done,
                false => Answer::Nothing,
            },
            Call::Missing { id, peer } if judge::no_request(self, *id, peer).is_some() => {
                self.make(call);
                Answer::Nothing
            }
            other => self.make(other),
        };
        self.running.turn();
        self.slips.retain(|_, slip| !slip.verdict.is_closed());
        answer
    }

    pub fn is_live(&self, key: &K) -> bool {
        self.waits(key).is_some()
    }

    /// Those who wait for a key, if it is live.
    pub fn waits(&self, key: &K) -> Option<&[P]> {
        let place = self
            .seen
            .waits
            .binary_search_by_key(key, |(key, _)| *key)
            .ok()?;
        Some(&self.seen.waits[place].1)
    }

    /// A key's target set, if it has one.
    pub fn targets(&self, key: &K) -> Option<&[P]> {
        let targets = &self.seen.fetcher.targets;
        let place = targets.binary_search_by_key(key, |(key, _)| *key).ok()?;
        Some(&targets[place].1)
    }

    pub fn retries(&self, key: &K) -> u32 {
        let retries = &self.seen.fetcher.retries;
        retries
            .binary_search_by_key(key, |(key, _)| *key)
            .map_or(0, |place| retries[place].1)
    }

    /// The slip under which a key is judged.
    pub fn running_slip(&self, key: &K) -> Option<(u32, &Slip<P, K>)> {
        self.slips
            .iter()
            .find(|(_, slip)| slip.key.as_ref() == Some(key))
            .map(|(number, slip)| (*number, slip))
    }

    /// Whether a subscriber waits for a key or belongs to its running delivery.
    pub fn has_pair(&self, key: &K, subscriber: &P) -> bool {
        let waits = self
            .waits(key)
            .is_some_and(|waits| waits.contains(subscriber));
        waits
            || self
                .running_slip(key)
                .is_some_and(|(_, slip)| slip.delivered.contains(subscriber))
    }

    pub fn waiting_pairs(&self) -> u64 {
        let waits: usize = self.seen.waits.iter().map(|(_, waits)| waits.len()).sum();
        let left = self.slips.values().map(|slip| {
            let waits = slip
                .key
                .as_ref()
                .and_then(|key| self.waits(key))
                .unwrap_or(&[]);
            let gone = slip
                .delivered
                .iter()
                .filter(|s| waits.binary_search(s).is_err());
            gone.count()
        });
        (waits + left.sum::<usize>()) as u64
    }

    pub fn target_pairs(&self) -> u64 {
        let targets = self.seen.fetcher.targets.iter();
        targets.map(|(_, peers)| peers.len() as u64).sum()
    }

    pub fn weight(&self, peer: &P) -> Option<u64> {
        let roster = &self.seen.fetcher.roster;
        let place = roster.binary_search_by_key(peer, |row| row.peer).ok()?;
        Some(roster[place].share)
    }

    fn nth(&self, key: &K, n: u64) -> Option<P> {
        let (_, slip) = self.running_slip(key)?;
        slip.delivered.get(usize::try_from(n).ok()?).copied()
    }
}

/// Sends an outcome, or lets the sender go for `none`.
fn send_verdict(verdict: oneshot::Sender<Outcome>, outcome: OutcomeName) {
    let outcome = match outcome {
        OutcomeName::Complete => Outcome::Resolved(Resolution::Complete),
        OutcomeName::Partial => Outcome::Resolved(Resolution::Partial),
        OutcomeName::Unresolved => Outcome::Unresolved,
        OutcomeName::Invalid => Outcome::Invalid,
        OutcomeName::Ignored => Outcome::Ignored,
        OutcomeName::None => return,
    };
    // Left alone, nobody may listen any more; then the verdict is lost.
    let _ = verdict.send(outcome);
}
