//! The two links.
//!
//! At a time a link has a word for each peer: take, closed, or wait until a later
//! time. `check` answers a wait with its time, otherwise with a pass; `send` uses
//! the pass up. At take the message is accepted, otherwise it is refused and
//! nothing changes.

use crate::{
    context::World,
    kinds::{KeyKind, PeerKind, write_hex},
};
use commonware_actor::{Feedback, Unreliable};
use commonware_p2p::{CheckedSender, Recipients, Sender};
use std::{
    cell::{Ref, RefCell, RefMut},
    collections::BTreeMap,
    fmt::{self, Display, Formatter, Write as _},
    rc::Rc,
    time::{Duration, SystemTime, UNIX_EPOCH},
};

/// A link as a script names it.
#[derive(Clone, Copy, Debug, PartialEq, Eq)]
pub enum LinkName {
    /// The lane link with its spacing.
    Lane(u64),
    /// The outbox link with its room in bytes.
    Outbox(u64),
}

impl Display for LinkName {
    fn fmt(&self, f: &mut Formatter<'_>) -> fmt::Result {
        match self {
            Self::Lane(spacing) => write!(f, "lane:{spacing}"),
            Self::Outbox(bytes) => write!(f, "outbox:{bytes}"),
        }
    }
}

/// What a link says for a peer at a time.
#[derive(Clone, Copy, Debug, PartialEq, Eq)]
pub enum Word {
    Take,
    Closed,
    Wait(u64),
}

/// A lane is closed, or free from a time on.
#[derive(Clone, Copy, Debug, PartialEq, Eq)]
pub enum Lane {
    Closed,
    FreeAt(u64),
}

impl Display for Lane {
    fn fmt(&self, f: &mut Formatter<'_>) -> fmt::Result {
        match self {
            Self::Closed => f.write_str("closed"),
            Self::FreeAt(time) => write!(f, "{time}"),
        }
    }
}

#[derive(Clone, Debug)]
enum State {
    Lanes {
        spacing: u64,
        /// Lanes that were ever sent on or set; any other is free from 0 on.
        lanes: BTreeMap<u32, Lane>,
    },
    Outbox {
        room: u64,
        bytes: Vec<u8>,
    },
}

/// The lane link serves the stations below this.
pub const LANES: u32 = 256;

/// The bytes of a field before its content: the tag, and a length of two bytes.
const HEAD: usize = 3;

/// A message that a link took.
#[derive(Clone, Copy, Debug, PartialEq, Eq)]
pub struct Message<P, K> {
    pub id: u64,
    pub peer: P,
    pub key: K,
}

/// A link with what it took so far.
#[derive(Clone, Debug)]
pub struct Link<P, K> {
    state: State,
    count: u64,
    latest: Option<Message<P, K>>,
    trial: Option<Trial>,
}

/// A fetch that is only tried out: everything is refused, and the sends are
/// counted up to the one that would have been accepted.
#[derive(Clone, Copy, Debug, Default)]
struct Trial {
    sends: u64,
    accepted: bool,
}

impl<P: PeerKind, K: KeyKind> Link<P, K> {
    pub fn new(name: LinkName) -> Self {
        let state = match name {
            LinkName::Lane(spacing) => State::Lanes {
                spacing,
                lanes: BTreeMap::new(),
            },
            LinkName::Outbox(room) => State::Outbox {
                room,
                bytes: Vec::new(),
            },
        };
        Self {
            state,
            count: 0,
            latest: None,
            trial: None,
        }
    }

    pub fn count(&self) -> u64 {
        self.count
    }

    pub fn latest(&self) -> Option<Message<P, K>> {
        self.latest
    }

    /// The word for a peer. The outbox says the same for all: its frames are of
    /// one length.
    pub fn word(&self, peer: &P, now: u64) -> Word {
        match &self.state {
            State::Lanes { lanes, .. } => {
                let Some(station) = peer.station().filter(|station| *station < LANES) else {
                    return Word::Closed;
                };
                match lanes.get(&station).copied().unwrap_or(Lane::FreeAt(0)) {
                    Lane::Closed => Word::Closed,
                    Lane::FreeAt(time) if time > now => Word::Wait(time),
                    Lane::FreeAt(_) => Word::Take,
                }
            }
            State::Outbox { room, bytes } => {
                let frame = (HEAD + 8) + (HEAD + P::WIDTH) + (HEAD + K::WIDTH);
                if (bytes.len() + frame) as u64 <= *room {
                    Word::Take
                } else {
                    Word::Closed
                }
            }
        }
    }

    fn send(&mut self, message: Message<P, K>, now: u64) -> Unreliable {
        let take = self.word(&message.peer, now) == Word::Take;
        if let Some(trial) = &mut self.trial {
            if !trial.accepted {
                trial.sends += 1;
                trial.accepted = take;
            }
            return Unreliable::Rejected;
        }
        if !take {
            return Unreliable::Outcome(Feedback::Closed);
        }
        match &mut self.state {
            State::Lanes { spacing, lanes } => {
                let station = message.peer.station().expect("a lane's station");
                lanes.insert(station, Lane::FreeAt(now + *spacing));
            }
            State::Outbox { bytes, .. } => {
                append(bytes, 1, &message.id.to_be_bytes());
                append(bytes, 2, &message.peer.form());
                append(bytes, 3, &message.key.form());
            }
        }
        self.count = self.count.wrapping_add(1);
        self.latest = Some(message);
        Unreliable::Outcome(Feedback::Ok)
    }

    /// From now on everything is refused and counted.
    pub fn start_trial(&mut self) {
        self.trial = Some(Trial::default());
    }

    /// Ends a trial: the number of sends, up to and with the one that would have
    /// been accepted.
    pub fn end_trial(&mut self) -> u64 {
        self.trial.take().expect("a trial").sends
    }

    /// The lane link's owner sets a lane. Says whether this is a lane link.
    pub fn set_lane(&mut self, station: u32, lane: Lane) -> bool {
        match &mut self.state {
            State::Lanes { lanes, .. } => {
                lanes.insert(station, lane);
                true
            }
            State::Outbox { .. } => false,
        }
    }

    /// The rest of the trace's `link` line.
    pub fn write_state(&self, out: &mut String) {
        match &self.state {
            State::Lanes { lanes, .. } => {
                let lanes: Vec<String> = lanes
                    .iter()
                    .map(|(station, lane)| format!("{station}:{lane}"))
                    .collect();
                out.push_str("lanes=");
                out.push_str(if lanes.is_empty() { "-" } else { "" });
                out.push_str(&lanes.join(","));
            }
            State::Outbox { bytes, .. } => {
                write!(out, "outbox={}:", bytes.len()).unwrap();
                write_hex(out, bytes).unwrap();
            }
        }
    }
}

/// Appends a tagged field.
fn append(bytes: &mut Vec<u8>, tag: u8, content: &[u8]) {
    let length = u16::try_from(content.len()).expect("a short field");
    bytes.push(tag);
    bytes.extend(length.to_be_bytes());
    bytes.extend(content);
}

/// A link that the driver keeps while the engine sends on it.
pub struct SharedLink<P, K> {
    link: Rc<RefCell<Link<P, K>>>,
    world: World,
}

impl<P: PeerKind, K: KeyKind> SharedLink<P, K> {
    pub fn new(name: LinkName, world: World) -> Self {
        Self {
            link: Rc::new(RefCell::new(Link::new(name))),
            world,
        }
    }

    pub fn borrow(&self) -> Ref<'_, Link<P, K>> {
        self.link.borrow()
    }

    pub fn borrow_mut(&self) -> RefMut<'_, Link<P, K>> {
        self.link.borrow_mut()
    }
}

impl<P, K> Clone for SharedLink<P, K> {
    fn clone(&self) -> Self {
        Self {
            link: self.link.clone(),
            world: self.world.clone(),
        }
    }
}

/// A pass for one message to a peer at a time.
pub struct Pass<'a, P, K> {
    link: &'a mut SharedLink<P, K>,
    peer: P,
    time: u64,
}

impl<P: PeerKind, K: KeyKind> Sender for SharedLink<P, K> {
    type PublicKey = P;
    type Checked<'a> = Pass<'a, P, K>;

    fn check(&mut self, recipients: Recipients<P>) -> Result<Pass<'_, P, K>, SystemTime> {
        let Recipients::One(peer) = recipients;
        let time = self.world.now();
        let word = self.borrow().word(&peer, time);
        match word {
            Word::Wait(until) => Err(UNIX_EPOCH + Duration::from_nanos(until)),
            Word::Take | Word::Closed => Ok(Pass {
                link: self,
                peer,
                time,
            }),
        }
    }
}

impl<P: PeerKind, K: KeyKind> CheckedSender for Pass<'_, P, K> {
    /// Reads the request that the reference has written out: eight bytes of id, a
    /// zero, the key's form.
    fn send(self, message: &[u8], _priority: bool) -> Unreliable {
        let (id, rest) = message.split_at(8);
        assert_eq!(rest[0], 0, "only requests are sent");
        let message = Message {
            id: u64::from_be_bytes(id.try_into().unwrap()),
            peer: self.peer,
            key: K::from_form(&rest[1..]).expect("a key's form"),
        };
        self.link.borrow_mut().send(message, self.time)
    }
}
