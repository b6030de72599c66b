//! Reading a script, one line at a time. Nothing is guessed: a line that is not
//! exactly as the format says is an error with what was expected.

use crate::{
    kinds::{KeyKind, Kind, PeerKind, decimal},
    link::{LANES, Lane, LinkName},
    source::SourceName,
};
use std::fmt::Write as _;

/// What was expected in a bad line.
pub type Expected = String;

/// A line's words, without its comment.
pub fn words(line: &str) -> Vec<&str> {
    let content = line.split('#').next().unwrap_or("");
    content.split_ascii_whitespace().collect()
}

/// The six tables in the order of `rows=`.
#[derive(Clone, Copy, Debug, PartialEq, Eq)]
pub struct Rows {
    pub roster: u64,
    pub blocked: u64,
    pub live: u64,
    pub waiting: u64,
    pub targets: u64,
    pub slips: u64,
}

impl Rows {
    /// The most that each may have, which is also what a script gets by default.
    pub const MOST: Self = Self::of([1024, 1024, 1024, 4096, 4096, 2048]);

    pub const fn of(rows: [u64; 6]) -> Self {
        let [roster, blocked, live, waiting, targets, slips] = rows;
        Self {
            roster,
            blocked,
            live,
            waiting,
            targets,
            slips,
        }
    }

    pub const fn all(&self) -> [u64; 6] {
        [
            self.roster,
            self.blocked,
            self.live,
            self.waiting,
            self.targets,
            self.slips,
        ]
    }
}

#[derive(Clone, Copy, Debug, PartialEq, Eq)]
pub enum Level {
    SingleHouse,
    Circuit,
    Festival,
}

impl Level {
    pub const fn name(self) -> &'static str {
        match self {
            Self::SingleHouse => "single-house",
            Self::Circuit => "circuit",
            Self::Festival => "festival",
        }
    }
}

#[derive(Clone, Copy, Debug, PartialEq, Eq)]
pub enum RatingName {
    Score,
    Flat,
}

impl RatingName {
    pub const fn name(self) -> &'static str {
        match self {
            Self::Score => "score",
            Self::Flat => "flat",
        }
    }
}

/// A `make` line.
#[derive(Clone, Debug, PartialEq, Eq)]
pub struct Make {
    pub engine: u32,
    pub timeout: u64,
    pub delay: u64,
    /// The own peer as it is written; its kind depends on the level.
    pub me: Option<String>,
    pub rows: Rows,
    pub link: LinkName,
    pub source: SourceName,
    pub level: Option<Level>,
    pub rating: Option<RatingName>,
}

/// Timeout, delay and spacing end here.
pub const LONGEST: u64 = 3_600_000_000_000;

impl Make {
    /// Reads the words after `make`, in any order.
    pub fn parse(words: &[&str]) -> Result<Self, Expected> {
        let mut options = Options::default();
        for word in words {
            let (name, value) = word
                .split_once('=')
                .ok_or_else(|| format!("name=value, not `{word}`"))?;
            options.put(name, value)?;
        }
        options.finish()
    }

    /// Whether peers are public keys and keys digests.
    pub fn has_public_keys(&self) -> bool {
        matches!(self.level, Some(Level::Circuit | Level::Festival))
    }

    /// The rating: as named, else the level's, else `score`.
    pub fn rating(&self) -> RatingName {
        self.rating.unwrap_or(match self.level {
            Some(Level::SingleHouse) => RatingName::Flat,
            _ => RatingName::Score,
        })
    }

    /// The number that refuses this make, if any.
    pub fn refusal(&self) -> Option<u32> {
        let spacing = match self.link {
            LinkName::Lane(spacing) => spacing,
            LinkName::Outbox(_) => 0,
        };
        let times =
            (1..=LONGEST).contains(&self.timeout) && self.delay <= LONGEST && spacing <= LONGEST;
        let rows = self.rows.all().into_iter().zip(Rows::MOST.all());
        let rows = rows
            .into_iter()
            .all(|(rows, most)| (1..=most).contains(&rows));
        match (times, rows) {
            (false, _) => Some(1),
            (true, false) => Some(2),
            (true, true) => None,
        }
    }

    /// The line without the options that have their default.
    pub fn short_form(&self) -> String {
        let mut line = format!(
            "make timeout={} delay={} link={} source={}",
            self.timeout, self.delay, self.link, self.source
        );
        if let Some(me) = &self.me {
            write!(line, " me={me}").unwrap();
        }
        if self.rows != Rows::MOST {
            let rows: Vec<String> = self.rows.all().iter().map(u64::to_string).collect();
            write!(line, " rows={}", rows.join(",")).unwrap();
        }
        if self.engine != 1 {
            write!(line, " engine={}", self.engine).unwrap();
        }
        self.write_level(&mut line);
        line
    }

    /// The line in its full form.
    pub fn full_form(&self) -> String {
        let rows: Vec<String> = self.rows.all().iter().map(u64::to_string).collect();
        let mut line = format!(
            "make engine={} timeout={} delay={} me={} rows={} link={} source={}",
            self.engine,
            self.timeout,
            self.delay,
            self.me.as_deref().unwrap_or("-"),
            rows.join(","),
            self.link,
            self.source
        );
        self.write_level(&mut line);
        line
    }

    fn write_level(&self, line: &mut String) {
        if let Some(level) = self.level {
            write!(line, " level={}", level.name()).unwrap();
        }
        if let Some(rating) = self.rating {
            write!(line, " rating={}", rating.name()).unwrap();
        }
    }
}

/// The options of a `make` line as they come.
#[derive(Default)]
struct Options {
    engine: Option<u32>,
    timeout: Option<u64>,
    delay: Option<u64>,
    me: Option<String>,
    rows: Option<Rows>,
    link: Option<LinkName>,
    source: Option<SourceName>,
    level: Option<Level>,
    rating: Option<RatingName>,
}

/// Fills an option that must not be there twice.
fn once<T>(option: &mut Option<T>, name: &str, value: T) -> Result<(), Expected> {
    match option.replace(value) {
        None => Ok(()),
        Some(_) => Err(format!("{name}= only once")),
    }
}

impl Options {
    fn put(&mut self, name: &str, value: &str) -> Result<(), Expected> {
        match name {
            "engine" => once(
                &mut self.engine,
                name,
                number(value, "a 32-bit engine number")?,
            ),
            "timeout" => once(
                &mut self.timeout,
                name,
                number(value, "a timeout in nanoseconds")?,
            ),
            "delay" => once(
                &mut self.delay,
                name,
                number(value, "a delay in nanoseconds")?,
            ),
            "me" => once(&mut self.me, name, value.to_string()),
            "rows" => once(&mut self.rows, name, parse_rows(value)?),
            "link" => once(&mut self.link, name, parse_link(value)?),
            "source" => once(&mut self.source, name, parse_source(value)?),
            "level" => once(&mut self.level, name, parse_level(value)?),
            "rating" => once(&mut self.rating, name, parse_rating(value)?),
            _ => Err(format!(
                "timeout, delay, link, source, me, rows, engine, level or rating, not `{name}`"
            )),
        }
    }

    fn finish(self) -> Result<Make, Expected> {
        let missing = |name: &str| format!("{name}=");
        let make = Make {
            engine: self.engine.unwrap_or(1),
            timeout: self.timeout.ok_or_else(|| missing("timeout"))?,
            delay: self.delay.ok_or_else(|| missing("delay"))?,
            me: self.me.filter(|me| me != "-"),
            rows: self.rows.unwrap_or(Rows::MOST),
            link: self.link.ok_or_else(|| missing("link"))?,
            source: self.source.ok_or_else(|| missing("source"))?,
            level: self.level,
            rating: self.rating,
        };
        if make.has_public_keys() && matches!(make.link, LinkName::Lane(_)) {
            return Err("link=outbox:BYTES, because lanes are for numbered stations".into());
        }
        Ok(make)
    }
}

fn parse_rows(value: &str) -> Result<Rows, Expected> {
    let expected = || "six numbers of rows: roster,blocked,live,waiting,targets,slips".to_string();
    let rows: Option<Vec<u64>> = value.split(',').map(decimal).collect();
    let rows: [u64; 6] = rows
        .and_then(|rows| rows.try_into().ok())
        .ok_or_else(expected)?;
    Ok(Rows::of(rows))
}

fn parse_link(value: &str) -> Result<LinkName, Expected> {
    match value.split_once(':') {
        Some(("lane", spacing)) => Ok(LinkName::Lane(number(spacing, "a spacing in nanoseconds")?)),
        Some(("outbox", bytes)) => Ok(LinkName::Outbox(number(bytes, "a number of bytes")?)),
        _ => Err("lane:SPACING or outbox:BYTES".into()),
    }
}

fn parse_source(value: &str) -> Result<SourceName, Expected> {
    match value.split_once(':') {
        Some(("list", "")) => Ok(SourceName::List(Vec::new())),
        Some(("list", words)) => words
            .split(',')
            .map(|word| number(word, "a 64-bit word"))
            .collect::<Result<_, _>>()
            .map(SourceName::List),
        Some(("xorshift", seed)) => Ok(SourceName::Xorshift(number(seed, "a 64-bit seed")?)),
        _ => Err("list:w,w,w or xorshift:SEED".into()),
    }
}

fn parse_level(value: &str) -> Result<Level, Expected> {
    [Level::SingleHouse, Level::Circuit, Level::Festival]
        .into_iter()
        .find(|level| level.name() == value)
        .ok_or_else(|| "single-house, circuit or festival".into())
}

fn parse_rating(value: &str) -> Result<RatingName, Expected> {
    [RatingName::Score, RatingName::Flat]
        .into_iter()
        .find(|rating| rating.name() == value)
        .ok_or_else(|| "score or flat".into())
}

/// Which pairs of key and subscriber a `retain` takes away.
#[derive(Clone, Copy, Debug, PartialEq, Eq)]
pub enum Rule<P> {
    /// One subscriber is gone.
    Gone(P),
    /// One performance is over.
    Over(u32),
}

impl<P: PeerKind> Rule<P> {
    pub fn keeps<K: KeyKind>(&self, key: &K, subscriber: &P) -> bool {
        match self {
            Self::Gone(gone) => subscriber != gone,
            Self::Over(over) => key.performance() != Some(*over),
        }
    }
}

#[derive(Clone, Copy, Debug, PartialEq, Eq, PartialOrd, Ord)]
pub enum OutcomeName {
    Complete,
    Partial,
    Unresolved,
    Invalid,
    Ignored,
    None,
}

impl OutcomeName {
    pub const ALL: [Self; 6] = [
        Self::Complete,
        Self::Partial,
        Self::Unresolved,
        Self::Invalid,
        Self::Ignored,
        Self::None,
    ];

    pub const fn name(self) -> &'static str {
        match self {
            Self::Complete => "complete",
            Self::Partial => "partial",
            Self::Unresolved => "unresolved",
            Self::Invalid => "invalid",
            Self::Ignored => "ignored",
            Self::None => "none",
        }
    }
}

/// One of the eleven calls.
#[derive(Clone, Debug, PartialEq, Eq)]
pub enum Call<P, K> {
    Reconcile(Vec<P>),
    SetBlocked(Vec<P>),
    Want {
        key: K,
        subscribers: Vec<P>,
        aim: Option<Vec<P>>,
    },
    AddTargets {
        key: K,
        peers: Vec<P>,
    },
    ClearTargets(K),
    Fetch,
    Expire,
    Response {
        id: u64,
        peer: P,
        length: u64,
        number: u32,
    },
    Missing {
        id: u64,
        peer: P,
    },
    Verdict {
        slip: u32,
        outcome: OutcomeName,
    },
    Retain(Rule<P>),
}

/// The names of the eleven calls in a script.
pub const CALLS: [&str; 11] = [
    "reconcile",
    "set_blocked",
    "want",
    "add_targets",
    "clear_targets",
    "fetch",
    "expire",
    "response",
    "missing",
    "verdict",
    "retain",
];

impl<P, K> Call<P, K> {
    pub const fn name(&self) -> &'static str {
        match self {
            Self::Reconcile(_) => CALLS[0],
            Self::SetBlocked(_) => CALLS[1],
            Self::Want { .. } => CALLS[2],
            Self::AddTargets { .. } => CALLS[3],
            Self::ClearTargets(_) => CALLS[4],
            Self::Fetch => CALLS[5],
            Self::Expire => CALLS[6],
            Self::Response { .. } => CALLS[7],
            Self::Missing { .. } => CALLS[8],
            Self::Verdict { .. } => CALLS[9],
            Self::Retain(_) => CALLS[10],
        }
    }
}

/// Any line but `make`.
#[derive(Clone, Debug, PartialEq, Eq)]
pub enum Step<P, K> {
    Call {
        call: Call<P, K>,
        time: u64,
        /// The engine number that a part is handed in with, if not the engine's own.
        engine: Option<u32>,
    },
    Lane {
        station: u32,
        lane: Lane,
    },
    SetId(u64),
    SetRetries {
        key: K,
        retries: u32,
    },
    /// For rehearsals: a reply of this length and time is credited to a peer.
    Record {
        peer: P,
        length: u64,
        elapsed: u64,
    },
    /// For rehearsals: draws over the whole roster after so many retries.
    Order(u32),
    AskWeight(P),
    AskPlace(K),
    AskNth(K, u64),
}

impl<P: PeerKind, K: KeyKind> Step<P, K> {
    pub fn parse(words: &[&str]) -> Result<Self, Expected> {
        let (engine, words) = match words.split_last() {
            Some((last, rest)) if last.starts_with('@') => (
                Some(number(&last[1..], "a 32-bit engine number after @")?),
                rest,
            ),
            _ => (None, words),
        };
        let (name, rest) = words.split_first().ok_or("a call before @")?;
        if CALLS.contains(name) {
            let (time, call) = parse_call(name, rest)?;
            return Ok(Self::Call { call, time, engine });
        }
        if engine.is_some() {
            return Err("one of the eleven calls before @".into());
        }
        match (*name, rest) {
            ("lane", [station, lane]) => Ok(Self::Lane {
                station: parse_station(station)?,
                lane: parse_lane(lane)?,
            }),
            ("setid", [id]) => Ok(Self::SetId(number(id, "a 64-bit id")?)),
            ("setretries", [key, retries]) => Ok(Self::SetRetries {
                key: kind(key)?,
                retries: number(retries, "a 32-bit number of retries")?,
            }),
            ("record", [peer, length, elapsed]) => Ok(Self::Record {
                peer: kind(peer)?,
                length: number(length, "a length in bytes")?,
                elapsed: number(elapsed, "a time in nanoseconds")?,
            }),
            ("order", [retries]) => Ok(Self::Order(number(retries, "a 32-bit number of retries")?)),
            ("ask", ["weight", peer]) => Ok(Self::AskWeight(kind(peer)?)),
            ("ask", ["place", key]) => Ok(Self::AskPlace(kind(key)?)),
            ("ask", ["nth", key, n]) => Ok(Self::AskNth(kind(key)?, number(n, "a number")?)),
            ("lane", _) => Err("lane STATION closed, or lane STATION TIME".into()),
            ("setid", _) => Err("setid N".into()),
            ("setretries", _) => Err("setretries KEY N".into()),
            ("record", _) => Err("record PEER LENGTH ELAPSED".into()),
            ("order", _) => Err("order RETRIES".into()),
            ("ask", _) => Err("ask weight PEER, ask place KEY or ask nth KEY N".into()),
            _ => Err(format!(
                "make, one of the calls {}, or lane, setid, setretries, record, order or ask, not `{name}`",
                CALLS.join(", ")
            )),
        }
    }
}

/// How each call is written, by its name.
fn usage(name: &str) -> &'static str {
    match name {
        "reconcile" => "reconcile TIME LIST",
        "set_blocked" => "set_blocked TIME LIST",
        "want" => "want TIME KEY SUBSCRIBERS [aim=LIST]",
        "add_targets" => "add_targets TIME KEY LIST",
        "clear_targets" => "clear_targets TIME KEY",
        "fetch" => "fetch TIME",
        "expire" => "expire TIME",
        "response" => "response TIME ID PEER LENGTH NUMBER",
        "missing" => "missing TIME ID PEER",
        "verdict" => "verdict TIME SLIP OUTCOME",
        _ => "retain TIME gone=SUBSCRIBER, or retain TIME over=PERFORMANCE",
    }
}

/// Reads the words after a call's name: its time and what it is handed.
fn parse_call<P: PeerKind, K: KeyKind>(
    name: &str,
    words: &[&str],
) -> Result<(u64, Call<P, K>), Expected> {
    let (time, rest) = words.split_first().ok_or_else(|| usage(name).to_string())?;
    let time = number(time, "a time in nanoseconds")?;
    let call = match (name, rest) {
        ("reconcile", [peers]) => Call::Reconcile(list(peers)?),
        ("set_blocked", [peers]) => Call::SetBlocked(list(peers)?),
        ("want", [key, subscribers]) => Call::Want {
            key: kind(key)?,
            subscribers: list(subscribers)?,
            aim: None,
        },
        ("want", [key, subscribers, aim]) => Call::Want {
            key: kind(key)?,
            subscribers: list(subscribers)?,
            aim: Some(list(aim.strip_prefix("aim=").ok_or("aim=LIST")?)?),
        },
        ("add_targets", [key, peers]) => Call::AddTargets {
            key: kind(key)?,
            peers: list(peers)?,
        },
        ("clear_targets", [key]) => Call::ClearTargets(kind(key)?),
        ("fetch", []) => Call::Fetch,
        ("expire", []) => Call::Expire,
        ("response", [id, peer, length, bytes]) => Call::Response {
            id: number(id, "a 64-bit id")?,
            peer: kind(peer)?,
            length: number(length, "a length in bytes")?,
            number: number(bytes, "a 32-bit number for the bytes")?,
        },
        ("missing", [id, peer]) => Call::Missing {
            id: number(id, "a 64-bit id")?,
            peer: kind(peer)?,
        },
        ("verdict", [slip, outcome]) => Call::Verdict {
            slip: number(slip, "a slip number")?,
            outcome: parse_outcome(outcome)?,
        },
        ("retain", [rule]) => Call::Retain(parse_rule::<P, K>(rule)?),
        _ => return Err(usage(name).into()),
    };
    Ok((time, call))
}

fn parse_outcome(word: &str) -> Result<OutcomeName, Expected> {
    OutcomeName::ALL
        .into_iter()
        .find(|outcome| outcome.name() == word)
        .ok_or_else(|| "complete, partial, unresolved, invalid, ignored or none".into())
}

fn parse_rule<P: PeerKind, K: KeyKind>(word: &str) -> Result<Rule<P>, Expected> {
    match word.split_once('=') {
        Some(("gone", subscriber)) => Ok(Rule::Gone(kind(subscriber)?)),
        Some(("over", performance)) if K::HAS_PERFORMANCE => Ok(Rule::Over(number(
            performance,
            "a 32-bit performance number",
        )?)),
        _ if K::HAS_PERFORMANCE => Err("gone=SUBSCRIBER or over=PERFORMANCE".into()),
        _ => Err("gone=SUBSCRIBER, because digests belong to no performance".into()),
    }
}

fn parse_station(word: &str) -> Result<u32, Expected> {
    decimal(word)
        .filter(|station| *station < LANES)
        .ok_or_else(|| "a station from 0 to 255".into())
}

fn parse_lane(word: &str) -> Result<Lane, Expected> {
    if word == "closed" {
        return Ok(Lane::Closed);
    }
    decimal(word)
        .filter(|time| *time < 1 << 63)
        .map(Lane::FreeAt)
        .ok_or_else(|| "closed, or a time below 2^63".into())
}

fn number<T: std::str::FromStr>(word: &str, expected: &str) -> Result<T, Expected> {
    decimal(word).ok_or_else(|| format!("{expected}, not `{word}`"))
}

fn kind<T: Kind>(word: &str) -> Result<T, Expected> {
    T::parse(word).ok_or_else(|| format!("{}, not `{word}`", T::NAME))
}

fn list<T: Kind>(word: &str) -> Result<Vec<T>, Expected> {
    if word == "-" {
        return Ok(Vec::new());
    }
    word.split(',').map(kind).collect()
}

/// An own peer as `make` has it.
pub fn own_peer<P: PeerKind>(make: &Make) -> Result<Option<P>, Expected> {
    make.me.as_deref().map(kind).transpose()
}
