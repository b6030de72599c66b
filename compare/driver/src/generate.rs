//! Random scripts.
//!
//! The generator keeps an engine of its own at hand and makes each line's call as
//! it writes it, so that it knows which keys are live, which ids are out and which
//! slips are outstanding. Most lines mean something then; the others are wrong on
//! purpose, each in one of the ways that the refusals are for.

use crate::{
    judge::{LAST_TIME, LONGEST_RECORD},
    kinds::{Digest, KeyKind, Kind, PeerKind, PublicKey, Seat, Station},
    link::LinkName,
    random::Random,
    script::{self, CALLS, LONGEST, Level, Make, OutcomeName, Rows, Step},
    session::{Mode, Session},
    source::SourceName,
};

/// What a script may contain besides `make`: the eleven calls and these.
pub const EXTRAS: [&str; 7] = [
    "lane",
    "setid",
    "setretries",
    "ask",
    "remake",
    "level",
    "outbox",
];

/// What a script contains only if it is named: lines for rehearsals of the roster
/// and the draw by themselves.
pub const ONLY_NAMED: [&str; 2] = ["record", "order"];

/// Which lines a script may contain.
#[derive(Clone, Debug)]
pub struct Lines(Vec<&'static str>);

impl Lines {
    pub fn all() -> Self {
        Self(CALLS.into_iter().chain(EXTRAS).collect())
    }

    /// Names with commas between them.
    pub fn parse(names: &str) -> Result<Self, String> {
        let all: Vec<&str> = Self::all().0.into_iter().chain(ONLY_NAMED).collect();
        let named = names.split(',').map(|name| {
            all.iter()
                .copied()
                .find(|known| *known == name)
                .ok_or_else(|| format!("no `{name}`; there are {}", all.join(",")))
        });
        named.collect::<Result<_, _>>().map(Self)
    }

    fn has(&self, name: &str) -> bool {
        self.0.contains(&name)
    }
}

/// The script of a seed.
pub fn script(seed: u64, length: usize, lines: &Lines) -> String {
    let mut writer = Writer {
        random: Random::new(seed),
        lines,
        script: format!("# seed {seed}\n"),
        left: length,
    };
    writer.before_the_first_engine();
    while writer.left > 0 {
        writer.engine();
    }
    writer.script
}

/// A script that fills every table to its bound and tries one row more. It is long,
/// and its tables are large, so only its answers are compared.
pub fn full_tables() -> String {
    let make = Make::parse(&script::words(
        "timeout=1000 delay=10 link=lane:0 source=xorshift:7",
    ))
    .expect("a good make");
    let mut full = Full {
        script: make.full_form() + "\n",
        session: Session::new(&make, Mode::Rules).expect("a good make"),
    };
    full.write();
    full.script
}

struct Full {
    script: String,
    session: Session<Station, Seat>,
}

impl Full {
    fn put(&mut self, line: &str) {
        let step = Step::parse(&script::words(line)).expect("a good line");
        let _ = self.session.step(&step);
        self.script += line;
        self.script.push('\n');
    }

    fn write(&mut self) {
        let most = Rows::MOST;
        let numbers = |count: u64| list(&(0..count as u32).map(Station).collect::<Vec<_>>());
        self.put(&format!("reconcile 0 {}", numbers(most.roster)));
        self.put(&format!("reconcile 0 {}", numbers(most.roster + 1)));
        self.put(&format!("set_blocked 0 {}", numbers(most.blocked + 1)));
        self.want_all("7 aim=1,2,3,4");
        self.put("add_targets 0 1:0 5");
        self.put("want 0 1:0 8,9,10,11");
        self.put(&format!("want 0 1:0 {}", numbers(most.waiting)));
        // All slips: those of half are canceled, and their keys wanted again.
        self.reply_to_all();
        self.put("retain 5 gone=7");
        self.put("retain 5 over=1");
        self.want_all("8");
        self.reply_to_all();
        self.put("retain 5 gone=8");
        self.want_all("9");
        self.reply_to_all();
        self.put("verdict 6 77 complete");
        self.reply_to_all();
    }

    /// As many keys as have room, and one more.
    fn want_all(&mut self, rest: &str) {
        for key in 0..=Rows::MOST.live as u32 {
            self.put(&format!("want 0 {} {rest}", Seat::nth(key)));
        }
    }

    /// Sends and answers everything that is queued.
    fn reply_to_all(&mut self) {
        let queued = self.session.seen.fetcher.queue.len();
        for _ in 0..queued {
            self.put("fetch 0");
            let Some(request) = self.session.seen.fetcher.requests.last().cloned() else {
                return;
            };
            self.put(&format!(
                "response 5 {} {} 1000 1",
                request.id, request.peer
            ));
            if self.session.slips.len() as u64 == Rows::MOST.slips {
                return;
            }
        }
        let requests = self.session.seen.fetcher.requests.clone();
        for request in requests.iter().take(2) {
            self.put(&format!(
                "response 5 {} {} 1000 1",
                request.id, request.peer
            ));
        }
    }
}

struct Writer<'a> {
    random: Random,
    lines: &'a Lines,
    script: String,
    /// Lines still to be written.
    left: usize,
}

impl Writer<'_> {
    /// Writes a line, now and then with more spaces, a comment, or an empty line.
    fn put(&mut self, line: &str) {
        match self.random.below(60) {
            0 => self.script += &line.replacen(' ', "   ", 2),
            1 => self.script += &format!("  {line} "),
            2 => self.script += &format!("{line}# a comment"),
            3 => self.script += &format!("\n# a comment\n{line}   # another # one"),
            _ => self.script += line,
        }
        self.script.push('\n');
        self.left = self.left.saturating_sub(1);
    }

    /// Writes a make in full, or without what goes without saying.
    fn put_make(&mut self, make: &Make) {
        let line = match self.random.percent(50) {
            true => make.full_form(),
            false => make.short_form(),
        };
        self.put(&line);
    }

    /// Now and then a script has a call, or a make that is refused, before any engine.
    fn before_the_first_engine(&mut self) {
        if !self.lines.has("remake") || !self.random.percent(15) {
            return;
        }
        if self.lines.has("fetch") {
            self.put("fetch 5");
        }
        if self.lines.has("ask") {
            self.put("ask weight 3");
        }
        let refused = self.refused_make();
        self.put_make(&refused);
    }

    /// Lists that fill a table to its bound, or go one above it.
    fn crowd(&mut self) {
        self.put("make timeout=100 delay=10 link=lane:5 source=xorshift:7");
        let most = Rows::MOST;
        for (name, rows) in [("reconcile", most.roster), ("set_blocked", most.blocked)] {
            if self.lines.has(name) {
                let numbers = self.about(rows);
                self.put(&format!("{name} 0 {numbers}"));
            }
        }
        if self.lines.has("want") {
            let subscribers = self.about(most.waiting);
            self.put(&format!("want 0 1:0 {subscribers}"));
            let targets = self.about(most.targets);
            self.put(&format!("want 0 1:1 5 aim={targets}"));
            self.put("want 0 1:2 5 aim=5,5,6");
        }
        if self.lines.has("add_targets") {
            self.put("add_targets 0 1:1 5000");
        }
        if self.lines.has("fetch") {
            self.put("fetch 0");
        }
        if self.lines.has("retain") {
            self.put("retain 0 gone=5");
        }
    }

    /// So many numbers in a list, or one more, or one fewer.
    fn about(&mut self, rows: u64) -> String {
        let count = self.random.between(rows - 1, rows + 1) as u32;
        let numbers: Vec<Station> = (0..count).map(Station).collect();
        list(&numbers)
    }

    /// An engine and its calls: all the rest, or a part of it.
    fn engine(&mut self) {
        if self.lines.has("remake") && self.random.percent(3) {
            self.crowd();
            return;
        }
        let again = self.lines.has("remake") && self.left > 20 && self.random.percent(20);
        let until = if again { self.left / 2 } else { 0 };
        let make = self.make();
        if make.has_public_keys() {
            self.calls::<PublicKey, Digest>(&make, until);
        } else {
            self.calls::<Station, Seat>(&make, until);
        }
    }

    fn calls<P: PeerKind, K: KeyKind>(&mut self, make: &Make, until: usize) {
        let mut calls = Calls::<P, K>::new(make, &mut self.random);
        calls.has_keys = self.lines.has("want");
        self.put_make(make);
        if self.lines.has("reconcile") && self.random.percent(90) {
            let line = calls.line("reconcile", &mut self.random);
            calls.make(&line);
            self.put(&line);
        }
        while self.left > until {
            if self.lines.has("remake") && self.random.percent(1) {
                let refused = self.refused_make();
                self.put_make(&refused);
                continue;
            }
            let mut shares = calls.shares();
            shares.retain(|(name, _)| self.lines.has(name));
            if shares.is_empty() {
                self.left = until;
                return;
            }
            let name = self.random.by_share(&shares);
            let line = calls.line(name, &mut self.random);
            calls.make(&line);
            self.put(&line);
        }
    }

    fn make(&mut self) -> Make {
        let random = &mut self.random;
        let public_keys = self.lines.has("level") && self.lines.has("outbox") && random.percent(15);
        let level = public_keys.then(|| random.pick(&[Level::Circuit, Level::Festival]));
        let own = random.percent(60).then(|| random.below(6) as u32);
        let me = own.map(|own| match public_keys {
            true => PublicKey::nth(own).to_string(),
            false => Station::nth(own).to_string(),
        });
        let frame = if public_keys { 81 } else { 27 };
        let outbox = public_keys || (self.lines.has("outbox") && random.percent(25));
        let link = if outbox {
            let frames = random.pick(&[0, 1, 3, 10, 40, 40, 40]);
            LinkName::Outbox(frames * frame + random.below(frame))
        } else {
            LinkName::Lane(random.pick(&[0, 0, 1, 7, 7, 50, 50, 400, LONGEST]))
        };
        Make {
            engine: random.pick(&[1, 1, 1, 2, u32::MAX]),
            timeout: random.pick(&[1, 10, 100, 1000, 1000, LONGEST]),
            delay: random.pick(&[0, 1, 1, 10, 10, 100, 100, LONGEST]),
            me,
            rows: rows(random),
            link,
            source: source(random),
            level,
            rating: None,
        }
    }

    /// A make that is refused with 1 or 2.
    fn refused_make(&mut self) -> Make {
        let mut make = self.make();
        let random = &mut self.random;
        match random.below(5) {
            0 => make.timeout = random.pick(&[0, LONGEST + 1]),
            1 => make.delay = LONGEST + 1,
            2 => {
                if let LinkName::Lane(spacing) = &mut make.link {
                    *spacing = LONGEST + 1;
                } else {
                    make.timeout = 0;
                }
            }
            table => {
                let mut rows = make.rows.all();
                let place = random.below(6) as usize;
                rows[place] = if table == 3 {
                    0
                } else {
                    Rows::MOST.all()[place] + 1
                };
                make.rows = Rows::of(rows);
            }
        }
        make
    }
}

/// Small tables that fill up, or the largest.
fn rows(random: &mut Random) -> Rows {
    if random.percent(30) {
        return Rows::MOST;
    }
    let mut rows = [0; 6];
    rows[0] = random.between(2, 8);
    rows[1] = random.between(1, 5);
    rows[2] = random.between(1, 6);
    rows[3] = random.between(1, 12);
    rows[4] = random.between(1, 8);
    rows[5] = random.between(1, 4);
    Rows::of(rows)
}

fn source(random: &mut Random) -> SourceName {
    match random.below(4) {
        0 => SourceName::Xorshift(random.pick(&[0, 1, 42, u64::MAX])),
        1 => SourceName::Xorshift(random.word()),
        2 => {
            let count = random.below(12);
            SourceName::List((0..count).map(|_| random.below(9)).collect())
        }
        _ => {
            let count = random.below(30);
            let word = |random: &mut Random| match random.below(4) {
                0 => u64::MAX - random.below(3),
                1 => random.below(5),
                _ => random.word(),
            };
            SourceName::List((0..count).map(|_| word(random)).collect())
        }
    }
}

/// One engine's calls.
struct Calls<P: PeerKind, K: KeyKind> {
    session: Session<P, K>,
    has_lanes: bool,
    /// Whether keys are wanted at all.
    has_keys: bool,
    now: u64,
    peers: u32,
    keys: u32,
    subscribers: u32,
}

/// Subscribers are the generator's numbers from here on.
const FIRST_SUBSCRIBER: u32 = 100;

impl<P: PeerKind, K: KeyKind> Calls<P, K> {
    fn new(make: &Make, random: &mut Random) -> Self {
        Self {
            session: Session::new(make, Mode::Rules).expect("a good make"),
            has_lanes: matches!(make.link, LinkName::Lane(_)),
            has_keys: true,
            now: random.pick(&[0, 0, 5, 1000, 1000, LAST_TIME - 5000]),
            peers: random.between(2, 9) as u32,
            keys: random.between(1, 9) as u32,
            subscribers: random.between(1, 5) as u32,
        }
    }

    /// How often each line is to be written now: what can lead on, more often.
    fn shares(&self) -> Vec<(&'static str, u64)> {
        let fetcher = &self.session.seen.fetcher;
        let queued = !fetcher.queue.is_empty();
        let out = !fetcher.requests.is_empty();
        let judged = !self.session.slips.is_empty();
        let if_so = |so: bool, share: u64| if so { share } else { 1 };
        let mut shares = vec![
            ("reconcile", if_so(fetcher.roster.len() < 2, 14) + 2),
            ("set_blocked", 4),
            ("want", if_so(!queued || judged, 10) + 8),
            ("add_targets", 4),
            ("clear_targets", 3),
            ("fetch", if_so(queued, 28)),
            ("expire", if_so(out, 4)),
            ("response", if_so(out, 22)),
            ("missing", if_so(out, 5)),
            ("verdict", if_so(judged, 22)),
            ("retain", 4),
            ("setid", if_so(out && queued, 8)),
            ("setretries", 2),
            ("ask", 4),
            ("record", 8),
            ("order", 8),
        ];
        if self.has_lanes {
            shares.push(("lane", 3));
        }
        shares
    }

    /// Makes the call of a line, so that the next line can build on it.
    fn make(&mut self, line: &str) {
        let step = Step::parse(&script::words(line)).expect("a good line");
        // A breach is for the driver to find when it runs the script.
        let _ = self.session.step(&step);
    }

    fn line(&mut self, name: &str, random: &mut Random) -> String {
        match name {
            "lane" => self.lane(random),
            "setid" => format!("setid {}", self.next_id(random)),
            "setretries" => {
                let retries = random.pick(&[0, 1, 4, 100, u32::MAX - 1, u32::MAX]);
                format!("setretries {} {retries}", self.key(random))
            }
            "ask" => self.question(random),
            "record" => {
                let length = self.length(random).min(LONGEST_RECORD);
                let elapsed = match random.below(4) {
                    0 => 0,
                    1 => random.below(LAST_TIME),
                    _ => random.below(1_000_000),
                };
                format!("record {} {length} {elapsed}", self.peer(random))
            }
            "order" => format!("order {}", random.pick(&[0, 1, 4, 100, u32::MAX])),
            _ => {
                let rest = self.call(name, random);
                let time = self.time(name, random);
                let engine = self.other_engine(random);
                format!("{name} {time}{rest}{engine}")
            }
        }
    }

    /// What a call is handed after its time.
    fn call(&mut self, name: &str, random: &mut Random) -> String {
        match name {
            "reconcile" => format!(" {}", self.roster(random)),
            "set_blocked" => format!(" {}", self.blocked(random)),
            "want" => self.want(random),
            "add_targets" => format!(" {} {}", self.key(random), self.targets(random)),
            "clear_targets" => format!(" {}", self.key(random)),
            "response" => {
                let (id, peer) = self.request(random);
                let length = self.length(random);
                let number = random.pick(&[0, 1, 9, u32::MAX]);
                format!(" {id} {peer} {length} {number}")
            }
            "missing" => {
                let (id, peer) = self.request(random);
                format!(" {id} {peer}")
            }
            "verdict" => {
                let outcome = match random.percent(25) {
                    true => OutcomeName::Complete,
                    false => random.pick(&OutcomeName::ALL),
                };
                format!(" {} {}", self.slip(random), outcome.name())
            }
            "retain" => self.rule(random),
            _ => String::new(),
        }
    }

    /// A time: mostly a little later or just when something is due, sometimes
    /// earlier, seldom above the bound.
    fn time(&mut self, name: &str, random: &mut Random) -> u64 {
        if random.percent(1) {
            return random.pick(&[LAST_TIME + 1, 1 << 63, u64::MAX]);
        }
        let fetcher = &self.session.seen.fetcher;
        let due = match name {
            "fetch" => fetcher.pending_deadline.or(fetcher.waiter),
            "expire" => fetcher.active_deadline,
            _ => None,
        };
        let due = due.filter(|due| *due <= LAST_TIME && random.percent(70));
        let next = match random.below(12) {
            _ if due.is_some() => due
                .unwrap_or(0)
                .saturating_sub(u64::from(random.percent(10))),
            0 => self.now.saturating_sub(random.below(300)),
            1 => random.below(1000),
            2 => self.now + self.session.timeout,
            3 => self.now + self.session.delay,
            4..=6 => self.now,
            _ => self.now + random.below(60),
        };
        self.now = next.min(LAST_TIME);
        self.now
    }

    fn other_engine(&self, random: &mut Random) -> String {
        match random.below(60) {
            0 => format!(" @{}", self.session.engine),
            1 => format!(" @{}", self.session.engine.wrapping_add(1)),
            _ => String::new(),
        }
    }

    fn peer(&self, random: &mut Random) -> P {
        match random.below(50) {
            // A station without a lane.
            0 => P::nth(300),
            1 => P::nth(u32::MAX),
            _ => P::nth(random.below(self.peers.into()) as u32),
        }
    }

    fn subscriber(&self, random: &mut Random) -> P {
        P::nth(FIRST_SUBSCRIBER + random.below(self.subscribers.into()) as u32)
    }

    /// Mostly a live key.
    fn key(&self, random: &mut Random) -> K {
        let live: Vec<K> = self
            .session
            .seen
            .waits
            .iter()
            .map(|(key, _)| *key)
            .collect();
        if random.percent(75)
            && let Some(key) = random.one_of(&live)
        {
            return key;
        }
        K::nth(random.below(self.keys.into()) as u32)
    }

    fn roster(&self, random: &mut Random) -> String {
        let mut peers: Vec<P> = (0..self.peers).map(P::nth).collect();
        peers.extend([300, u32::MAX].map(P::nth));
        let keep = random.pick(&[10, 50, 80, 80, 95]);
        peers.retain(|_| random.percent(keep));
        if !random.percent(10) {
            peers.truncate(self.session.rows.roster as usize);
        }
        damaged(peers, random)
    }

    fn blocked(&self, random: &mut Random) -> String {
        let mut peers: Vec<P> = (0..self.peers).map(P::nth).collect();
        let keep = random.pick(&[0, 0, 20, 20, 50, 100]);
        peers.retain(|_| random.percent(keep));
        if !random.percent(10) {
            peers.truncate(self.session.rows.blocked as usize);
        }
        damaged(peers, random)
    }

    fn targets(&self, random: &mut Random) -> String {
        let count = random.pick(&[0, 1, 1, 2, 2, 3, 5]);
        let peers: Vec<P> = (0..count).map(|_| self.peer(random)).collect();
        list(&peers)
    }

    fn want(&self, random: &mut Random) -> String {
        let count = random.pick(&[0, 1, 1, 1, 1, 1, 2, 2, 3]);
        let subscribers: Vec<P> = (0..count).map(|_| self.subscriber(random)).collect();
        let judged: Vec<K> = self
            .session
            .slips
            .values()
            .filter_map(|slip| slip.key)
            .collect();
        let key = match random.one_of(&judged) {
            Some(key) if random.percent(60) => key,
            _ if random.percent(60) => K::nth(random.below(self.keys.into()) as u32),
            _ => self.key(random),
        };
        let aim = match random.percent(25) {
            true => format!(" aim={}", self.targets(random)),
            false => String::new(),
        };
        format!(" {key} {}{aim}", list(&subscribers))
    }

    /// Mostly an id that is out, with its peer.
    fn request(&self, random: &mut Random) -> (u64, P) {
        let requests = &self.session.seen.fetcher.requests;
        let Some(request) = random.one_of(requests).filter(|_| random.percent(92)) else {
            let next = self.session.seen.fetcher.next_id.unwrap_or(0);
            return (next.wrapping_sub(random.below(4)), self.peer(random));
        };
        match random.below(20) {
            0 => (request.id, self.peer(random)),
            1 => (request.id.wrapping_add(1), request.peer),
            _ => (request.id, request.peer),
        }
    }

    fn length(&self, random: &mut Random) -> u64 {
        match random.below(10) {
            0 => 0,
            1 => 1,
            2 => LONGEST_RECORD,
            3 if random.percent(50) => LONGEST_RECORD + 1,
            4 if random.percent(10) => u64::MAX,
            5..=7 => random.below(3000),
            _ => random.below(LONGEST_RECORD),
        }
    }

    /// Mostly an outstanding slip.
    fn slip(&self, random: &mut Random) -> u32 {
        let outstanding: Vec<u32> = self.session.slips.keys().copied().collect();
        match random.one_of(&outstanding) {
            Some(slip) if random.percent(92) => slip,
            _ => random.below(self.session.rows.slips.min(6) + 2) as u32,
        }
    }

    fn rule(&self, random: &mut Random) -> String {
        if K::HAS_PERFORMANCE && random.percent(40) {
            let performance = self.key(random).performance().unwrap_or(0);
            return format!(" over={performance}");
        }
        format!(" gone={}", self.subscriber(random))
    }

    fn lane(&self, random: &mut Random) -> String {
        let station = random.below(self.peers.into());
        if random.percent(35) {
            return format!("lane {station} closed");
        }
        let time = match random.below(4) {
            0 => 0,
            1 => (1 << 63) - 1,
            _ => self.now + random.below(200),
        };
        format!("lane {station} {time}")
    }

    /// An id at which something happens: one that is out, one just before such, or
    /// one just before the wrap.
    fn next_id(&self, random: &mut Random) -> u64 {
        let requests = &self.session.seen.fetcher.requests;
        match random.one_of(requests) {
            Some(request) if random.percent(80) => request.id.wrapping_sub(random.below(3)),
            _ => random.pick(&[0, 1, 500, u64::MAX, u64::MAX - 1, u64::MAX - 2]),
        }
    }

    fn question(&self, random: &mut Random) -> String {
        match random.below(3) {
            _ if !self.has_keys => format!("ask weight {}", self.peer(random)),
            0 => format!("ask weight {}", self.peer(random)),
            1 => format!("ask place {}", self.key(random)),
            _ => {
                let judged: Vec<K> = self.session.slips.values().filter_map(|s| s.key).collect();
                let key = random.one_of(&judged).unwrap_or_else(|| self.key(random));
                format!("ask nth {key} {}", random.below(4))
            }
        }
    }
}

/// A list that is, now and then, out of order or has a repeat.
fn damaged<P: Kind>(mut peers: Vec<P>, random: &mut Random) -> String {
    if peers.len() >= 2 && random.percent(6) {
        let place = random.below(peers.len() as u64 - 1) as usize;
        if random.percent(50) {
            peers.swap(place, place + 1);
        } else {
            peers[place + 1] = peers[place];
        }
    }
    list(&peers)
}

fn list<P: Kind>(peers: &[P]) -> String {
    if peers.is_empty() {
        return "-".into();
    }
    let peers: Vec<String> = peers.iter().map(P::to_string).collect();
    peers.join(",")
}
