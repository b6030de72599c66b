//! Timing the calls of a long script, kind by kind.

use crate::{
    kinds::{Kind, Seat, Station},
    random::Random,
    script::{self, CALLS, Make, OutcomeName, Step},
    session::{Answer, Mode, Session, Stop},
};
use std::time::{Duration, Instant};

type House = Session<Station, Seat>;
type HouseStep = Step<Station, Seat>;

/// How long the calls of one kind took.
pub struct Row {
    pub call: &'static str,
    pub count: u64,
    /// The mean over the calls, each counted with its quickest round.
    pub nanoseconds: f64,
}

/// What taking the time twice costs by itself, in nanoseconds.
pub fn clock_cost() -> f64 {
    const ROUNDS: u32 = 10_000;
    let total: Duration = (0..ROUNDS).map(|_| Instant::now().elapsed()).sum();
    total.as_nanos() as f64 / f64::from(ROUNDS)
}

/// Makes the script's calls once under the rules, to see that none is refused, and
/// then `rounds` times without judging, checking or looking, to time them. All rounds
/// do the same work, so a call that took longer in one of them was interrupted there.
pub fn measure(script: &str, rounds: usize) -> Result<Vec<Row>, String> {
    let (make, steps) = read(script)?;
    let answers = rehearse(&make, &steps)?;
    let mut quickest = time_once(&make, &steps, &answers)?;
    for _ in 1..rounds {
        let round = time_once(&make, &steps, &answers)?;
        for (least, time) in quickest.iter_mut().zip(round) {
            *least = time.min(*least);
        }
    }
    let rows = CALLS.into_iter().filter_map(|call| {
        let times: Vec<Duration> = steps
            .iter()
            .zip(&quickest)
            .filter(
                |(step, _)| matches!(step, Step::Call { call: made, .. } if made.name() == call),
            )
            .map(|(_, time)| *time)
            .collect();
        let total: Duration = times.iter().sum();
        (!times.is_empty()).then(|| Row {
            call,
            count: times.len() as u64,
            nanoseconds: total.as_nanos() as f64 / times.len() as f64,
        })
    });
    Ok(rows.collect())
}

fn read(script: &str) -> Result<(Make, Vec<HouseStep>), String> {
    let mut lines = script
        .lines()
        .map(script::words)
        .filter(|words| !words.is_empty());
    let make = match lines.next() {
        Some(words) if words[0] == "make" => Make::parse(&words[1..])?,
        _ => return Err("a script to time begins with make".into()),
    };
    if make.has_public_keys() {
        return Err("a script to time has numbers and seats".into());
    }
    let steps = lines
        .map(|words| Step::parse(&words))
        .collect::<Result<_, _>>()?;
    Ok((make, steps))
}

fn rehearse(make: &Make, steps: &[HouseStep]) -> Result<Vec<Answer<Station, Seat>>, String> {
    let mut session = House::new(make, Mode::Rules)?;
    steps
        .iter()
        .map(|step| match session.step(step) {
            Ok(Answer::Refused(number)) => Err(format!("{step:?} is refused with {number}")),
            Ok(answer) => Ok(answer),
            Err(Stop::Bad(what) | Stop::Breach(what)) => Err(what),
        })
        .collect()
}

/// The time of each line's call.
fn time_once(
    make: &Make,
    steps: &[HouseStep],
    answers: &[Answer<Station, Seat>],
) -> Result<Vec<Duration>, String> {
    let mut session = House::new(make, Mode::Rules)?;
    session.stop_watching();
    let mut times = Vec::with_capacity(steps.len());
    for (step, expected) in steps.iter().zip(answers) {
        let answer = match session.step(step) {
            Ok(answer) => answer,
            Err(Stop::Bad(what) | Stop::Breach(what)) => return Err(what),
        };
        if answer != *expected {
            return Err(format!("{step:?} answers {answer}, and {expected} before"));
        }
        times.push(session.took);
    }
    Ok(times)
}

/// A long script without refusals, with so many stations on the roster and about
/// so many live keys throughout.
pub fn script(stations: u32, live: u32, calls: usize) -> String {
    let mut writer = Writer::new(stations, live, calls);
    writer.start();
    while writer.left > 0 {
        writer.call();
    }
    writer.script
}

/// Keys wait for a retry this long.
const DELAY: u64 = 1_000;

const TIMEOUT: u64 = 1_000_000;

struct Writer {
    script: String,
    session: House,
    random: Random,
    stations: u32,
    live: u32,
    now: u64,
    next_key: u32,
    left: usize,
}

impl Writer {
    fn new(stations: u32, live: u32, calls: usize) -> Self {
        // Room for a frame of 27 bytes a call.
        let room = 27 * (calls + 2 * live as usize);
        let line = format!(
            "make timeout={TIMEOUT} delay={DELAY} me=0 link=outbox:{room} source=xorshift:{stations}"
        );
        let make = Make::parse(&script::words(&line)[1..]).expect("a good make");
        Self {
            script: line + "\n",
            session: House::new(&make, Mode::Rules).expect("a good make"),
            random: Random::new(u64::from(stations) << 32 | u64::from(live)),
            stations,
            live,
            now: 0,
            next_key: 0,
            left: calls,
        }
    }

    fn put(&mut self, line: String) {
        let step = Step::parse(&script::words(&line)).expect("a good line");
        let answer = self.session.step(&step);
        assert!(
            !matches!(answer, Ok(Answer::Refused(_)) | Err(_)),
            "{line}: {answer:?}"
        );
        self.script += &line;
        self.script.push('\n');
        self.left = self.left.saturating_sub(1);
    }

    /// A full roster, and all keys wanted.
    fn start(&mut self) {
        let calls = self.left;
        self.reconcile(0);
        for _ in 0..self.live {
            self.want_new();
        }
        self.left = calls;
    }

    /// A call that can be made now; each advances the clock a little.
    fn call(&mut self) {
        self.now += 1 + self.random.below(20);
        let live = self.session.seen.waits.len() as u32;
        if live < self.live && self.random.percent(70) {
            return self.want_new();
        }
        let fetcher = &self.session.seen.fetcher;
        let out = !fetcher.requests.is_empty();
        let judged = !self.session.slips.is_empty();
        let expired = fetcher.active_deadline.is_some_and(|at| at <= self.now);
        // Half of the live keys are kept out or under judgement, where that can be.
        let queued = fetcher.queue.len() * 2 >= live as usize;
        let name = self.random.by_share(&[
            ("reconcile", 3),
            ("set_blocked", 3),
            ("want", 8),
            ("add_targets", 6),
            ("clear_targets", 6),
            ("fetch", if queued { 40 } else { 5 }),
            ("expire", if expired { 20 } else { 0 }),
            ("response", if out { 14 } else { 0 }),
            ("missing", if out { 6 } else { 0 }),
            ("verdict", if judged { 18 } else { 0 }),
            ("retain", 3),
            ("wait", if out { 1 } else { 0 }),
        ]);
        self.write(name);
    }

    fn write(&mut self, name: &str) {
        let now = self.now;
        match name {
            "reconcile" => self.reconcile(5),
            "set_blocked" => {
                let blocked = self.stations_but(90);
                self.put(format!("set_blocked {now} {blocked}"));
            }
            "want" => {
                let (key, subscriber) = (self.live_key(), self.random.between(100, 103));
                if self.session.waiting_pairs() < 4000 {
                    self.put(format!("want {now} {key} {subscriber}"));
                }
            }
            "add_targets" => {
                let (key, peers) = (self.live_key(), self.some_stations());
                if self.session.target_pairs() < 4000 {
                    self.put(format!("add_targets {now} {key} {peers}"));
                }
            }
            "clear_targets" => {
                let key = self.live_key();
                self.put(format!("clear_targets {now} {key}"));
            }
            "response" | "missing" => self.reply(name),
            "verdict" => {
                let slips: Vec<u32> = self.session.slips.keys().copied().collect();
                let slip = self.random.one_of(&slips).expect("a slip");
                let outcome = match self.random.percent(50) {
                    true => OutcomeName::Complete,
                    false => self.random.pick(&OutcomeName::ALL),
                };
                self.put(format!("verdict {now} {slip} {}", outcome.name()));
            }
            "retain" => {
                let subscriber = self.random.between(101, 103);
                self.put(format!("retain {now} gone={subscriber}"));
            }
            // A step of the clock to the next deadline, so that requests expire.
            "wait" => {
                let deadline = self.session.seen.fetcher.active_deadline;
                self.now = self.now.max(deadline.unwrap_or(0));
                self.put(format!("expire {}", self.now));
            }
            _ => self.put(format!("{name} {now}")),
        }
    }

    fn reply(&mut self, name: &str) {
        let request = self.random.one_of(&self.session.seen.fetcher.requests);
        let request = request.expect("a request");
        let (now, id, peer) = (self.now, request.id, request.peer);
        let length = 100 + self.random.below(5000);
        match name {
            "response" => self.put(format!("response {now} {id} {peer} {length} 1")),
            _ => self.put(format!("missing {now} {id} {peer}")),
        }
    }

    /// The roster without so many stations in a hundred.
    fn reconcile(&mut self, without: u64) {
        let roster = self.stations_but(without);
        self.put(format!("reconcile {} {roster}", self.now));
    }

    fn stations_but(&mut self, without: u64) -> String {
        let stations: Vec<String> = (0..self.stations)
            .filter(|_| !self.random.percent(without))
            .map(|n| n.to_string())
            .collect();
        if stations.is_empty() {
            "-".into()
        } else {
            stations.join(",")
        }
    }

    fn some_stations(&mut self) -> String {
        let stations: Vec<String> = (0..3)
            .map(|_| self.random.below(self.stations.into()).to_string())
            .collect();
        stations.join(",")
    }

    fn live_key(&mut self) -> Seat {
        let place = self.random.below(self.session.seen.waits.len() as u64);
        self.session.seen.waits[place as usize].0
    }

    fn want_new(&mut self) {
        let key = Seat::nth(self.next_key);
        self.next_key += 1;
        self.put(format!("want {} {key} 100", self.now));
    }
}
