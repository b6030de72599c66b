//! What a row of scripts has met, told from the blocks of their traces.

use crate::program::Block;
use std::{
    collections::{BTreeMap, BTreeSet},
    fmt::{self, Display, Formatter},
};

/// Counts by what was met.
#[derive(Default)]
pub struct Coverage {
    met: BTreeMap<String, u64>,
    /// Of the block before, in the same engine.
    slips: BTreeMap<String, Slip>,
    next_id: Option<u64>,
    next_id_is_out: bool,
    time: Option<u64>,
}

#[derive(Clone, Copy)]
struct Slip {
    canceled: bool,
    accepted: bool,
}

/// Everything that a deep row of scripts should meet.
fn wanted() -> BTreeSet<String> {
    let mut wanted: BTreeSet<String> = (1..=15).map(|n| format!("refused {n}")).collect();
    for stage in ["queued fresh", "queued retried", "out", "judged"] {
        wanted.insert(format!("key {stage}"));
    }
    for targets in ["all", "nobody", "a list"] {
        wanted.insert(format!("targets {targets}"));
    }
    for outcome in [
        "complete",
        "partial",
        "unresolved",
        "invalid",
        "ignored",
        "none",
    ] {
        for slip in ["a first", "an accepted", "a canceled"] {
            wanted.insert(format!("verdict {outcome} on {slip} delivery"));
        }
    }
    for call in crate::script::CALLS {
        wanted.insert(format!("{call} made"));
        for number in [3, 4] {
            wanted.insert(format!("{call} refused {number}"));
        }
    }
    let others = [
        "no engine",
        "not live",
        "a fetch that sends nothing",
        "a new slip after a verdict",
        "a peer to block",
        "an id passed over",
        "an id that wraps",
        "a clock that goes back",
        "a waiter without end",
        "a waiter with an end",
        "a slip number that wraps",
        "a subscriber that left its delivery",
    ];
    wanted.extend(others.map(String::from));
    wanted
}

impl Coverage {
    fn meet(&mut self, what: impl Into<String>) {
        *self.met.entry(what.into()).or_default() += 1;
    }

    /// To be called before each script.
    pub fn start(&mut self) {
        self.slips.clear();
        self.next_id = None;
        self.next_id_is_out = false;
        self.time = None;
    }

    pub fn block(&mut self, block: &Block) {
        let words: Vec<&str> = block.line.split(' ').collect();
        if words[0] == "make" && block.answer == "done" {
            self.start();
        }
        self.answer(&words, &block.answer);
        self.clock(&words, &block.answer);
        self.tables(&block.tables);
    }

    fn answer(&mut self, words: &[&str], answer: &str) {
        let call = words[0];
        let is_call = crate::script::CALLS.contains(&call);
        if answer.starts_with("refused ") {
            self.meet(answer);
            self.meet(format!("{call} {answer}"));
            return;
        }
        if answer == "no engine" || answer == "not live" {
            self.meet(answer);
            return;
        }
        if is_call {
            self.meet(format!("{call} made"));
        }
        if answer == "sent -" {
            self.meet("a fetch that sends nothing");
        } else if let Some(sent) = answer.strip_prefix("sent ") {
            self.sent(sent.split(' ').nth(1).and_then(|id| id.parse().ok()));
        }
        if call == "verdict" {
            self.verdict(words, answer);
        }
    }

    fn sent(&mut self, id: Option<u64>) {
        if self.next_id_is_out {
            self.meet("an id passed over");
        }
        if id < self.next_id {
            self.meet("an id that wraps");
        }
    }

    fn verdict(&mut self, words: &[&str], answer: &str) {
        let Some(slip) = self.slips.get(words[2]).copied() else {
            return;
        };
        let delivery = match slip {
            Slip { canceled: true, .. } => "a canceled",
            Slip { accepted: true, .. } => "an accepted",
            _ => "a first",
        };
        self.meet(format!("verdict {} on {delivery} delivery", words[3]));
        if !answer.contains("slip=-") {
            self.meet("a new slip after a verdict");
        }
        if !answer.contains("block=-") {
            self.meet("a peer to block");
        }
    }

    fn clock(&mut self, words: &[&str], answer: &str) {
        if !crate::script::CALLS.contains(&words[0]) || answer.starts_with("refused") {
            return;
        }
        let time = words[1].parse().ok();
        if time < self.time {
            self.meet("a clock that goes back");
        }
        self.time = time;
    }

    fn tables(&mut self, tables: &str) {
        let former = std::mem::take(&mut self.slips);
        let mut waits: BTreeMap<String, BTreeSet<String>> = BTreeMap::new();
        let mut out: BTreeSet<u64> = BTreeSet::new();
        for line in tables.lines() {
            let words: Vec<&str> = line.split(' ').collect();
            let field = |name: &str| {
                words
                    .iter()
                    .find_map(|word| word.strip_prefix(name))
                    .unwrap_or("")
            };
            match words[0] {
                "key" => {
                    let stage = match words[2] {
                        "queued" => format!("key queued {}", words[3]),
                        stage => format!("key {stage}"),
                    };
                    self.meet(stage);
                    let targets = match field("targets=") {
                        word @ ("all" | "nobody") => word,
                        _ => "a list",
                    };
                    self.meet(format!("targets {targets}"));
                    out.extend(field("id=").parse::<u64>());
                    let list = field("waits=").split(',').map(String::from).collect();
                    waits.insert(words[1].into(), list);
                }
                "slip" => {
                    let slip = Slip {
                        canceled: field("key=") == "-",
                        accepted: field("accepted=") == "1",
                    };
                    self.slips.insert(words[1].into(), slip);
                    if let Some(waits) = waits.get(field("key="))
                        && field("delivered=").split(',').any(|s| !waits.contains(s))
                    {
                        self.meet("a subscriber that left its delivery");
                    }
                    if words[1] == "0" && !former.contains_key("0") && !former.is_empty() {
                        self.meet("a slip number that wraps");
                    }
                }
                "times" => match field("waiter=") {
                    "-" => {}
                    "9223372036854775807" => self.meet("a waiter without end"),
                    _ => self.meet("a waiter with an end"),
                },
                "draws" => {
                    self.next_id = field("next_id=").parse().ok();
                    self.next_id_is_out = self.next_id.is_some_and(|id| out.contains(&id));
                }
                _ => {}
            }
        }
    }

    /// What was wanted and not met.
    pub fn missing(&self) -> Vec<String> {
        wanted()
            .into_iter()
            .filter(|what| !self.met.contains_key(what))
            .collect()
    }
}

impl Display for Coverage {
    fn fmt(&self, f: &mut Formatter<'_>) -> fmt::Result {
        for (what, count) in &self.met {
            writeln!(f, "{count:>9} {what}")?;
        }
        let missing = self.missing();
        if missing.is_empty() {
            return writeln!(f, "everything that was wanted has been met");
        }
        missing
            .iter()
            .try_for_each(|what| writeln!(f, "  not met: {what}"))
    }
}
