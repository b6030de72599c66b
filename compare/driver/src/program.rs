//! A script from its first line to its last: what `rehearse` is on the Rust's side.

use crate::{
    kinds::{Digest, KeyKind, PeerKind, PublicKey, Seat, Station},
    script::{self, Make, RatingName, Step},
    session::{Mode, Session, Stop},
    trace,
};
use std::fmt::{self, Display, Formatter};

/// What a line comes to.
pub struct Block {
    /// The line in its full form.
    pub line: String,
    pub answer: String,
    /// The tables and the blank line; only the latter without an engine. Empty if
    /// only answers are wanted.
    pub tables: String,
}

impl Display for Block {
    fn fmt(&self, f: &mut Formatter<'_>) -> fmt::Result {
        write!(f, "> {}\n= {}\n{}", self.line, self.answer, self.tables)
    }
}

/// Why a script ended early.
#[derive(Debug)]
pub enum Failure {
    Bad { line: usize, expected: String },
    Breach { line: usize, breach: String },
    NotComparable { line: usize, reason: &'static str },
}

impl Failure {
    pub const fn status(&self) -> u8 {
        match self {
            Self::Bad { .. } => 1,
            Self::NotComparable { .. } => 3,
            Self::Breach { .. } => 4,
        }
    }
}

impl Display for Failure {
    fn fmt(&self, f: &mut Formatter<'_>) -> fmt::Result {
        match self {
            Self::Bad { line, expected } => write!(f, "line {line}: expected {expected}"),
            Self::Breach { line, breach } => write!(f, "line {line}: breach: {breach}"),
            Self::NotComparable { line, reason } => {
                write!(f, "line {line}: not comparable: {reason}")
            }
        }
    }
}

/// A session of whatever kinds.
trait AnySession {
    fn line(&mut self, words: &[&str]) -> Result<String, Stop>;

    fn tables(&self) -> String;
}

impl<P: PeerKind, K: KeyKind> AnySession for Session<P, K> {
    fn line(&mut self, words: &[&str]) -> Result<String, Stop> {
        let step = Step::parse(words)?;
        self.step(&step).map(|answer| answer.to_string())
    }

    fn tables(&self) -> String {
        trace::tables(self)
    }
}

pub struct Program {
    mode: Mode,
    with_tables: bool,
    session: Option<Box<dyn AnySession>>,
    line: usize,
}

impl Program {
    pub fn new(mode: Mode) -> Self {
        Self {
            mode,
            with_tables: true,
            session: None,
            line: 0,
        }
    }

    /// The tables of all blocks stay empty.
    pub fn answers_only(mode: Mode) -> Self {
        Self {
            with_tables: false,
            ..Self::new(mode)
        }
    }

    /// Takes the script's next line. A line without words comes to nothing.
    pub fn line(&mut self, line: &str) -> Result<Option<Block>, Failure> {
        self.line += 1;
        let words = script::words(line);
        let Some((name, rest)) = words.split_first() else {
            return Ok(None);
        };
        let (line, answer) = if *name == "make" {
            self.make(rest)?
        } else {
            (words.join(" "), self.step(&words)?)
        };
        let tables = match &self.session {
            _ if !self.with_tables => String::new(),
            Some(session) => session.tables(),
            None => "\n".into(),
        };
        Ok(Some(Block {
            line,
            answer,
            tables,
        }))
    }

    fn step(&mut self, words: &[&str]) -> Result<String, Failure> {
        let answer = match &mut self.session {
            Some(session) => session.line(words),
            // The kinds are those of a make without a level.
            None => Step::<Station, Seat>::parse(words)
                .map(|_| "no engine".into())
                .map_err(Stop::Bad),
        };
        answer.map_err(|stop| self.failure(stop))
    }

    fn make(&mut self, words: &[&str]) -> Result<(String, String), Failure> {
        let make = Make::parse(words).map_err(|expected| self.failure(Stop::Bad(expected)))?;
        let answer = match make.refusal() {
            Some(number) if self.mode == Mode::Rules => format!("refused {number}"),
            _ => {
                self.replace(&make)?;
                "done".into()
            }
        };
        Ok((make.full_form(), answer))
    }

    fn replace(&mut self, make: &Make) -> Result<(), Failure> {
        if make.rating() == RatingName::Flat {
            return Err(Failure::NotComparable {
                line: self.line,
                reason: "flat rating",
            });
        }
        let session = if make.has_public_keys() {
            boxed(Session::<PublicKey, Digest>::new(make, self.mode))
        } else {
            boxed(Session::<Station, Seat>::new(make, self.mode))
        };
        self.session = Some(session.map_err(|expected| self.failure(Stop::Bad(expected)))?);
        Ok(())
    }

    fn failure(&self, stop: Stop) -> Failure {
        let line = self.line;
        match stop {
            Stop::Bad(expected) => Failure::Bad { line, expected },
            Stop::Breach(breach) => Failure::Breach { line, breach },
        }
    }
}

fn boxed<P: PeerKind, K: KeyKind>(
    session: Result<Session<P, K>, String>,
) -> Result<Box<dyn AnySession>, String> {
    session.map(|session| Box::new(session) as Box<dyn AnySession>)
}

/// The whole trace of a script, as far as it goes, and why it ended early if it did.
pub fn trace_of(script: &str, mode: Mode) -> (String, Option<Failure>) {
    let mut program = Program::new(mode);
    let mut trace = String::new();
    for line in script.lines() {
        match program.line(line) {
            Ok(Some(block)) => trace += &block.to_string(),
            Ok(None) => {}
            Err(failure) => return (trace, Some(failure)),
        }
    }
    (trace, None)
}
