//! The port's program, run as a process of its own.

use std::{
    io::{self, Write},
    process::{Command, Stdio},
    thread,
};

/// What the port's program printed for a script, and whether it ended well.
pub struct PortTrace {
    pub trace: String,
    pub ended_well: bool,
}

/// Runs the port's program with the script at its standard input.
pub fn trace_of(program: &str, script: &str) -> io::Result<PortTrace> {
    let mut child = Command::new(program)
        .stdin(Stdio::piped())
        .stdout(Stdio::piped())
        .stderr(Stdio::null())
        .spawn()?;
    let mut input = child.stdin.take().expect("a pipe");
    let script = script.to_string();
    // Written from a thread, because the program prints while it reads.
    let writer = thread::spawn(move || input.write_all(script.as_bytes()));
    let output = child.wait_with_output()?;
    // A program that ended early has closed its input; its status tells of that.
    let _ = writer.join();
    Ok(PortTrace {
        trace: String::from_utf8_lossy(&output.stdout).into_owned(),
        ended_well: output.status.success(),
    })
}

/// The parts of a trace that are compared.
#[derive(Clone, Debug)]
pub enum Parts {
    All,
    /// Calls and answers, and the table lines that begin with one of these words.
    /// `words` stands for the first half of a `draws` line.
    Tables(Vec<String>),
}

impl Parts {
    /// Names with commas between them, or everything.
    pub fn parse(names: Option<&str>) -> Self {
        match names {
            None => Self::All,
            Some(names) => Self::Tables(names.split(',').map(String::from).collect()),
        }
    }

    /// What of a trace is compared.
    pub fn of(&self, trace: &str) -> String {
        let Self::Tables(names) = self else {
            return trace.to_string();
        };
        let mut kept = String::new();
        for line in trace.lines() {
            let mut words = line.split(' ');
            let name = words.next().unwrap_or("");
            let line = match name {
                "draws" if names.iter().any(|name| name == "words") => {
                    format!("draws {}", words.next().unwrap_or(""))
                }
                ">" | "=" | "" => line.to_string(),
                _ if names.iter().any(|known| known == name) => line.to_string(),
                _ => continue,
            };
            kept += &line;
            kept.push('\n');
        }
        kept
    }
}

/// The first line at which two traces differ, as (line number, left, right).
pub fn first_difference(left: &str, right: &str) -> Option<(usize, String, String)> {
    let mut lefts = left.lines();
    let mut rights = right.lines();
    let mut number = 0;
    loop {
        number += 1;
        match (lefts.next(), rights.next()) {
            (None, None) => return None,
            (left, right) if left == right => {}
            (left, right) => {
                let text = |line: Option<&str>| line.unwrap_or("(the trace ends)").to_string();
                return Some((number, text(left), text(right)));
            }
        }
    }
}
