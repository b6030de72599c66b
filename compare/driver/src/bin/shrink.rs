//! Finds the smallest script that still shows a difference.

use driver::{
    options::{Options, wrong_use},
    port::{self, Parts},
    program::trace_of,
    session::Mode,
    shrink::shrink,
};
use std::{fs, process::ExitCode};

const HELP: &str = "\
shrink SCRIPT (--port PROGRAM [--tables NAME,...] | --raw) [--good]

Prints the smallest script, found by leaving out lines and parts of lines, that
still shows what the given script shows:

  --port   a difference between the traces of the Rust and of this program, or a
           rule that the Rust breaks; --tables as for sweep
  --raw    a difference between the Rust under the rules and the Rust left alone
  --good   try only scripts in which no call is refused
";

/// Whether the port's trace of a good script differs from the Rust's.
fn differs_from_port(program: &str, parts: &Parts, script: &str) -> bool {
    let (trace, failure) = trace_of(script, Mode::Rules);
    match failure {
        Some(failure) => failure.status() == 4,
        None => port::trace_of(program, script)
            .is_ok_and(|port| parts.of(&port.trace) != parts.of(&trace) || !port.ended_well),
    }
}

/// Whether the Rust left alone gives another trace of a good script.
fn differs_left_alone(script: &str) -> bool {
    let (trace, failure) = trace_of(script, Mode::Rules);
    let (raw, raw_failure) = trace_of(script, Mode::Raw);
    failure.is_none() && raw_failure.is_none() && trace != raw
}

fn has_refusals(script: &str) -> bool {
    let (trace, _) = trace_of(script, Mode::Rules);
    trace
        .lines()
        .any(|line| line.starts_with("= refused") || line == "= no engine")
}

fn main() -> ExitCode {
    let options = match Options::read(HELP, &["port", "tables"], &["raw", "good"]) {
        Ok(options) => options,
        Err(status) => return status,
    };
    let [path] = &options.words[..] else {
        return wrong_use(HELP, "one script is needed");
    };
    let script = match fs::read_to_string(path) {
        Ok(script) => script,
        Err(error) => {
            eprintln!("shrink: {path}: {error}");
            return ExitCode::FAILURE;
        }
    };
    let parts = Parts::parse(options.value("tables"));
    let shows = |script: &str| {
        (!options.has("good") || !has_refusals(script))
            && match options.value("port") {
                Some(program) => differs_from_port(program, &parts, script),
                None => differs_left_alone(script),
            }
    };
    if options.value("port").is_none() && !options.has("raw") {
        return wrong_use(HELP, "--port or --raw is needed");
    }
    if !shows(&script) {
        eprintln!("shrink: the script shows no difference");
        return ExitCode::FAILURE;
    }
    print!("{}", shrink(&script, shows));
    ExitCode::SUCCESS
}
