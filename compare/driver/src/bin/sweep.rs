//! Runs the random scripts of a row of seeds through the Rust, with its checks, and
//! through the port where there is one.

use driver::{
    coverage::Coverage,
    generate::{Lines, script},
    options::{Options, wrong_use},
    port::{self, Parts},
    program::{Failure, Program},
    session::Mode,
};
use std::{fs, path::Path, process::ExitCode};

const HELP: &str = "\
sweep FROM TO [--length N] [--calls NAME,...] [--coverage]
      [--port PROGRAM [--tables NAME,...] [--keep DIR]]

Runs the random scripts of the seeds FROM to TO, of N lines each (80 if not said),
through the Rust. After each call the driver checks that a peer of the roster
weighs zero exactly if it is own or blocked, that a key is live exactly if
somebody waits for it and is in one place, and that a fetch sends exactly what it
should.

  --port      also run them through this program and compare the traces
  --tables    compare only the calls, the answers and the table lines that begin
              with one of these words; `words` is the first half of `draws`
  --keep      put scripts and traces that differ into this directory
  --calls     only these lines (see generate --help)
  --coverage  say what the scripts have met, and fail if something was not met
";

/// The Rust's trace of a script.
fn rust_trace(script: &str, coverage: &mut Coverage) -> (String, Option<Failure>) {
    let mut program = Program::new(Mode::Rules);
    let mut trace = String::new();
    coverage.start();
    for line in script.lines() {
        match program.line(line) {
            Ok(Some(block)) => {
                coverage.block(&block);
                trace += &block.to_string();
            }
            Ok(None) => {}
            Err(failure) => return (trace, Some(failure)),
        }
    }
    (trace, None)
}

/// What a script showed, if it showed anything.
struct Finding {
    what: String,
    port_trace: Option<String>,
}

fn compare(
    trace: &str,
    failure: Option<Failure>,
    script: &str,
    options: &Options,
) -> Option<Finding> {
    if let Some(failure) = failure {
        return Some(Finding {
            what: format!("the Rust: {failure}"),
            port_trace: None,
        });
    }
    let port = match port::trace_of(options.value("port")?, script) {
        Ok(port) => port,
        Err(error) => {
            return Some(Finding {
                what: format!("the port cannot be run: {error}"),
                port_trace: None,
            });
        }
    };
    let parts = Parts::parse(options.value("tables"));
    let what = match port::first_difference(&parts.of(trace), &parts.of(&port.trace)) {
        Some((line, rust, port)) => {
            format!("line {line} of what is compared\n  Rust: {rust}\n  port: {port}")
        }
        None if !port.ended_well => "the port ends with a failure".into(),
        None => return None,
    };
    Some(Finding {
        what,
        port_trace: Some(port.trace),
    })
}

fn keep(directory: &str, seed: u64, script: &str, trace: &str, finding: &Finding) {
    let directory = Path::new(directory);
    let write = |ending: &str, content: &str| {
        let path = directory.join(format!("seed-{seed}.{ending}"));
        if let Err(error) = fs::write(&path, content) {
            eprintln!("{}: {error}", path.display());
        }
    };
    if let Err(error) = fs::create_dir_all(directory) {
        eprintln!("{}: {error}", directory.display());
    }
    write("script", script);
    write("rust.trace", trace);
    if let Some(port_trace) = &finding.port_trace {
        write("port.trace", port_trace);
    }
}

fn main() -> ExitCode {
    let options = match Options::read(
        HELP,
        &["length", "calls", "port", "tables", "keep"],
        &["coverage"],
    ) {
        Ok(options) => options,
        Err(status) => return status,
    };
    let numbers: Option<Vec<u64>> = options.words.iter().map(|word| word.parse().ok()).collect();
    let length = options.value("length").unwrap_or("80").parse();
    let (Some([from, to]), Ok(length)) = (numbers.as_deref(), length) else {
        return wrong_use(HELP, "two seeds are needed, and the length is a number");
    };
    let lines = match options
        .value("calls")
        .map_or_else(|| Ok(Lines::all()), Lines::parse)
    {
        Ok(lines) => lines,
        Err(what) => return wrong_use(HELP, &what),
    };
    let mut coverage = Coverage::default();
    let mut findings = 0;
    for seed in *from..=*to {
        let script = script(seed, length, &lines);
        let (trace, failure) = rust_trace(&script, &mut coverage);
        if let Some(finding) = compare(&trace, failure, &script, &options) {
            findings += 1;
            println!("seed {seed}: {}", finding.what);
            if let Some(directory) = options.value("keep") {
                keep(directory, seed, &script, &trace, &finding);
            }
        }
    }
    let scripts = to.saturating_sub(*from) + 1;
    let mut failed = findings > 0;
    if options.has("coverage") {
        print!("{coverage}");
        failed |= !coverage.missing().is_empty();
    }
    println!("{scripts} scripts, {findings} differences");
    if failed {
        ExitCode::FAILURE
    } else {
        ExitCode::SUCCESS
    }
}
