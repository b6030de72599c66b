//! Reads a script and prints its trace.

use driver::{
    bench,
    program::{Failure, Program},
    session::Mode,
};
use std::{
    fs,
    io::{self, BufWriter, Read, Write},
    process::ExitCode,
};

const HELP: &str = "\
driver [OPTION]... [SCRIPT]

Reads a script, from standard input if none is named, makes its calls on an
engine of the reference Rust, and prints the trace.

  --answers   only the lines with calls and answers, without the tables
  --bench     make the calls several times without printing, and print for each
              kind of call a line `CALL COUNT NANOSECONDS`: how many there were,
              and how long one took inside the reference's code, on the mean
  --raw       the Rust left alone: calls are made without judging them first,
              and through the engine's own loop where it has a branch for them
  --verify    compare the sources that were compiled in with those in the
              reference's directory, byte by byte, and stop
  --help      this text

Status: 0 done; 1 a bad line, or a file that cannot be read; 2 wrong use;
3 the script cannot be compared with the Rust; 4 the Rust broke a rule.
";

struct Options {
    answers: bool,
    bench: bool,
    raw: bool,
    verify: bool,
    script: Option<String>,
}

/// The options, or the text to print instead with its status.
fn options(words: impl Iterator<Item = String>) -> Result<Options, (u8, String)> {
    let mut options = Options {
        answers: false,
        bench: false,
        raw: false,
        verify: false,
        script: None,
    };
    for word in words {
        match word.as_str() {
            "--help" => return Err((0, HELP.into())),
            "--answers" => options.answers = true,
            "--bench" => options.bench = true,
            "--raw" => options.raw = true,
            "--verify" => options.verify = true,
            _ if word.starts_with('-') => {
                return Err((2, format!("driver: no option {word}\n\n{HELP}")));
            }
            _ if options.script.is_some() => {
                return Err((2, format!("driver: only one script\n\n{HELP}")));
            }
            _ => options.script = Some(word),
        }
    }
    Ok(options)
}

fn read(script: Option<&str>) -> io::Result<String> {
    match script {
        Some(path) => fs::read_to_string(path),
        None => {
            let mut text = String::new();
            io::stdin().read_to_string(&mut text)?;
            Ok(text)
        }
    }
}

fn run(script: &str, options: &Options, out: &mut impl Write) -> io::Result<Option<Failure>> {
    let mode = if options.raw { Mode::Raw } else { Mode::Rules };
    let mut program = match options.answers {
        true => Program::answers_only(mode),
        false => Program::new(mode),
    };
    for line in script.lines() {
        match program.line(line) {
            Ok(None) => {}
            Ok(Some(block)) => write!(out, "{block}")?,
            Err(failure) => return Ok(Some(failure)),
        }
    }
    Ok(None)
}

/// Compares what was compiled with what is in the reference's directory now.
fn verify() -> ExitCode {
    let mut differ = 0;
    for (file, compiled) in reference::COMPILED {
        let path = std::path::Path::new(reference::DIRECTORY).join(file);
        match fs::read(&path) {
            Ok(bytes) if bytes == *compiled => {
                println!("{file}: {} bytes, the same", bytes.len());
            }
            Ok(_) => {
                println!("{file}: differs from what was compiled");
                differ += 1;
            }
            Err(error) => {
                println!("{file}: cannot be read: {error}");
                differ += 1;
            }
        }
    }
    if differ == 0 {
        ExitCode::SUCCESS
    } else {
        ExitCode::FAILURE
    }
}

/// Rounds of a benchmark; each call counts with its quickest.
const ROUNDS: usize = 5;

fn print_times(script: &str) -> ExitCode {
    match bench::measure(script, ROUNDS) {
        Ok(rows) => {
            for row in rows {
                println!("{} {} {:.0}", row.call, row.count, row.nanoseconds);
            }
            println!("clock 1 {:.0}", bench::clock_cost());
            ExitCode::SUCCESS
        }
        Err(what) => {
            eprintln!("driver: {what}");
            ExitCode::FAILURE
        }
    }
}

fn main() -> ExitCode {
    let options = match options(std::env::args().skip(1)) {
        Ok(options) => options,
        Err((0, text)) => {
            print!("{text}");
            return ExitCode::SUCCESS;
        }
        Err((status, text)) => {
            eprint!("{text}");
            return ExitCode::from(status);
        }
    };
    if options.verify {
        return verify();
    }
    let script = match read(options.script.as_deref()) {
        Ok(script) => script,
        Err(error) => {
            eprintln!(
                "driver: {}: {error}",
                options.script.as_deref().unwrap_or("standard input")
            );
            return ExitCode::FAILURE;
        }
    };
    if options.bench {
        return print_times(&script);
    }
    let mut out = BufWriter::new(io::stdout().lock());
    let ended = run(&script, &options, &mut out).and_then(|ended| out.flush().map(|()| ended));
    match ended {
        Ok(None) => ExitCode::SUCCESS,
        Ok(Some(failure)) => {
            eprintln!("driver: {failure}");
            ExitCode::from(failure.status())
        }
        Err(error) => {
            eprintln!("driver: {error}");
            ExitCode::FAILURE
        }
    }
}
