//! Prints a random script.

use driver::{
    generate::{Lines, full_tables, script},
    options::{Options, wrong_use},
};
use std::process::ExitCode;

const HELP: &str = "\
generate SEED [--length N] [--calls NAME,NAME,...]
generate full

Prints the random script of a seed, of N lines (80 if not said). With --calls,
only the named lines appear besides make; without it, all. Names are the eleven
calls and: lane setid setretries ask; remake (later and refused makes); outbox
(the outbox link); level (public keys and digests, which need outbox too). The
lines record and order, for the roster and the draw by themselves, appear only if
they are named.

`full` is one long script that fills every table to its bound and one row above.
";

fn main() -> ExitCode {
    let options = match Options::read(HELP, &["length", "calls"], &[]) {
        Ok(options) => options,
        Err(status) => return status,
    };
    let [seed] = &options.words[..] else {
        return wrong_use(HELP, "one seed is needed");
    };
    if seed == "full" {
        print!("{}", full_tables());
        return ExitCode::SUCCESS;
    }
    let (Ok(seed), Ok(length)) = (
        seed.parse(),
        options.value("length").unwrap_or("80").parse(),
    ) else {
        return wrong_use(HELP, "the seed and the length are numbers");
    };
    let lines = match options
        .value("calls")
        .map_or_else(|| Ok(Lines::all()), Lines::parse)
    {
        Ok(lines) => lines,
        Err(what) => return wrong_use(HELP, &what),
    };
    print!("{}", script(seed, length, &lines));
    ExitCode::SUCCESS
}
