//! Prints a long script for timing.

use driver::{
    bench::script,
    options::{Options, wrong_use},
};
use std::process::ExitCode;

const HELP: &str = "\
bench-script STATIONS KEYS CALLS

Prints a script of so many calls, none of them refused, with a roster of about so
many stations and about so many live keys throughout.
";

fn main() -> ExitCode {
    let options = match Options::read(HELP, &[], &[]) {
        Ok(options) => options,
        Err(status) => return status,
    };
    let numbers: Option<Vec<u32>> = options.words.iter().map(|word| word.parse().ok()).collect();
    let Some([stations @ 1..=1024, keys @ 1..=1024, calls]) = numbers.as_deref() else {
        return wrong_use(
            HELP,
            "three numbers are needed, the first two from 1 to 1024",
        );
    };
    print!("{}", script(*stations, *keys, *calls as usize));
    ExitCode::SUCCESS
}
