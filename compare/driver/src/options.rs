//! Command lines: `--name value` options, `--flag`s, and plain words.

use std::process::ExitCode;

/// A command line taken apart.
#[derive(Default)]
pub struct Options {
    values: Vec<(String, String)>,
    flags: Vec<String>,
    pub words: Vec<String>,
}

impl Options {
    /// Takes the program's own command line apart; for `--help`, or a word that it
    /// does not know, prints the help and answers the status to end with.
    pub fn read(help: &str, values: &[&str], flags: &[&str]) -> Result<Self, ExitCode> {
        let mut options = Self::default();
        let mut words = std::env::args().skip(1);
        while let Some(word) = words.next() {
            let name = word.strip_prefix("--");
            match name {
                None => options.words.push(word),
                Some("help") => {
                    print!("{help}");
                    return Err(ExitCode::SUCCESS);
                }
                Some(name) if flags.contains(&name) => options.flags.push(name.into()),
                Some(name) if values.contains(&name) => {
                    let Some(value) = words.next() else {
                        return Err(wrong_use(help, &format!("--{name} needs a value")));
                    };
                    options.values.push((name.into(), value));
                }
                Some(name) => return Err(wrong_use(help, &format!("there is no --{name}"))),
            }
        }
        Ok(options)
    }

    pub fn has(&self, flag: &str) -> bool {
        self.flags.iter().any(|name| name == flag)
    }

    pub fn value(&self, name: &str) -> Option<&str> {
        let found = self.values.iter().rev().find(|(known, _)| known == name)?;
        Some(&found.1)
    }
}

/// Says what is wrong, with the help.
pub fn wrong_use(help: &str, what: &str) -> ExitCode {
    eprint!("{what}\n\n{help}");
    ExitCode::from(2)
}
