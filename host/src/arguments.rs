//! The words of a command line, its files, and how a tool ends.

use crate::fault::Fault;
use std::collections::BTreeMap;
use std::io::{Read, Write};
use std::process::ExitCode;

/// Why a tool ends early.
#[derive(Debug)]
pub enum Failure {
    /// Exit code 2.
    Usage(String),
    /// Exit code 1.
    Input(String),
}

impl Failure {
    /// A fault in a named file.
    pub fn of(file: &str, fault: Fault) -> Self {
        Self::Input(format!("{file}: {fault}"))
    }
}

#[derive(Debug, Default)]
pub struct Arguments {
    pub help: bool,
    pub files: Vec<String>,
    values: BTreeMap<String, String>,
}

impl Arguments {
    /// Reads the words: `valued` options take the next word, `-` is a file.
    pub fn read(
        words: impl Iterator<Item = String>,
        valued: &[&str],
        most: usize,
    ) -> Result<Self, Failure> {
        let mut words = words;
        let mut out = Self::default();
        while let Some(word) = words.next() {
            if word == "--help" || word == "-h" {
                out.help = true;
            } else if valued.contains(&word.as_str()) {
                let value = words
                    .next()
                    .ok_or(Failure::Usage(format!("{word} needs a file name")))?;
                if out.values.insert(word.clone(), value).is_some() {
                    return Err(Failure::Usage(format!("{word} was given twice")));
                }
            } else if word.starts_with('-') && word != "-" {
                return Err(Failure::Usage(format!("unknown option {word}")));
            } else {
                out.files.push(word);
            }
        }
        if out.files.len() > most {
            return Err(Failure::Usage(format!(
                "{} files: expected at most {most}",
                out.files.len()
            )));
        }
        Ok(out)
    }

    pub fn value(&self, option: &str) -> Option<&str> {
        self.values.get(option).map(String::as_str)
    }

    /// The file at a place, or standard input.
    pub fn file(&self, place: usize) -> &str {
        self.files.get(place).map_or("-", String::as_str)
    }
}

/// What a file is called in messages.
pub fn called(file: &str) -> &str {
    match file {
        "-" => "standard input",
        _ => file,
    }
}

pub fn read_file(file: &str) -> Result<Vec<u8>, Failure> {
    let mut bytes = Vec::new();
    let done = match file {
        "-" => std::io::stdin().read_to_end(&mut bytes).map(|_| ()),
        _ => std::fs::read(file).map(|content| bytes = content),
    };
    done.map_err(|e| Failure::Input(format!("{}: {e}", called(file))))?;
    Ok(bytes)
}

/// Writes to a file, or to standard output where there is none.
pub fn write_file(file: Option<&str>, bytes: &[u8]) -> Result<(), Failure> {
    let done = match file {
        Some(file) if file != "-" => std::fs::write(file, bytes),
        _ => std::io::stdout().write_all(bytes),
    };
    done.map_err(|e| Failure::Input(format!("{}: {e}", file.unwrap_or("standard output"))))
}

/// Says why a tool ended early, and its exit code.
pub fn ended(tool: &str, failure: Failure) -> ExitCode {
    match failure {
        Failure::Usage(message) => {
            eprintln!("{tool}: {message}; {tool} --help says how it is used");
            ExitCode::from(2)
        }
        Failure::Input(message) => {
            eprintln!("{tool}: {message}");
            ExitCode::from(1)
        }
    }
}
