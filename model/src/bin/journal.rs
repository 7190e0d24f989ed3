//! Turns a journal's text into its bytes, and back.

use std::ffi::OsString;
use std::io::{Read, Write};
use std::process::ExitCode;

use model::journal;
use model::text::{self, DaysAs};

const USAGE: &str = "\
usage: journal make [TEXT] > JOURNAL
       journal show [--dates] [JOURNAL] > TEXT
Without a file name, standard input is read. With --dates, days are shown as
dates such as 2026-11-23, day 0 being 2000-01-01.";

fn main() -> ExitCode {
    let arguments: Vec<OsString> = std::env::args_os().skip(1).collect();
    let done = output(&arguments).and_then(|bytes| {
        std::io::stdout().write_all(&bytes).map_err(|error| format!("cannot write: {error}"))
    });
    match done {
        Ok(()) => ExitCode::SUCCESS,
        Err(message) => {
            eprintln!("{message}");
            ExitCode::FAILURE
        }
    }
}

/// All that is to be written, known before any of it is.
fn output(arguments: &[OsString]) -> Result<Vec<u8>, String> {
    let words: Vec<&str> = arguments.iter().map(|word| word.to_str().unwrap_or_default()).collect();
    match words[..] {
        ["make", ..] => make(&input(&arguments[1..])?),
        ["show", "--dates", ..] => show(&input(&arguments[2..])?, DaysAs::Dates),
        ["show", ..] => show(&input(&arguments[1..])?, DaysAs::Numbers),
        _ => Err(USAGE.to_string()),
    }
}

/// What the file holds, or standard input where none is named.
fn input(files: &[OsString]) -> Result<Vec<u8>, String> {
    match files {
        [] => {
            let mut bytes = Vec::new();
            let read = std::io::stdin().read_to_end(&mut bytes);
            read.map(|_| bytes).map_err(|error| format!("cannot read standard input: {error}"))
        }
        [name] if !name.as_encoded_bytes().starts_with(b"--") => {
            std::fs::read(name).map_err(|error| format!("cannot read {}: {error}", name.display()))
        }
        _ => Err(USAGE.to_string()),
    }
}

fn make(bytes: &[u8]) -> Result<Vec<u8>, String> {
    text::decode(bytes).and_then(text::make).map_err(|error| error.to_string())
}

fn show(bytes: &[u8], days: DaysAs) -> Result<Vec<u8>, String> {
    let malformed = "journal refused: a count past its limit, an early end, or bytes left over";
    journal::parse(bytes)
        .map(|journal| text::show(&journal, days).into_bytes())
        .map_err(|_| malformed.to_string())
}
