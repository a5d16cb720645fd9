//! compare [--long] [--seed N] [--only NAME]: the port beside the Rust, all operations or one. Exit
//! status 1 where something differs.

use folgutan_harness::compare::{run, Run};
use std::process::ExitCode;

fn main() -> ExitCode {
    let Some(wanted) = parse(std::env::args().skip(1)) else {
        eprintln!("usage: compare [--long] [--seed N] [--only NAME]");
        return ExitCode::from(2);
    };
    if run(&wanted) {
        ExitCode::SUCCESS
    } else {
        ExitCode::FAILURE
    }
}

fn parse(mut words: impl Iterator<Item = String>) -> Option<Run> {
    let mut wanted = Run { long: false, seed: 1, only: None };
    while let Some(word) = words.next() {
        match word.as_str() {
            "--long" => wanted.long = true,
            "--seed" => wanted.seed = words.next()?.parse().ok()?,
            "--only" => wanted.only = Some(words.next()?),
            _ => return None,
        }
    }
    Some(wanted)
}
