//! answers load | locate FILE | screens FOLDER: the Rust's answers to one list of fixed cases.

use folgutan_harness::answers;
use std::env;
use std::path::Path;
use std::process::ExitCode;

fn main() -> ExitCode {
    let words: Vec<String> = env::args().skip(1).collect();
    let words: Vec<&str> = words.iter().map(String::as_str).collect();
    let done = match words[..] {
        ["load"] => {
            answers::load::print();
            Ok(())
        }
        ["locate", file] => answers::locate::write(Path::new(file)),
        ["screens", folder] => answers::screens::write(Path::new(folder)),
        _ => {
            eprintln!("answers load | locate FILE | screens FOLDER");
            return ExitCode::from(2);
        }
    };
    if let Err(error) = done {
        eprintln!("answers: {error}");
        return ExitCode::FAILURE;
    }
    ExitCode::SUCCESS
}
