//! `replayer replay PLAN` writes the outcome of a plan, `replayer plan KIND` a large plan of that kind.

use replayer::{large, outcome, plan, replay};
use std::io::{self, Write};
use std::process::ExitCode;

/// The text of the outcome of the plan in this file.
fn replay_file(path: &str) -> io::Result<Vec<u8>> {
    let text = std::fs::read(path)?;
    let plan = plan::read(&text).ok_or_else(|| io::Error::other("no plan"))?;
    Ok(outcome::text(&replay::replay(&plan)))
}

fn write(text: &[u8]) -> io::Result<()> {
    io::stdout().write_all(text)
}

fn main() -> ExitCode {
    let words: Vec<String> = std::env::args().skip(1).collect();
    let words: Vec<&str> = words.iter().map(String::as_str).collect();
    let written = match words[..] {
        ["replay", path] => replay_file(path).and_then(|text| write(&text)),
        ["plan", "updates"] => write(&large::updates()),
        ["plan", "scans"] => write(&large::scans()),
        ["plan", "walk"] => write(&large::walk()),
        _ => {
            eprintln!("usage: replayer replay PLAN, replayer plan updates|scans|walk");
            return ExitCode::from(2);
        }
    };
    if let Err(error) = written {
        eprintln!("replayer: {error}");
        return ExitCode::FAILURE;
    }
    ExitCode::SUCCESS
}
