//! `boundary --program WORD.. --cases N --seed S` sends N random questions over
//! images and plain numbers to one run of the program (`tests/boundary/answers.c`).
//! It exits 0 if every answer agrees, 1 at the first that differs or if a number came
//! up that is given no more, 2 if nothing was compared or some number did not come up.

use bench::boundary::{missing, run};
use bench::never::agreed;
use std::process::ExitCode;

const USAGE: &str = "usage: boundary --program WORD.. --cases N --seed S";

/// The program's words, the cases and the seed; None if the words are not those
/// of the usage.
fn wanted(words: &[String]) -> Option<(&[String], usize, u64)> {
    let [first, program @ .., cases, n, seed, s] = words else {
        return None;
    };
    let named = [first.as_str(), cases, seed] == ["--program", "--cases", "--seed"];
    (named && !program.is_empty()).then_some(())?;
    Some((program, n.parse().ok()?, s.parse().ok()?))
}

fn report(program: &[String], cases: usize, seed: u64) -> std::io::Result<(String, u8)> {
    Ok(match run(program, cases, seed)? {
        Err(difference) => {
            let report = format!("{difference:#?}\nboundary: the answers differ, seed {seed}");
            (report, 1)
        }
        Ok(seen) => {
            let numbers = seen.iter().copied();
            let agree = format!("{cases} cases agree");
            agreed("boundary", seed, numbers, &missing(&seen), agree)
        }
    })
}

fn main() -> ExitCode {
    let words: Vec<String> = std::env::args().skip(1).collect();
    let Some((program, cases, seed)) = wanted(&words) else {
        eprintln!("{USAGE}");
        return ExitCode::from(2);
    };
    let (report, code) = report(program, cases, seed)
        .unwrap_or_else(|error| (format!("boundary: not done: {error}"), 2));
    println!("{report}");
    ExitCode::from(code)
}
