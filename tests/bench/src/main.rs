//! `bench --program WORD.. --cases N --seed S [--calls 1-6]` sends the cases at
//! the limits and N random ones to one run of the program. It exits 0 if every
//! answer agrees, 1 at the first that differs or if a number came up that is given
//! no more, 2 if the comparison was not made.
//!
//! `bench --write FOLDER ..` runs nothing: it writes the N random cases to
//! FOLDER/stdin and the answers that are expected to FOLDER/stdout, for `rt` to run.
//!
//! `bench --station WORD.. --inputs N --seed S` runs the station program on the
//! whole inputs at the limits and on N random ones, each in a run of its own.

use bench::calls::{chosen, Call, CALLS};
use bench::compare::{
    compare, edge_questions, random_questions, retired_questions, Difference, Question, Tally,
};
use bench::never::agreed;
use bench::program::start;
use bench::station;
use std::io::{BufReader, Write};
use std::iter::Peekable;
use std::path::{Path, PathBuf};
use std::process::{ChildStdin, ExitCode};
use std::sync::mpsc::{channel, Sender};
use std::thread;

const USAGE: &str =
    "usage: bench (--program WORD.. | --write FOLDER) --cases N --seed S [--calls 1-6]
       bench --station WORD.. --inputs N --seed S";

enum Mode {
    Program(Vec<String>),
    Write(PathBuf),
    Station(Vec<String>),
}

struct Wanted {
    mode: Mode,
    cases: usize,
    seed: u64,
    calls: Vec<&'static Call>,
}

/// The words up to the next option: a program and its arguments.
fn program(words: &mut Peekable<impl Iterator<Item = String>>) -> Option<Vec<String>> {
    let mut program = Vec::new();
    while let Some(part) = words.next_if(|next| !next.starts_with("--")) {
        program.push(part);
    }
    (!program.is_empty()).then_some(program)
}

/// None if the words are not those of the usage.
fn wanted(words: impl Iterator<Item = String>) -> Option<Wanted> {
    let mut words = words.peekable();
    let (mut modes, mut cases, mut inputs, mut seed) = (Vec::new(), None, None, None);
    let mut calls = None;
    while let Some(word) = words.next() {
        match word.as_str() {
            "--program" => modes.push(Mode::Program(program(&mut words)?)),
            "--station" => modes.push(Mode::Station(program(&mut words)?)),
            "--write" => modes.push(Mode::Write(PathBuf::from(words.next()?))),
            "--cases" => cases = Some(words.next()?.parse().ok()?),
            "--inputs" => inputs = Some(words.next()?.parse().ok()?),
            "--seed" => seed = Some(words.next()?.parse().ok()?),
            "--calls" => calls = Some(chosen(&words.next()?)?),
            _ => return None,
        }
    }
    let mode = modes.pop()?;
    let of_calls = !matches!(mode, Mode::Station(_));
    if !modes.is_empty() || cases.is_some() != of_calls || inputs.is_some() == of_calls {
        return None;
    }
    if calls.is_some() && !of_calls {
        return None;
    }
    Some(Wanted {
        mode,
        cases: cases.or(inputs)?,
        seed: seed?,
        calls: calls.unwrap_or_else(|| CALLS.iter().collect()),
    })
}

/// Writes the questions and hands them on, without waiting for an answer: a
/// program may hold its answers back until its input ends. One that reads slowly
/// holds the questions up. Stops if either side has gone.
fn ask(all: impl Iterator<Item = Question>, mut input: ChildStdin, hand_on: Sender<Question>) {
    for question in all {
        // A program that ended early reads no more; its missing answer is then seen.
        let written = input.write_all(&question.frame()).is_ok();
        if hand_on.send(question).is_err() || !written {
            return;
        }
    }
}

/// The questions as a program's input, and the answers as its output.
fn write(folder: &Path, all: impl Iterator<Item = Question>) -> std::io::Result<()> {
    let (mut input, mut output) = (Vec::new(), Vec::new());
    for question in all {
        input.extend(question.frame());
        output.extend(question.answer_frame());
    }
    std::fs::write(folder.join("stdin"), input)?;
    std::fs::write(folder.join("stdout"), output)
}

fn run(words: &[String], wanted: &Wanted) -> std::io::Result<Result<Tally, Box<Difference>>> {
    let mut child = start(words)?;
    let input = child.stdin.take().expect("the input is a pipe");
    let mut output = BufReader::new(child.stdout.take().expect("the output is a pipe"));
    let random = random_questions(wanted.calls.clone(), wanted.cases, wanted.seed);
    let fixed = edge_questions(wanted.calls.clone()).chain(retired_questions());
    let all = fixed.chain(random);
    let (hand_on, handed) = channel();
    let asking = thread::spawn(move || ask(all, input, hand_on));
    let verdict = compare(handed.into_iter(), &mut output)?;
    if verdict.is_err() {
        child.kill()?;
        child.wait()?;
        return Ok(verdict);
    }
    asking.join().expect("the questions were asked");
    let ended = child.wait()?;
    if ended.success() {
        return Ok(verdict);
    }
    Err(std::io::Error::other(format!(
        "the program ended with {ended}"
    )))
}

/// The report of a mode, and how it exits.
fn compared(words: &[String], wanted: &Wanted) -> std::io::Result<(String, u8)> {
    let seed = wanted.seed;
    Ok(match run(words, wanted)? {
        Ok(tally) => {
            let agree = format!("{} cases agree", tally.cases());
            let (line, code) = agreed("bench", seed, tally.numbers(), &[(); 0], agree);
            (format!("{tally}{line}"), code)
        }
        Err(difference) => {
            let report = format!("{difference}\nbench: the answers differ, seed {seed}");
            (report, 1)
        }
    })
}

fn station_compared(words: &[String], wanted: &Wanted) -> std::io::Result<(String, u8)> {
    let seed = wanted.seed;
    Ok(match station::run(words, wanted.cases, seed)? {
        Ok(tally) => {
            let agree = format!("{} inputs agree", tally.inputs);
            let (line, code) = agreed("bench", seed, tally.numbers(), &tally.missing(), agree);
            (format!("{tally}{line}"), code)
        }
        Err(difference) => {
            let report = format!("{difference}\nbench: the outputs differ, seed {seed}");
            (report, 1)
        }
    })
}

fn written(folder: &Path, wanted: &Wanted) -> std::io::Result<(String, u8)> {
    let random = random_questions(wanted.calls.clone(), wanted.cases, wanted.seed);
    write(folder, random)?;
    Ok((format!("bench: {} cases written", wanted.cases), 0))
}

fn main() -> ExitCode {
    let Some(wanted) = wanted(std::env::args().skip(1)) else {
        eprintln!("{USAGE}");
        return ExitCode::from(2);
    };
    let ended = match &wanted.mode {
        Mode::Program(words) => compared(words, &wanted),
        Mode::Station(words) => station_compared(words, &wanted),
        Mode::Write(folder) => written(folder, &wanted),
    };
    let (report, code) = ended.unwrap_or_else(|error| (format!("bench: not done: {error}"), 2));
    println!("{report}");
    ExitCode::from(code)
}
