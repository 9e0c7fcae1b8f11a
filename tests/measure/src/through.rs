//! The runners as the bench's program answers them: the runner over a list of
//! steps is lent one, which no covered loop can do, so it is counted there, and the
//! one over bytes beside it. Counted is all that the program does for one question
//! more: it reads the frame, decodes it, runs, and writes the answer. What it does
//! beside the steps is seen where it is refused: there is room for one answer less.

use crate::count::{callgrind, whole, Folder};
use bench::calls::CALLS;
use bench::compare::Question;
use measure::cases::{self, GROWING, STEPS};
use measure::sized::Size;
use std::io::Write;
use std::process::Stdio;

const RUNNERS: [&str; 2] = ["run", "run_bytes"];

/// The instructions of so many answers, of which each is the expected one.
fn answers(words: &[String], question: &Question, times: usize) -> Result<u64, String> {
    let folder = Folder::new()?;
    let out = folder.file("out");
    let failed = |error: std::io::Error| format!("{}: {error}", words.join(" "));
    let mut child = callgrind(&out)
        .args(words)
        .stdin(Stdio::piped())
        .stdout(Stdio::piped())
        .spawn()
        .map_err(failed)?;
    // The input is closed behind the questions; the pipe has room for their answers.
    let mut input = child.stdin.take().expect("the input is a pipe");
    input
        .write_all(&question.frame().repeat(times))
        .map_err(failed)?;
    drop(input);
    let ended = child.wait_with_output().map_err(failed)?;
    if !ended.status.success() {
        return Err(format!("{} failed", words.join(" ")));
    }
    if ended.stdout != question.answer_frame().repeat(times) {
        return Err(format!("{} answers otherwise", question.call.name));
    }
    whole(&out)
}

fn question(name: &str, size: Size, room: usize) -> Question {
    let call = CALLS.iter().find(|call| call.name == name);
    let call = call.expect("a call of the bench");
    Question::new(call, &cases::run(size, name == "run_bytes", room))
}

/// What one answer more takes, at each size.
fn figures(words: &[String], name: &str, room: usize) -> Result<Vec<u64>, String> {
    let mut figures = Vec::new();
    for size in GROWING {
        let question = question(name, size, room);
        let once = answers(words, &question, 1)?;
        figures.push(answers(words, &question, 2)? - once);
    }
    Ok(figures)
}

/// A row for each runner, done and refused: its name, and its figures.
pub fn rows(words: &[String]) -> Result<Vec<(String, Vec<u64>)>, String> {
    let mut rows = Vec::new();
    for (what, room) in [("4096 steps", STEPS), ("refused", STEPS - 1)] {
        for name in RUNNERS {
            let figures = figures(words, name, room)?;
            rows.push((
                format!("{name}, {what}, through the bench program"),
                figures,
            ));
        }
    }
    Ok(rows)
}
