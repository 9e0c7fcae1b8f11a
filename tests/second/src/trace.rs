//! The trace runner.

use crate::decoded::{Marking, MarkingAnswer, Table};
use crate::guarded::guarded;
use crate::happen::execute_if_enabled;
use crate::judge::understand;
use crate::process::{Process, State};
use crate::refusal::{CHECK_REJECTS, DONE, LENGTH, STEP, TOO_LONG_OR_SHORT};
use crate::time::tick_unless_due;

pub const LONGEST_TRACE: usize = 4096;

/// Two kinds for the one operation, so that old traces run.
const HAPPENS: u8 = 0;
const HAPPENS_TOO: u8 = 1;
const PLAIN_TICK: u8 = 2;
const GUARDED_TICK: u8 = 3;

#[derive(Clone, Copy, PartialEq, Eq, Debug)]
pub struct Step {
    pub kind: u8,
    pub event: u8,
}

fn take_step(process: &Process, state: &State, step: &Step) -> Result<State, u8> {
    let event = usize::from(step.event);
    match (step.kind, step.event) {
        (HAPPENS | HAPPENS_TOO, _) => execute_if_enabled(process, state, event),
        (PLAIN_TICK, 0) => tick_unless_due(state),
        (GUARDED_TICK, 0) => match guarded(process, state) {
            Ok((_, after)) => Ok(after),
            Err(_) => Err(CHECK_REJECTS),
        },
        _ => Err(STEP),
    }
}

/// Nothing is written before every fault of the trace as a whole is ruled out.
fn run_understood(
    process: &Process,
    state: State,
    steps: &[Step],
    answers: &mut [u8],
) -> Result<State, u8> {
    if steps.len() > LONGEST_TRACE || answers.len() < steps.len() {
        return Err(TOO_LONG_OR_SHORT);
    }
    let mut now = state;
    for (step, answer) in steps.iter().zip(answers.iter_mut()) {
        *answer = match take_step(process, &now, step) {
            Ok(after) => {
                now = after;
                DONE
            }
            Err(number) => number,
        };
    }
    Ok(now)
}

pub fn run(table: &Table, marking: &Marking, steps: &[Step], answers: &mut [u8]) -> MarkingAnswer {
    let result = understand(table, marking)
        .and_then(|(process, state)| run_understood(&process, state, steps, answers))
        .map(|after| after.over(marking));
    MarkingAnswer::from_result(result, marking)
}

fn steps_of(bytes: &[u8]) -> Result<Vec<Step>, u8> {
    if bytes.len() % 2 == 1 {
        return Err(LENGTH);
    }
    Ok(bytes
        .chunks_exact(2)
        .map(|pair| Step {
            kind: pair[0],
            event: pair[1],
        })
        .collect())
}

/// The steps as pairs of bytes, as they stand in the station's input.
pub fn run_bytes(
    table: &Table,
    marking: &Marking,
    steps: &[u8],
    answers: &mut [u8],
) -> MarkingAnswer {
    let result = understand(table, marking)
        .and_then(|(process, state)| {
            let steps = steps_of(steps)?;
            run_understood(&process, state, &steps, answers)
        })
        .map(|after| after.over(marking));
    MarkingAnswer::from_result(result, marking)
}
