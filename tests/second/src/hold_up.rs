//! What holds an event up, or would.

use crate::decoded::{Marking, Table};
use crate::enabled::{blocks, judge_event, Right};
use crate::judge::understand;
use crate::process::{Process, State};

#[derive(Clone, Copy, PartialEq, Eq, Debug)]
pub enum HoldUpAnswer {
    Refused(u8),
    /// Enabled, and no relation would block it if its right event were included.
    Enabled,
    /// Enabled. The lowest-numbered relation that would block the event if the
    /// right event of that relation were included.
    EnabledUnless(usize),
    Excluded,
    /// The lowest-numbered relation that blocks the event.
    Blocked(usize),
}

/// The lowest-numbered relation that blocks the event, its right event taken so.
fn first_block(process: &Process, state: &State, event: usize, taken: Right) -> Option<usize> {
    process
        .relations
        .iter()
        .position(|link| link.left == event && blocks(link, state, taken))
}

fn attempt(table: &Table, marking: &Marking, event: usize) -> Result<HoldUpAnswer, u8> {
    let (process, state) = understand(table, marking)?;
    judge_event(&process, event)?;
    if !state.of[event].included {
        return Ok(HoldUpAnswer::Excluded);
    }
    if let Some(number) = first_block(&process, &state, event, Right::AsItStands) {
        return Ok(HoldUpAnswer::Blocked(number));
    }
    // No relation blocks as it stands, so one found now has its right excluded.
    match first_block(&process, &state, event, Right::AsIncluded) {
        Some(number) => Ok(HoldUpAnswer::EnabledUnless(number)),
        None => Ok(HoldUpAnswer::Enabled),
    }
}

pub fn hold_up(table: &Table, marking: &Marking, event: usize) -> HoldUpAnswer {
    match attempt(table, marking, event) {
        Ok(answer) => answer,
        Err(number) => HoldUpAnswer::Refused(number),
    }
}
