//! The one operation for things that happen, whatever the event's class.

use crate::decoded::{Marking, MarkingAnswer, Table};
use crate::effect::effect;
use crate::enabled::{is_enabled, judge_event};
use crate::judge::understand;
use crate::process::{Process, State};
use crate::refusal::NOT_ENABLED;

pub fn execute_if_enabled(process: &Process, state: &State, event: usize) -> Result<State, u8> {
    judge_event(process, event)?;
    if is_enabled(process, state, event) {
        Ok(effect(process, state, event))
    } else {
        Err(NOT_ENABLED)
    }
}

pub fn happen(table: &Table, marking: &Marking, event: usize) -> MarkingAnswer {
    let result = understand(table, marking)
        .and_then(|(process, state)| execute_if_enabled(&process, &state, event))
        .map(|after| after.over(marking));
    MarkingAnswer::from_result(result, marking)
}
