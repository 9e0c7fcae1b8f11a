//! Which events are enabled, and what it is for a relation to block.

use crate::decoded::{Marking, Table};
use crate::judge::understand;
use crate::process::{Link, Meaning, Process, State};
use crate::refusal::{DOES_NOT_EXIST, DONE};

#[derive(Clone, Copy, PartialEq, Eq, Debug)]
pub struct EnabledAnswer {
    pub number: u8,
    pub enabled: bool,
}

/// How the right event of a relation is taken when the relation is judged.
#[derive(Clone, Copy, PartialEq, Eq, Debug)]
pub enum Right {
    /// An excluded one never blocks.
    AsItStands,
    /// As if this one event were included, everything else as it stands.
    AsIncluded,
}

/// Whether this relation keeps its left event from happening, or would.
pub fn blocks(link: &Link, state: &State, taken: Right) -> bool {
    let right = &state.of[link.right];
    if taken == Right::AsItStands && !right.included {
        return false;
    }
    match link.meaning {
        Meaning::Condition { time } => match right.age() {
            None => true,
            Some(age) => age < time,
        },
        Meaning::Milestone => right.pending.is_some(),
        Meaning::Response(_) | Meaning::Includes | Meaning::Excludes => false,
    }
}

/// Whether the event is included and no relation blocks it. What a relation
/// would do if its right event came back does not count here.
pub fn is_enabled(process: &Process, state: &State, event: usize) -> bool {
    let blocked = process
        .relations_of(event)
        .any(|link| blocks(link, state, Right::AsItStands));
    state.of[event].included && !blocked
}

pub fn judge_event(process: &Process, event: usize) -> Result<(), u8> {
    if event < process.events {
        Ok(())
    } else {
        Err(DOES_NOT_EXIST)
    }
}

fn attempt(table: &Table, marking: &Marking, event: usize) -> Result<bool, u8> {
    let (process, state) = understand(table, marking)?;
    judge_event(&process, event)?;
    Ok(is_enabled(&process, &state, event))
}

pub fn enabled(table: &Table, marking: &Marking, event: usize) -> EnabledAnswer {
    match attempt(table, marking, event) {
        Ok(enabled) => EnabledAnswer {
            number: DONE,
            enabled,
        },
        Err(number) => EnabledAnswer {
            number,
            enabled: false,
        },
    }
}
