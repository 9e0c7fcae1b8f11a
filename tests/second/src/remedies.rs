//! Two offered remedies: which start of which list discharges.

use crate::decoded::{Marking, Table};
use crate::happen::execute_if_enabled;
use crate::judge::understand;
use crate::process::{Process, State};
use crate::refusal::{DONE, NO_START_DISCHARGES, TOO_LONG_OR_SHORT};
use crate::time::due_events;

const LONGEST_LIST: usize = 255;

/// The stretch is the first `length` bytes of the list named.
#[derive(Clone, Copy, PartialEq, Eq, Debug)]
pub struct RemedyAnswer {
    pub number: u8,
    pub from_fallback: bool,
    pub length: usize,
}

/// The length of the shortest start that discharges. Every try works on its
/// own copy of the state. The empty start is a start: it discharges when
/// nothing is due to begin with.
fn shortest_discharging_start(process: &Process, state: &State, list: &[u8]) -> Option<usize> {
    let mut now = state.clone();
    let mut length = 0;
    while !due_events(&now).is_empty() {
        let event = usize::from(*list.get(length)?);
        if !process.causable.contains(&event) {
            return None;
        }
        now = execute_if_enabled(process, &now, event).ok()?;
        length += 1;
    }
    Some(length)
}

fn attempt(
    table: &Table,
    marking: &Marking,
    preferred: &[u8],
    fallback: &[u8],
) -> Result<(bool, usize), u8> {
    let (process, state) = understand(table, marking)?;
    if preferred.len() > LONGEST_LIST || fallback.len() > LONGEST_LIST {
        return Err(TOO_LONG_OR_SHORT);
    }
    if let Some(length) = shortest_discharging_start(&process, &state, preferred) {
        return Ok((false, length));
    }
    if let Some(length) = shortest_discharging_start(&process, &state, fallback) {
        return Ok((true, length));
    }
    Err(NO_START_DISCHARGES)
}

pub fn remedies(
    table: &Table,
    marking: &Marking,
    preferred: &[u8],
    fallback: &[u8],
) -> RemedyAnswer {
    match attempt(table, marking, preferred, fallback) {
        Ok((from_fallback, length)) => RemedyAnswer {
            number: DONE,
            from_fallback,
            length,
        },
        Err(number) => RemedyAnswer {
            number,
            from_fallback: false,
            length: 0,
        },
    }
}
