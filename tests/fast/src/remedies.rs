//! Two offered remedies.

use crate::decoded::{only, Marking, Table};
use crate::judge::judge;
use crate::process::Process;
use crate::state::State;
use crate::time::none_due;

/// The length of the shortest start that discharges, where the empty one does not.
fn shortest(p: &Process, mut trial: State, list: &[u8]) -> Option<usize> {
    for (before, &event) in list.iter().enumerate() {
        let possible = usize::from(event) < p.table.events
            && p.table.causable & only(event) != 0
            && trial.enabled(p, event);
        if !possible {
            return None;
        }
        trial.execute(p, event);
        if trial.due() == 0 {
            return Some(before + 1);
        }
    }
    None
}

/// A start of the operator's own list.
#[derive(Clone, Copy, PartialEq, Eq, Debug)]
pub enum Remedy<'a> {
    Preferred(&'a [u8]),
    Fallback(&'a [u8]),
}

pub fn remedies<'a>(
    t: &Table,
    m: &Marking,
    preferred: &'a [u8],
    fallback: &'a [u8],
) -> Result<Remedy<'a>, u8> {
    judge(t, m)?;
    if preferred.len() > 255 || fallback.len() > 255 {
        return Err(14);
    }
    if none_due(m) {
        return Ok(Remedy::Preferred(&preferred[..0]));
    }
    Process::of(t, |p| {
        let state = State::of(m);
        if let Some(length) = shortest(p, state, preferred) {
            return Ok(Remedy::Preferred(&preferred[..length]));
        }
        if let Some(length) = shortest(p, state, fallback) {
            return Ok(Remedy::Fallback(&fallback[..length]));
        }
        Err(13)
    })
}
