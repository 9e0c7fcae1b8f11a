//! Sleeping: so many guarded ticks in one call.

use crate::check::{static_check, Rejection};
use crate::decoded::{Marking, Table};
use crate::guarded::cause_and_tick;
use crate::judge::understand;
use crate::process::{Process, State};
use crate::refusal::{CHECK_REJECTS, DONE, TOO_LONG_OR_SHORT};

/// Most ticks that one call passes.
pub const LONGEST_SLEEP: u64 = 1_000_000;

#[derive(Clone, Copy, PartialEq, Eq, Debug)]
pub struct SleepAnswer {
    pub number: u8,
    pub reason: u8,
    pub place: u16,
    /// How many places of the lent list were written.
    pub count: usize,
    pub marking: Marking,
}

/// A refusal number; reason and place are the check's, and 0 with any other number.
struct Refusal {
    number: u8,
    reason: u8,
    place: u16,
}

impl From<u8> for Refusal {
    fn from(number: u8) -> Refusal {
        Refusal {
            number,
            reason: 0,
            place: 0,
        }
    }
}

impl From<Rejection> for Refusal {
    fn from(rejection: Rejection) -> Refusal {
        Refusal {
            number: CHECK_REJECTS,
            reason: rejection.reason,
            place: rejection.place,
        }
    }
}

/// An event that was caused before this tick. The first tick is 1.
struct Caused {
    tick: u64,
    event: usize,
}

impl Caused {
    /// Ticks are a million at most, so a place has room for both.
    fn place(&self) -> u32 {
        256 * self.tick as u32 + self.event as u32
    }
}

/// So many guarded ticks, one after another, or fewer where there is no room for what
/// was caused by then: what there is no room for now there is none for later.
///
/// The check is asked before the first tick, and so without any tick, too. Of a marking
/// it reads which events are excluded and which are bounded pending. A tick before which
/// nothing is caused changes neither: a deadline falls, not below 0, and stays bounded.
/// So the check is asked anew only where something was caused before the last tick.
fn pass(
    process: &Process,
    state: State,
    ticks: u64,
    room: usize,
) -> Result<(Vec<Caused>, State), Rejection> {
    static_check(process, &state)?;
    let mut now = state;
    let mut all = Vec::new();
    let mut asked = true;
    for tick in 1..=ticks {
        if !asked {
            static_check(process, &now)?;
        }
        let (events, after) = cause_and_tick(process, now);
        now = after;
        asked = events.is_empty();
        all.extend(events.into_iter().map(|event| Caused { tick, event }));
        if all.len() > room {
            break;
        }
    }
    Ok((all, now))
}

fn attempt(
    table: &Table,
    marking: &Marking,
    ticks: u64,
    room: usize,
) -> Result<(Vec<Caused>, State), Refusal> {
    let (process, state) = understand(table, marking)?;
    if ticks > LONGEST_SLEEP {
        return Err(TOO_LONG_OR_SHORT.into());
    }
    let (caused, after) = pass(&process, state, ticks, room)?;
    if caused.len() > room {
        return Err(TOO_LONG_OR_SHORT.into());
    }
    Ok((caused, after))
}

/// The places that a list of the caused events starts with, `most` of them or a few
/// more if there are so many. None of a call that is refused.
pub(crate) fn first_places(
    table: &Table,
    marking: &Marking,
    ticks: u64,
    most: usize,
) -> Option<Vec<u32>> {
    let (process, state) = understand(table, marking).ok()?;
    let (caused, _) = pass(&process, state, ticks.min(LONGEST_SLEEP), most).ok()?;
    Some(caused.iter().map(Caused::place).collect())
}

/// Passes so many guarded ticks and lists the caused events in order. A place is
/// 256 × tick + event.
pub fn sleep(table: &Table, marking: &Marking, ticks: u64, list: &mut [u32]) -> SleepAnswer {
    match attempt(table, marking, ticks, list.len()) {
        Ok((caused, after)) => {
            for (place, caused) in list.iter_mut().zip(&caused) {
                *place = caused.place();
            }
            SleepAnswer {
                number: DONE,
                reason: 0,
                place: 0,
                count: caused.len(),
                marking: after.over(marking),
            }
        }
        Err(refusal) => SleepAnswer {
            number: refusal.number,
            reason: refusal.reason,
            place: refusal.place,
            count: 0,
            marking: *marking,
        },
    }
}
