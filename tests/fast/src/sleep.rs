//! Sleeping: so many guarded ticks in one call, from date to date; and how many pass
//! before an event is due.

use crate::check::{verdict, Verdict};
use crate::decoded::{Marking, Table};
use crate::flags::Flags;
use crate::guarded::in_order;
use crate::judge::judge;
use crate::process::Process;
use crate::state::State;
use crate::survey::Survey;
use crate::time::{pass, quiet_ticks};

/// Most ticks of one sleep.
const MOST_TICKS: u32 = 1_000_000;

/// Nothing has passed. Reason and place are the check's, and 0 with any other number.
#[derive(Clone, Copy, PartialEq, Eq, Debug)]
pub struct Refused {
    pub number: u8,
    pub reason: u8,
    pub place: usize,
}

impl From<u8> for Refused {
    fn from(number: u8) -> Refused {
        Refused {
            number,
            reason: 0,
            place: 0,
        }
    }
}

fn accepted(t: &Table, s: &Survey, flags: &Flags) -> Result<(), Refused> {
    match verdict(t, s, flags.excluded, flags.busy) {
        Verdict::Accepts => Ok(()),
        Verdict::Rejects { reason, place } => Err(Refused {
            number: 12,
            reason,
            place,
        }),
    }
}

/// Whether a list has room for all that is caused. It is counted on a state of its own,
/// unless there is room for every event at every tick.
fn has_room(p: &Process, mut state: State, ticks: u32, room: usize) -> bool {
    if p.table.events * ticks as usize <= room {
        return true;
    }
    let end = state.now + ticks;
    let mut count = 0;
    while count <= room && state.wait(end) {
        in_order(p.survey, state.needed(p), |event| {
            count += usize::from(state.take(p, event));
        });
        state.tick();
    }
    count <= room
}

/// Of what the check accepts.
fn slept(p: &Process, m: &mut Marking, ticks: u32, list: &mut [u32]) -> Result<usize, Refused> {
    let mut state = State::of(m);
    if !has_room(p, state, ticks, list.len()) {
        return Err(14.into());
    }
    let start = state.now;
    let mut count = 0;
    while state.wait(start + ticks) {
        let tick = state.now - start + 1;
        in_order(p.survey, state.needed(p), |event| {
            if state.take(p, event) {
                list[count] = 256 * tick + u32::from(event);
                count += 1;
            }
        });
        state.tick();
    }
    state.put(m);
    Ok(count)
}

/// How many events are caused. They are written to the start of the list, each with the
/// number of the tick before which it was. Where nothing falls due the records stay
/// records, and no relation is linked.
pub fn sleep(t: &Table, m: &mut Marking, ticks: usize, list: &mut [u32]) -> Result<usize, Refused> {
    judge(t, m)?;
    if ticks > MOST_TICKS as usize {
        return Err(14.into());
    }
    let (ticks, flags) = (ticks as u32, Flags::of(m));
    if quiet_ticks(m, ticks) == ticks {
        accepted(t, &Survey::of(t), &flags)?;
        pass(m, ticks);
        return Ok(0);
    }
    Process::of(t, |p| {
        accepted(t, p.survey, &flags)?;
        slept(p, m, ticks, list)
    })
}

pub fn quiet(t: &Table, m: &Marking) -> Result<u32, u8> {
    judge(t, m)?;
    Ok(quiet_ticks(m, MOST_TICKS))
}
