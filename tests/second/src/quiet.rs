//! The ticks that can pass before anything is due.

use crate::decoded::{Marking, Table};
use crate::judge::understand;
use crate::process::State;
use crate::refusal::DONE;
use crate::sleep::LONGEST_SLEEP;
use crate::time::{nothing_due, tick};

#[derive(Clone, Copy, PartialEq, Eq, Debug)]
pub struct TicksAnswer {
    pub number: u8,
    pub ticks: u64,
}

/// No deadline of an included event runs: however many ticks pass, nothing falls due.
fn nothing_runs(state: &State) -> bool {
    let mut included = state.of.iter().filter(|event| event.included);
    !included.any(|event| event.is_bounded_pending())
}

/// Counted one by one, up to the longest sleep. Where nothing is due a guarded tick is
/// time passing and nothing else.
fn quiet_ticks(state: State) -> u64 {
    if nothing_runs(&state) {
        return LONGEST_SLEEP;
    }
    let mut now = state;
    let mut passed = 0;
    while passed < LONGEST_SLEEP && nothing_due(&now) {
        now = tick(now);
        passed += 1;
    }
    passed
}

/// How many guarded ticks can pass before one finds an event due, a million at most.
/// The check is not asked.
pub fn quiet(table: &Table, marking: &Marking) -> TicksAnswer {
    match understand(table, marking) {
        Ok((_, state)) => TicksAnswer {
            number: DONE,
            ticks: quiet_ticks(state),
        },
        Err(number) => TicksAnswer { number, ticks: 0 },
    }
}
