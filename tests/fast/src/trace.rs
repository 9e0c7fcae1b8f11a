//! The trace runner. What depends on the table alone is worked out once.

use crate::check::{verdict, Verdict};
use crate::decoded::{Marking, Table};
use crate::guarded::in_order;
use crate::judge::judge;
use crate::process::Process;
use crate::state::State;

#[inline]
fn happen(p: &Process, state: &mut State, event: u8) -> u8 {
    if usize::from(event) >= p.table.events {
        return 8;
    }
    if !state.enabled(p, event) {
        return 10;
    }
    state.execute(p, event);
    0
}

#[inline]
fn plain_tick(state: &mut State) -> u8 {
    if state.due() != 0 {
        return 11;
    }
    state.tick();
    0
}

fn accepts(p: &Process, state: &State) -> bool {
    let excluded = p.table.all() & !state.included;
    verdict(p.table, p.survey, excluded, state.bounded) == Verdict::Accepts
}

/// Of what the check accepts.
#[inline]
fn guarded_tick(p: &Process, state: &mut State) {
    if state.due() != 0 {
        in_order(p.survey, state.needed(p), |event| {
            state.take(p, event);
        });
    }
    state.tick();
}

fn play(p: &Process, m: &mut Marking, steps: &[u8], answers: &mut [u8]) {
    let mut state = State::of(m);
    let mut accepted = false;
    for (step, answer) in steps.chunks_exact(2).zip(answers) {
        *answer = match (step[0], step[1]) {
            (0 | 1, event) => happen(p, &mut state, event),
            (2, 0) => plain_tick(&mut state),
            (3, 0) => {
                // Once the check accepts it goes on accepting, whatever the steps.
                accepted = accepted || accepts(p, &state);
                if accepted {
                    guarded_tick(p, &mut state);
                    0
                } else {
                    12
                }
            }
            _ => 15,
        };
    }
    state.put(m);
}

fn whole_number(t: &Table, m: &Marking, steps: usize, room: usize) -> u8 {
    if let Err(number) = judge(t, m) {
        return number;
    }
    if steps % 2 == 1 {
        return 1;
    }
    if steps > 2 * 4096 || room < steps / 2 {
        return 14;
    }
    0
}

/// Steps of 2 bytes, kind and event; one answer byte for each.
pub fn run_bytes(t: &Table, m: &mut Marking, steps: &[u8], answers: &mut [u8]) -> u8 {
    let number = whole_number(t, m, steps.len(), answers.len());
    if number == 0 {
        Process::of(t, |p| play(p, m, steps, answers));
    }
    number
}
