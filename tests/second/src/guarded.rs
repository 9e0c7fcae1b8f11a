//! The guarded tick: what is due is caused, then one tick passes.

use crate::check::{static_check, Rejection};
use crate::decoded::{Marking, Table, MOST_EVENTS};
use crate::effect::effect;
use crate::enabled::{blocks, Right};
use crate::event_set::EventSet;
use crate::judge::understand;
use crate::process::{Process, State};
use crate::refusal::{CHECK_REJECTS, DONE};
use crate::time::{due_events, nothing_due, tick};

#[derive(Clone, Copy, PartialEq, Eq, Debug)]
pub struct GuardedAnswer {
    pub number: u8,
    pub reason: u8,
    pub place: u16,
    /// The executed events in order; places past `count` are 0.
    pub caused: [u8; MOST_EVENTS],
    pub count: u8,
    pub marking: Marking,
}

/// The due events and, repeatedly, each inhibitor that blocks a needed event,
/// judged in the given state. (A right event that blocks is included.)
fn needed_events(process: &Process, state: &State) -> EventSet {
    let mut needed = EventSet::new();
    let mut work: Vec<usize> = due_events(state).into_iter().collect();
    while let Some(event) = work.pop() {
        if needed.insert(event) {
            for link in process.relations_of(event) {
                if blocks(link, state, Right::AsItStands) {
                    work.push(link.right);
                }
            }
        }
    }
    needed
}

/// The order in which the needed events are taken. It does not depend on what
/// the taken events do, so it is settled beforehand. An inhibitor goes first
/// whether or not it blocks at the moment.
fn taking_order(process: &Process, needed: &EventSet) -> Vec<usize> {
    let mut order = Vec::new();
    let mut untaken = needed.clone();
    loop {
        let ready = untaken
            .iter()
            .copied()
            .find(|&event| process.inhibitors(event).is_disjoint(&untaken));
        match ready {
            Some(event) => {
                untaken.remove(&event);
                order.push(event);
            }
            None => return order,
        }
    }
}

/// The executed events in order and the state one tick later, for a state that the
/// check accepts.
pub fn cause_and_tick(process: &Process, state: State) -> (Vec<usize>, State) {
    let mut caused = Vec::new();
    // Nothing is needed then. Long sleeps would take long without asking this first.
    if nothing_due(&state) {
        return (caused, tick(state));
    }
    let order = taking_order(process, &needed_events(process, &state));
    let mut now = state;
    for event in order {
        // An event taken earlier may have excluded this one.
        if now.of[event].included {
            now = effect(process, &now, event);
            caused.push(event);
        }
    }
    (caused, tick(now))
}

pub fn guarded(process: &Process, state: &State) -> Result<(Vec<usize>, State), Rejection> {
    static_check(process, state)?;
    Ok(cause_and_tick(process, state.clone()))
}

pub fn guarded_tick(table: &Table, marking: &Marking) -> GuardedAnswer {
    let mut answer = GuardedAnswer {
        number: DONE,
        reason: 0,
        place: 0,
        caused: [0; MOST_EVENTS],
        count: 0,
        marking: *marking,
    };
    let (process, state) = match understand(table, marking) {
        Ok(understood) => understood,
        Err(number) => {
            answer.number = number;
            return answer;
        }
    };
    match guarded(&process, &state) {
        Ok((caused, after)) => {
            for (place, event) in answer.caused.iter_mut().zip(&caused) {
                *place = *event as u8;
            }
            answer.count = caused.len() as u8;
            answer.marking = after.over(marking);
        }
        Err(rejection) => {
            answer.number = CHECK_REJECTS;
            answer.reason = rejection.reason;
            answer.place = rejection.place;
        }
    }
    answer
}
