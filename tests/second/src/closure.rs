//! The busy events and their closure under inhibitors.

use crate::decoded::{Marking, Table};
use crate::event_set::{to_word, EventSet};
use crate::judge::understand;
use crate::process::{Deadline, Meaning, Process, State};
use crate::refusal::DONE;

#[derive(Clone, Copy, PartialEq, Eq, Debug)]
pub struct ClosureAnswer {
    pub number: u8,
    pub set: u64,
    /// How many events the set holds.
    pub size: u32,
}

fn busy(process: &Process, state: &State) -> EventSet {
    let mut busy = EventSet::new();
    // Excluded events count too: an excluded one may come back.
    for (event, event_state) in state.of.iter().enumerate() {
        if event_state.is_bounded_pending() {
            busy.insert(event);
        }
    }
    for link in &process.relations {
        if let Meaning::Response(Deadline::Within(_)) = link.meaning {
            busy.insert(link.right);
        }
    }
    busy
}

/// The given events and, repeatedly, their inhibitors.
pub fn with_inhibitors(process: &Process, start: EventSet) -> EventSet {
    let mut reached = EventSet::new();
    let mut work: Vec<usize> = start.into_iter().collect();
    while let Some(event) = work.pop() {
        if reached.insert(event) {
            work.extend(process.inhibitors(event));
        }
    }
    reached
}

pub fn closure_of(process: &Process, state: &State) -> EventSet {
    with_inhibitors(process, busy(process, state))
}

/// Counted by going through the events there are.
fn size_of(process: &Process, closure: &EventSet) -> u32 {
    let mut size = 0;
    for event in 0..process.events {
        if closure.contains(&event) {
            size += 1;
        }
    }
    size
}

pub fn closure(table: &Table, marking: &Marking) -> ClosureAnswer {
    match understand(table, marking) {
        Ok((process, state)) => {
            let closure = closure_of(&process, &state);
            ClosureAnswer {
                number: DONE,
                set: to_word(&closure),
                size: size_of(&process, &closure),
            }
        }
        Err(number) => ClosureAnswer {
            number,
            set: 0,
            size: 0,
        },
    }
}
