//! The effect of an event.

use crate::process::{Deadline, Happened, Meaning, Process, State};
use std::collections::BTreeMap;
use std::num::NonZeroU32;

/// Once more than before, this moment. The count is held at its largest value.
fn once_more(before: Option<Happened>) -> Happened {
    let count = match before {
        None => NonZeroU32::MIN,
        Some(before) => before.count.saturating_add(1),
    };
    Happened { age: 0, count }
}

/// What a response gives a target that had this deadline once the executing
/// event was cleared. A firm table never moves it out; any other replaces it.
fn given(firm: bool, had: Option<Deadline>, new: Deadline) -> Deadline {
    match had {
        Some(had) if firm => had.min(new),
        _ => new,
    }
}

pub fn effect(process: &Process, state: &State, event: usize) -> State {
    let mut after = state.clone();

    // Cleared before anything else, or a response to itself would be lost.
    after.of[event].happened = Some(once_more(state.of[event].happened));
    after.of[event].pending = None;

    // Exclusions before inclusions, so that inclusion wins.
    for link in process.relations_of(event) {
        if link.meaning == Meaning::Excludes {
            after.of[link.right].included = false;
        }
    }
    for link in process.relations_of(event) {
        if link.meaning == Meaning::Includes {
            after.of[link.right].included = true;
        }
    }

    // The smallest among the event's own responses is settled first, and only
    // then meets the deadline that the target has.
    let mut deadlines: BTreeMap<usize, Deadline> = BTreeMap::new();
    for link in process.relations_of(event) {
        if let Meaning::Response(deadline) = link.meaning {
            let smallest = deadlines.entry(link.right).or_insert(deadline);
            *smallest = deadline.min(*smallest);
        }
    }
    for (target, deadline) in deadlines {
        let had = after.of[target].pending;
        after.of[target].pending = Some(given(process.firm, had, deadline));
    }
    after
}
