//! Due events and the passing of time.

use crate::decoded::{Marking, MarkingAnswer, SetAnswer, Table, TIME_LIMIT};
use crate::event_set::{to_word, EventSet};
use crate::judge::understand;
use crate::process::{Deadline, State};
use crate::refusal::{DONE, DUE};

pub fn due_events(state: &State) -> EventSet {
    (0..state.of.len())
        .filter(|&event| state.of[event].is_due())
        .collect()
}

pub fn nothing_due(state: &State) -> bool {
    !state.of.iter().any(|event| event.is_due())
}

/// One tick, for excluded events also.
pub fn tick(before: State) -> State {
    let mut after = before;
    for event in &mut after.of {
        if let Some(happened) = &mut event.happened {
            happened.age = happened.age.saturating_add(1).min(TIME_LIMIT);
        }
        if let Some(Deadline::Within(ticks)) = event.pending {
            event.pending = Some(Deadline::Within(ticks.saturating_sub(1)));
        }
    }
    after
}

pub fn tick_unless_due(state: &State) -> Result<State, u8> {
    if nothing_due(state) {
        Ok(tick(state.clone()))
    } else {
        Err(DUE)
    }
}

pub fn due(table: &Table, marking: &Marking) -> SetAnswer {
    match understand(table, marking) {
        Ok((_, state)) => SetAnswer {
            number: DONE,
            set: to_word(&due_events(&state)),
        },
        Err(number) => SetAnswer { number, set: 0 },
    }
}

pub fn plain_tick(table: &Table, marking: &Marking) -> MarkingAnswer {
    let result = understand(table, marking)
        .and_then(|(_, state)| tick_unless_due(&state))
        .map(|after| after.over(marking));
    MarkingAnswer::from_result(result, marking)
}
