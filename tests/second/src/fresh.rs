//! The fresh marking: not happened, included, not pending.

use crate::decoded::{Marking, ReadMarking};
use crate::judge::judge_event_count;

pub fn fresh(events: usize) -> ReadMarking {
    ReadMarking::from_result(judge_event_count(events).map(|()| {
        let mut marking = Marking::EMPTY;
        marking.events = events;
        for record in marking.records.iter_mut().take(events) {
            record.included = true;
        }
        marking
    }))
}
