//! What is promised of counts over a sequence of steps: the start and the
//! executions in the history, up to the hold.

use super::replay::Moment;
use super::{holds, Promise};
use second::Marking;

const HOLD: u32 = 4_294_967_295;

pub fn one_more(count: u32) -> u32 {
    if count == HOLD {
        HOLD
    } else {
        count + 1
    }
}

pub fn counts_promise(start: &Marking, history: &[Moment], end: &Marking) -> Promise {
    let mut executed = [0; 64];
    for &event in history.iter().flat_map(|moment| &moment.executed) {
        executed[event] += 1;
    }
    let records = start.records.iter().zip(&end.records);
    for ((start, end), executed) in records.zip(executed).take(start.events) {
        let sum = u64::from(start.count) + executed;
        holds(
            u64::from(end.count) == sum.min(u64::from(HOLD)),
            "a count is not its start and the executions",
        )?;
    }
    Ok(())
}
