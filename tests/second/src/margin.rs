//! The margin of a condition.

use crate::decoded::{Marking, Table};
use crate::judge::understand;
use crate::process::{EventState, Meaning};
use crate::refusal::DOES_NOT_EXIST;

/// What is left to say of a condition if its right event is taken as included.
#[derive(Clone, Copy, PartialEq, Eq, Debug)]
pub enum Rest {
    /// Right has not happened.
    Never,
    /// Age minus time, negative while the condition still waits.
    By(i32),
}

#[derive(Clone, Copy, PartialEq, Eq, Debug)]
pub enum MarginAnswer {
    Refused(u8),
    NotACondition,
    /// Right is excluded; the rest is the answer as if it were included.
    Ignored(Rest),
    /// Right is included and has not happened.
    Never,
    /// Right is included: age minus time, negative while the condition still
    /// waits.
    By(i32),
}

fn rest(time: u32, right: &EventState) -> Rest {
    match right.age() {
        None => Rest::Never,
        // Both are at most 1,000,000,000, so neither the conversions nor the
        // difference can leave an i32.
        Some(age) => Rest::By(age as i32 - time as i32),
    }
}

pub fn margin(table: &Table, marking: &Marking, relation: usize) -> MarginAnswer {
    let (process, state) = match understand(table, marking) {
        Ok(understood) => understood,
        Err(number) => return MarginAnswer::Refused(number),
    };
    let Some(link) = process.relations.get(relation) else {
        return MarginAnswer::Refused(DOES_NOT_EXIST);
    };
    let Meaning::Condition { time } = link.meaning else {
        return MarginAnswer::NotACondition;
    };
    let right = &state.of[link.right];
    match rest(time, right) {
        rest if !right.included => MarginAnswer::Ignored(rest),
        Rest::Never => MarginAnswer::Never,
        Rest::By(by) => MarginAnswer::By(by),
    }
}
