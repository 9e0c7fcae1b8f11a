//! Due events, and the passing of one tick.

use crate::decoded::{Marking, Table, TIME_LIMIT};
use crate::flags::{is_due, Flags};
use crate::judge::judge;

#[inline]
pub(crate) fn none_due(m: &Marking) -> bool {
    !m.used().iter().any(is_due)
}

#[inline]
pub(crate) fn tick(m: &mut Marking) {
    for r in m.used_mut() {
        r.age += u32::from(r.happened & (r.age < TIME_LIMIT));
        r.deadline -= u32::from(r.bounded & (r.deadline > 0));
    }
}

/// How many ticks pass before an event is due, so many at most.
#[inline]
pub(crate) fn quiet_ticks(m: &Marking, most: u32) -> u32 {
    m.used()
        .iter()
        .filter(|r| r.included & r.pending & r.bounded)
        .fold(most, |least, r| least.min(r.deadline))
}

/// So many ticks at once.
pub(crate) fn pass(m: &mut Marking, ticks: u32) {
    for r in m.used_mut() {
        if r.happened {
            r.age = (r.age + ticks).min(TIME_LIMIT);
        }
        r.deadline = r.deadline.saturating_sub(ticks);
    }
}

pub fn due(t: &Table, m: &Marking) -> Result<u64, u8> {
    judge(t, m)?;
    Ok(Flags::of(m).due)
}

pub fn plain_tick(t: &Table, m: &mut Marking) -> u8 {
    if let Err(number) = judge(t, m) {
        return number;
    }
    if !none_due(m) {
        return 11;
    }
    tick(m);
    0
}
