//! The guarded tick.

use crate::check::{verdict, Verdict};
use crate::decoded::{only, Events, Marking, Table};
use crate::effect::execute;
use crate::flags::Flags;
use crate::judge::judge;
use crate::process::Process;
use crate::survey::Survey;
use crate::time::tick;

/// The due events and, repeatedly, the included inhibitors that block them: those
/// that never happened, for a condition, and the pending ones, for a milestone.
#[inline]
pub(crate) fn needed(s: &Survey, due: u64, missing: u64, open: u64) -> u64 {
    s.widened(due, |row| row.conditions & missing | row.milestones & open)
}

/// Each needed event in order: the lowest that has no untaken needed inhibitor,
/// again and again.
#[inline]
pub(crate) fn in_order(s: &Survey, needed: u64, mut take: impl FnMut(u8)) {
    let mut waiting_for = [0u64; 64];
    let mut ready = 0;
    for event in Events(needed) {
        let awaited = s.row(event).inhibitors() & needed;
        if awaited == 0 {
            ready |= only(event);
        }
        for inhibitor in Events(awaited) {
            waiting_for[usize::from(inhibitor)] |= only(event);
        }
    }
    let mut untaken = needed;
    while ready != 0 {
        let event = ready.trailing_zeros() as u8;
        ready &= ready - 1;
        untaken &= !only(event);
        take(event);
        for freed in Events(waiting_for[usize::from(event)]) {
            if s.row(freed).inhibitors() & untaken == 0 {
                ready |= only(freed);
            }
        }
    }
}

/// The included events that never happened, and the included pending ones.
#[inline]
fn blocking(m: &Marking) -> (u64, u64) {
    let (mut missing, mut open) = (0, 0);
    for (event, r) in m.used().iter().enumerate() {
        missing |= u64::from(r.included & !r.happened) << event;
        open |= u64::from(r.included & r.pending) << event;
    }
    (missing, open)
}

/// The needed events are taken, those that are executed written down; how many these are.
#[inline]
fn settle(p: &Process, m: &mut Marking, due: u64, caused: &mut [u8; 64]) -> usize {
    let (missing, open) = blocking(m);
    let mut count = 0;
    in_order(p.survey, needed(p.survey, due, missing, open), |event| {
        if m.of(event).included {
            execute(m, event, p.leads(event), p.timed(event), p.table.firm);
            caused[count & 63] = event;
            count += 1;
        }
    });
    count
}

/// The verdict, and how many events are caused before the tick.
fn settled(t: &Table, m: &mut Marking, caused: &mut [u8; 64]) -> (Verdict, usize) {
    let flags = Flags::of(m);
    if flags.due == 0 {
        let verdict = verdict(t, &Survey::of(t), flags.excluded, flags.busy);
        return (verdict, 0);
    }
    Process::of(t, |p| {
        let verdict = verdict(t, p.survey, flags.excluded, flags.busy);
        let count = match verdict {
            Verdict::Accepts => settle(p, m, flags.due, caused),
            Verdict::Rejects { .. } => 0,
        };
        (verdict, count)
    })
}

#[derive(Clone, Copy, PartialEq, Eq, Debug)]
pub struct Guarded {
    pub number: u8,
    pub reason: u8,
    pub place: usize,
    pub count: usize,
}

/// The caused events are written to the start of `caused`; the places past them are 0.
pub fn guarded_tick(t: &Table, m: &mut Marking, caused: &mut [u8; 64]) -> Guarded {
    let mut answer = Guarded {
        number: 0,
        reason: 0,
        place: 0,
        count: 0,
    };
    *caused = [0; 64];
    if let Err(number) = judge(t, m) {
        answer.number = number;
        return answer;
    }
    match settled(t, m, caused) {
        (Verdict::Accepts, count) => {
            tick(m);
            answer.count = count;
        }
        (Verdict::Rejects { reason, place }, _) => {
            answer.number = 12;
            answer.reason = reason;
            answer.place = place;
        }
    }
    answer
}
