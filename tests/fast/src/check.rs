//! The closure and the static check. Each reason is first asked of whole sets;
//! its place is looked for only where it applies.

use crate::decoded::{only, Events, Marking, Relation, Table};
use crate::flags::Flags;
use crate::judge::judge;
use crate::survey::{widened, Row, Survey};

#[derive(Clone, Copy, PartialEq, Eq, Debug)]
pub enum Verdict {
    Accepts,
    Rejects { reason: u8, place: usize },
}

fn rejects(reason: u8, place: usize) -> Verdict {
    Verdict::Rejects { reason, place }
}

/// Whether inhibition has no cycle among these events: depth first, each opened once.
fn acyclic(s: &Survey, closed: u64) -> bool {
    let mut path = [0u8; 64];
    let (mut on_path, mut done) = (0, 0);
    for root in Events(closed) {
        if done & only(root) != 0 {
            continue;
        }
        let mut depth = 0;
        path[0] = root;
        on_path |= only(root);
        loop {
            let event = path[depth & 63];
            let next = s.row(event).inhibitors() & !done;
            if next & on_path != 0 {
                return false;
            }
            if next != 0 {
                let lower = next.trailing_zeros() as u8;
                on_path |= only(lower);
                depth += 1;
                path[depth & 63] = lower;
                continue;
            }
            done |= only(event);
            on_path &= !only(event);
            if depth == 0 {
                break;
            }
            depth -= 1;
        }
    }
    true
}

/// The lowest event on a cycle, where there is one.
fn lowest_on_cycle(s: &Survey, closed: u64) -> usize {
    Events(closed)
        .find(|&event| {
            let reached = s.widened(s.row(event).inhibitors(), Row::inhibitors);
            reached & only(event) != 0
        })
        .map_or(64, usize::from)
}

/// The lowest relation from the closure with which a reason lies.
fn place(t: &Table, closed: u64, applies: impl Fn(&Relation) -> bool) -> usize {
    t.used()
        .iter()
        .position(|k| closed & only(k.left) != 0 && applies(k))
        .unwrap_or(t.count)
}

/// The verdict on a judged table and the marking's excluded and busy events.
#[inline]
pub(crate) fn verdict(t: &Table, s: &Survey, excluded: u64, busy: u64) -> Verdict {
    let unreportable = (excluded | s.unreportable) & !t.controllable;
    if unreportable != 0 {
        return rejects(1, unreportable.trailing_zeros() as usize);
    }
    let closed = s.widened(busy | s.answers, Row::inhibitors);
    let uncausable = closed & !t.causable;
    if uncausable != 0 {
        return rejects(2, uncausable.trailing_zeros() as usize);
    }
    if closed & s.waiting != 0 {
        return rejects(3, place(t, closed, |k| k.kind == 1 && k.time > 0));
    }
    if !acyclic(s, closed) {
        return rejects(4, lowest_on_cycle(s, closed));
    }
    let (mut milestones, mut responses, mut revives) = (0, 0, false);
    for event in Events(closed) {
        let row = s.row(event);
        milestones |= row.milestones;
        responses |= row.responses;
        revives |= row.includes & closed & !only(event) != 0;
    }
    if responses & milestones != 0 {
        return rejects(
            5,
            place(t, closed, |k| {
                k.kind == 2 && milestones & only(k.right) != 0
            }),
        );
    }
    if revives {
        let another =
            |k: &Relation| k.kind == 3 && k.left != k.right && closed & only(k.right) != 0;
        return rejects(6, place(t, closed, another));
    }
    Verdict::Accepts
}

/// A set and how many events it holds.
pub struct Closure {
    pub set: u64,
    pub size: u32,
}

/// By itself it asks less of the relations than the check does: each event's
/// inhibitors, and what answers a bounded response.
pub fn closure(t: &Table, m: &Marking) -> Result<Closure, u8> {
    judge(t, m)?;
    let mut busy = Flags::of(m).busy;
    let mut inhibitors = [0; 64];
    for k in t.used() {
        match k.kind {
            1 | 5 => inhibitors[usize::from(k.left & 63)] |= only(k.right),
            2 if k.bounded => busy |= only(k.right),
            _ => {}
        }
    }
    let set = widened(busy, |event| inhibitors[usize::from(event & 63)]);
    Ok(Closure {
        set,
        size: set.count_ones(),
    })
}

pub fn check(t: &Table, m: &Marking) -> Result<Verdict, u8> {
    judge(t, m)?;
    let flags = Flags::of(m);
    Ok(verdict(t, &Survey::of(t), flags.excluded, flags.busy))
}
