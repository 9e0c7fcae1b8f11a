//! Events that are away: excluded, and right of conditions and milestones, so
//! that it matters what would be if one of them came back.

use super::shape::{relation, some_time, CONDITION, MILESTONE};
use crate::case::Pair;
use crate::decoded::{Record, Relation, Table, MOST_RELATIONS, TIME_LIMIT};
use crate::event_set::from_word;
use crate::judge::understand;
use crate::rng::Rng;

/// A pair that is refused stays as it is: its places may not even exist.
fn is_sound(pair: &Pair) -> bool {
    understand(&pair.table, &pair.marking).is_ok()
}

/// Few, most or nearly all events are excluded. In half the draws uncontrollable
/// ones stay, as the check rejects a marking that excludes one.
fn send_many_away(rng: &mut Rng, pair: &mut Pair) {
    let percent = rng.one_of([25, 60, 90]);
    let all_may_go = rng.flag();
    let controllable = from_word(pair.table.controllable, pair.table.events);
    for event in 0..pair.table.events {
        if (all_may_go || controllable.contains(&event)) && rng.chance(percent) {
            pair.marking.records[event].included = false;
        }
    }
}

/// An age below this time, at it or above, often by 1 only. None: not happened.
fn age_about(rng: &mut Rng, time: u32) -> Option<u32> {
    match rng.below(8) {
        0 | 1 => None,
        2 | 3 => Some(time.saturating_sub(1)),
        4 => Some(time),
        5 => Some((time + 1).min(TIME_LIMIT)),
        6 => Some(rng.one_of([0, TIME_LIMIT])),
        _ => Some(some_time(rng)),
    }
}

fn give_age(record: &mut Record, age: Option<u32>) {
    record.happened = age.is_some();
    record.age = age.unwrap_or(0);
    record.count = match age {
        Some(_) => record.count.max(1),
        None => 0,
    };
}

fn clear_pending(record: &mut Record) {
    record.pending = false;
    record.bounded = false;
    record.deadline = 0;
}

/// Draws what this relation would wait for.
fn unsettle(rng: &mut Rng, relation: &Relation, right: &mut Record) {
    if relation.kind == CONDITION {
        give_age(right, age_about(rng, relation.time));
    } else if rng.flag() {
        right.pending = true;
    } else {
        clear_pending(right);
    }
}

/// Leaves this relation nothing to wait for.
fn settle(relation: &Relation, right: &mut Record) {
    if relation.kind == CONDITION {
        give_age(right, Some(right.age.max(relation.time)));
    } else {
        clear_pending(right);
    }
}

/// The relation asked about is a condition and its right event is away, more
/// often than not.
pub fn for_margin(rng: &mut Rng, pair: &mut Pair, asked: usize) {
    if !is_sound(pair) || asked >= pair.table.count || !rng.chance(65) {
        return;
    }
    send_many_away(rng, pair);
    let asked = &mut pair.table.relations[asked];
    if asked.kind != CONDITION || rng.flag() {
        // Most conditions have time 0, which is never waited for.
        let (left, right) = (usize::from(asked.left), usize::from(asked.right));
        *asked = relation(CONDITION, left, right, Some(some_time(rng)));
    }
    if rng.chance(10) {
        asked.right = asked.left;
    }
    let right = &mut pair.marking.records[usize::from(asked.right)];
    right.included = rng.chance(20);
    unsettle(rng, asked, right);
}

/// At any place of the table, if there is room.
pub(super) fn insert(rng: &mut Rng, table: &mut Table, relation: Relation) {
    if table.count < MOST_RELATIONS {
        let place = rng.between(0, table.count);
        table.relations[place..=table.count].rotate_right(1);
        table.relations[place] = relation;
        table.count += 1;
    }
}

/// Some more conditions and milestones of the event, now and then on itself.
fn add_inhibitions(rng: &mut Rng, table: &mut Table, event: usize) {
    for _ in 0..rng.between(0, 5) {
        let right = match rng.chance(8) {
            true => event,
            false => rng.below(table.events),
        };
        let added = match rng.below(5) {
            0 | 1 => relation(MILESTONE, event, right, None),
            _ => relation(CONDITION, event, right, Some(some_time(rng))),
        };
        insert(rng, table, added);
    }
}

/// The right events of the event's conditions and milestones are away, more
/// often than not, and the event is seldom blocked: only an enabled event has
/// more to say.
pub fn for_hold_up(rng: &mut Rng, pair: &mut Pair, event: usize) {
    if !is_sound(pair) || event >= pair.table.events || !rng.chance(80) {
        return;
    }
    add_inhibitions(rng, &mut pair.table, event);
    send_many_away(rng, pair);
    let Pair { table, marking } = pair;
    marking.records[event].included = rng.chance(90);
    // Now and then nothing would block.
    let settled = rng.chance(15);
    let inhibitions = table.relations[..table.count]
        .iter()
        .filter(|link| usize::from(link.left) == event)
        .filter(|link| [CONDITION, MILESTONE].contains(&link.kind));
    for link in inhibitions.clone() {
        let right = &mut marking.records[usize::from(link.right)];
        if usize::from(link.right) != event {
            right.included = rng.chance(20);
        }
        unsettle(rng, link, right);
    }
    for link in inhibitions {
        let right = &mut marking.records[usize::from(link.right)];
        if settled || (right.included && rng.chance(80)) {
            settle(link, right);
        }
    }
}
