//! Cases of chains: events that lead to one another by relations that block.

use super::away::insert;
use super::shape::{
    push, relation, some_record, some_time, word_of, CONDITION, EXCLUDES, INCLUDES, MILESTONE,
    RESPONSE,
};
use super::{damage, damage_pair, pair, some_number};
use crate::case::{Case, Pair};
use crate::decoded::{Marking, Record, Relation, Table, MOST_EVENTS, MOST_RELATIONS, TIME_LIMIT};
use crate::rng::Rng;

/// A relation to come: left and right.
type Arrow = (usize, usize);

/// Each event leads to the next. No chain is deeper.
fn ladder(events: usize) -> Vec<Arrow> {
    (1..events).map(|event| (event - 1, event)).collect()
}

/// A ladder whose last event leads back, to the first or to any, itself included.
fn ring(rng: &mut Rng, events: usize) -> Vec<Arrow> {
    let mut arrows = ladder(events);
    let back = if rng.flag() { 0 } else { rng.below(events) };
    arrows.push((events - 1, back));
    arrows
}

/// Two ways to one event, from there two ways to another, and so on.
fn diamonds(events: usize) -> Vec<Arrow> {
    (0..events)
        .step_by(3)
        .flat_map(|top| {
            let (one, other, below) = (top + 1, top + 2, top + 3);
            [(top, one), (one, below), (top, other), (other, below)]
        })
        .filter(|&(left, right)| left < events && right < events)
        .collect()
}

/// A ladder with ways past its events. It depends on the table order whether an
/// event is first visited by the shorter way or by the longer one.
fn shortcuts(rng: &mut Rng, events: usize) -> Vec<Arrow> {
    let mut arrows = ladder(events);
    for left in 0..events.saturating_sub(2) {
        if rng.flag() {
            arrows.push((left, rng.between(left + 2, events - 1)));
        }
    }
    arrows
}

/// Each event leads to two or three others.
fn tree(rng: &mut Rng, events: usize) -> Vec<Arrow> {
    let width = rng.between(2, 3);
    (1..events)
        .map(|event| ((event - 1) / width, event))
        .collect()
}

/// Many relations of one event, up to all that a table can have.
fn fan(rng: &mut Rng, events: usize) -> Vec<Arrow> {
    let most = rng.between(1, 40);
    let count = rng.one_of([most, MOST_RELATIONS - 1, MOST_RELATIONS]);
    (0..count).map(|_| (0, rng.below(events))).collect()
}

/// Any event leads to any, also to itself, and by several relations.
fn web(rng: &mut Rng, events: usize) -> Vec<Arrow> {
    let most = rng.between(1, 3 * events);
    let count = rng.one_of([most, most, most, MOST_RELATIONS]);
    (0..count)
        .map(|_| (rng.below(events), rng.below(events)))
        .collect()
}

fn some_arrows(rng: &mut Rng, events: usize) -> Vec<Arrow> {
    let mut arrows = match rng.below(10) {
        0 => ladder(events),
        1 | 2 => ring(rng, events),
        3 => diamonds(events),
        4 => shortcuts(rng, events),
        5 => tree(rng, events),
        6 | 7 => fan(rng, events),
        _ => web(rng, events),
    };
    for _ in 0..rng.one_of([0, 0, 1, 4]) {
        let left = rng.below(events);
        // To itself, back to where the chain starts, or anywhere.
        let any = rng.below(events);
        let right = rng.one_of([left, 0, any]);
        arrows.insert(rng.between(0, arrows.len()), (left, right));
    }
    arrows.truncate(MOST_RELATIONS);
    arrows
}

fn shuffle<T>(rng: &mut Rng, things: &mut [T]) {
    for place in (1..things.len()).rev() {
        let other = rng.between(0, place);
        things.swap(place, other);
    }
}

/// A relation that blocks while its right event is included and has this record.
/// A time above the age is often so by 1 only.
fn blocking(rng: &mut Rng, (left, right): Arrow, of_right: &Record) -> Relation {
    if of_right.pending && (rng.flag() || of_right.age == TIME_LIMIT) {
        return relation(MILESTONE, left, right, None);
    }
    let least = match of_right.happened {
        true => (of_right.age + 1).min(TIME_LIMIT),
        false => 0,
    };
    let time = match rng.flag() {
        true => least,
        false => least.max(some_time(rng)),
    };
    relation(CONDITION, left, right, Some(time))
}

/// A relation that blocks nothing, whatever is included.
fn idle(rng: &mut Rng, (left, right): Arrow, of_right: &Record) -> Relation {
    match rng.below(6) {
        0 => relation(RESPONSE, left, right, Some(some_time(rng).max(1))),
        1 => relation(RESPONSE, left, right, None),
        2 => relation(INCLUDES, left, right, None),
        3 => relation(EXCLUDES, left, right, None),
        _ if of_right.happened => {
            let time = rng.one_of([0, of_right.age]);
            relation(CONDITION, left, right, Some(time))
        }
        _ if !of_right.pending => relation(MILESTONE, left, right, None),
        _ => relation(INCLUDES, left, right, None),
    }
}

fn some_events(rng: &mut Rng) -> usize {
    match rng.below(12) {
        0..=2 => MOST_EVENTS,
        3 => MOST_EVENTS - 1,
        4 => rng.between(1, 2),
        5 => rng.between(13, MOST_EVENTS),
        _ => rng.between(3, 12),
    }
}

/// A marking in which so many of a hundred events are included.
fn some_marking(rng: &mut Rng, events: usize, included_percent: usize) -> Marking {
    let mut marking = Marking::EMPTY;
    marking.events = events;
    for record in marking.records.iter_mut().take(events) {
        *record = some_record(rng);
        record.included = rng.chance(included_percent);
        // No condition waits longer than that; a milestone can.
        record.pending |= record.age == TIME_LIMIT;
    }
    marking
}

/// A table in which so many of a hundred arrows are relations that block.
fn some_table(
    rng: &mut Rng,
    arrows: &[Arrow],
    marking: &Marking,
    blocking_percent: usize,
) -> Table {
    let mut flags = || -> Vec<bool> { (0..marking.events).map(|_| rng.flag()).collect() };
    let mut table = Table::EMPTY;
    table.events = marking.events;
    table.controllable = word_of(&flags());
    table.causable = word_of(&flags());
    table.firm = rng.flag();
    for &arrow in arrows {
        let of_right = &marking.records[arrow.1];
        let added = match rng.chance(blocking_percent) {
            true => blocking(rng, arrow, of_right),
            false => idle(rng, arrow, of_right),
        };
        push(&mut table, added);
    }
    for _ in 0..rng.one_of([0, 0, 2, 10]) {
        let arrow = (rng.below(marking.events), rng.below(marking.events));
        let added = idle(rng, arrow, &marking.records[arrow.1]);
        insert(rng, &mut table, added);
    }
    table
}

/// A pair that the judge accepts, and the event from which the rest is reached.
fn woven(rng: &mut Rng) -> (Pair, usize) {
    let events = some_events(rng);
    let mut arrows = some_arrows(rng, events);
    if rng.flag() {
        shuffle(rng, &mut arrows);
    }
    // Otherwise chains would run from low numbers to high ones.
    let mut names: Vec<usize> = (0..events).collect();
    if rng.flag() {
        shuffle(rng, &mut names);
    }
    for (left, right) in &mut arrows {
        (*left, *right) = (names[*left], names[*right]);
    }
    // One gap is enough to end a ladder, so half the time there is none.
    let (included_percent, blocking_percent) = match rng.flag() {
        true => (100, 100),
        false => (rng.one_of([100, 95, 80, 50]), rng.one_of([100, 90, 60])),
    };
    let mut marking = some_marking(rng, events, included_percent);
    let mut table = some_table(rng, &arrows, &marking, blocking_percent);
    if rng.flag() {
        damage::fill_unused_places(rng, &mut table, &mut marking);
    }
    let pair = Pair {
        table: Box::new(table),
        marking: Box::new(marking),
    };
    (pair, names[0])
}

/// 256 places are asked for, however few would do.
fn some_room(rng: &mut Rng) -> usize {
    match rng.below(20) {
        0 => 0,
        1 | 2 => MOST_RELATIONS - 1,
        3 => rng.below(MOST_RELATIONS),
        4 => rng.below(4),
        5 | 6 => MOST_RELATIONS + 1,
        7 => MOST_RELATIONS + rng.below(40),
        8 => 2 * MOST_RELATIONS,
        _ => MOST_RELATIONS,
    }
}

/// A lent list with something already in it: all alike, or places that could be
/// of a chain, or any.
fn some_list(rng: &mut Rng) -> Vec<u16> {
    let room = some_room(rng);
    let alike = rng.one_of([0, u16::MAX]);
    let sort = rng.below(4);
    let places = (0..room).map(|_| match sort {
        0 => alike,
        1 => 256 * rng.below(12) as u16 + rng.below(4) as u16,
        _ => rng.word() as u16,
    });
    places.collect()
}

pub fn chain_case(rng: &mut Rng) -> Case {
    let (pair, first) = if rng.chance(15) {
        let pair = pair(rng);
        let first = rng.below(pair.table.events);
        (pair, first)
    } else {
        let (mut pair, first) = woven(rng);
        if rng.chance(15) {
            damage_pair(rng, &mut pair);
        }
        (pair, first)
    };
    let event = match rng.below(20) {
        0 => pair.table.events,
        1..=5 => some_number(rng, pair.table.events),
        _ => first,
    };
    let list = some_list(rng);
    Case::Chain { pair, event, list }
}
