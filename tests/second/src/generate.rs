//! Random cases, one function for each call. Sound and damaged values are
//! mixed so that every refusal number and every reason of the check comes up.

mod away;
mod carrying;
mod chain;
mod damage;
mod plain_numbers;
mod quiet;
mod shape;
mod sleep;

pub use crate::writing::{marking_image, table_image};
pub use carrying::{carry_marking_case, old_marking_image};
pub use chain::chain_case;
pub use plain_numbers::{build_table_case, tell_class_case, tell_relation_case};
pub use quiet::quiet_case;
pub use shape::relation;
pub use sleep::sleep_case;

use crate::case::{Case, Pair};
use crate::decoded::{Marking, Table, MOST_EVENTS, MOST_RELATIONS};
use crate::enabled::enabled;
use crate::event_set::from_word;
use crate::guarded::guarded_tick;
use crate::image::RECORD_BYTES;
use crate::rng::Rng;
use crate::trace::{Step, LONGEST_TRACE};

type Question = fn(&mut Rng) -> Case;

/// The calls with the most behaviour are listed twice, to be asked more often.
/// What happens is listed by class, and chains are not listed: a class drawn, or
/// another length, would change what every seed gives.
const QUESTIONS: [Question; 37] = [
    read_table_case,
    read_marking_case,
    write_marking_case,
    fresh_case,
    judge_table_case,
    judge_marking_case,
    judge_marking_case,
    size_case,
    lowest_case,
    enabled_case,
    due_case,
    |rng| happen_of_class(rng, true),
    |rng| happen_of_class(rng, true),
    |rng| happen_of_class(rng, false),
    |rng| happen_of_class(rng, false),
    plain_tick_case,
    margin_case,
    hold_up_case,
    closure_case,
    check_case,
    check_case,
    guarded_tick_case,
    guarded_tick_case,
    remedies_case,
    remedies_case,
    run_case,
    run_case,
    run_bytes_case,
    station_case,
    station_case,
    write_table_case,
    write_table_case,
    build_table_case,
    tell_relation_case,
    tell_class_case,
    carry_marking_case,
    carry_marking_case,
];

/// Of so many in a hundred cases of any call a chain is asked.
const CHAIN_PERCENT: usize = 6;

/// A case of any call but a sleep and quiet ticks. A chain is drawn aside and stands in
/// the place of another case, which is drawn all the same: what a seed gives in the other
/// places, and for the other calls, does not depend on there being chains.
pub fn case(rng: &mut Rng) -> Case {
    let mut aside = rng.aside();
    let other = rng.one_of(QUESTIONS)(rng);
    if aside.chance(CHAIN_PERCENT) {
        chain_case(&mut aside)
    } else {
        other
    }
}

/// Of so many in a hundred of the cases that are no chain a sleep is asked.
const SLEEP_PERCENT: usize = 5;

/// Of so many in a hundred of what is then left quiet ticks are asked.
const QUIET_PERCENT: usize = 3;

/// A case of any call. Sleeps and quiet ticks are drawn aside, too, and stand in the
/// place of other cases; chains stand where they stand without them.
pub fn any_case(rng: &mut Rng) -> Case {
    let mut aside = rng.aside();
    let other = case(rng);
    // Chains were there first: what they are drawn from is not to move.
    if aside.chance(CHAIN_PERCENT) {
        other
    } else if aside.chance(SLEEP_PERCENT) {
        sleep_case(&mut aside)
    } else if aside.chance(QUIET_PERCENT) {
        quiet_case(&mut aside)
    } else {
        other
    }
}

/// A table and marking that the judge accepts.
pub fn sound_pair(rng: &mut Rng) -> Pair {
    let (mut table, mut marking) = shape::pair(rng);
    if rng.chance(50) {
        damage::fill_unused_places(rng, &mut table, &mut marking);
    }
    Pair {
        table: Box::new(table),
        marking: Box::new(marking),
    }
}

/// Mostly sound; else one or both parts are damaged.
pub fn pair(rng: &mut Rng) -> Pair {
    pair_damaged_in(rng, 25)
}

/// For the calls that are about the check: most of these it accepts.
fn pair_to_check(rng: &mut Rng) -> Pair {
    pair_damaged_in(rng, 10)
}

/// One or both parts damaged in so many of a hundred cases.
fn pair_damaged_in(rng: &mut Rng, percent: usize) -> Pair {
    let mut pair = sound_pair(rng);
    if rng.chance(percent) {
        damage_pair(rng, &mut pair);
    }
    pair
}

fn damage_pair(rng: &mut Rng, pair: &mut Pair) {
    let which = rng.below(4);
    if which != 0 {
        damage::damage_table(rng, &mut pair.table);
    }
    if which != 1 && which != 2 {
        damage::damage_marking(rng, &mut pair.marking);
    }
}

/// A table image, damaged in so many of a hundred cases.
fn some_table_image(rng: &mut Rng, table: &Table, damaged_percent: usize) -> Vec<u8> {
    if !rng.chance(damaged_percent) {
        return table_image(table);
    }
    // One time in four two faults, to ask for the order of refusals.
    let faults = rng.one_of([1, 1, 1, 2]);
    let mut table = *table;
    let mut in_the_image = faults;
    if rng.flag() {
        damage::damage_table(rng, &mut table);
        in_the_image -= 1;
    }
    let mut image = table_image(&table);
    for _ in 0..in_the_image {
        damage::damage_table_image(rng, &table, &mut image);
    }
    image
}

fn some_marking_image(rng: &mut Rng, marking: &Marking, damaged_percent: usize) -> Vec<u8> {
    if !rng.chance(damaged_percent) {
        return marking_image(marking);
    }
    let mut marking = *marking;
    if rng.chance(60) {
        damage::damage_record(rng, &mut marking);
    }
    let mut image = marking_image(&marking);
    if rng.chance(60) {
        damage::damage_marking_image(rng, &mut image);
    }
    image
}

/// An event count, mostly the one given.
fn some_event_count(rng: &mut Rng, fitting: usize) -> usize {
    if rng.chance(75) {
        return fitting;
    }
    rng.one_of([
        0,
        1,
        fitting.saturating_sub(1),
        fitting.saturating_add(1),
        63,
        64,
        65,
        66,
        127,
        128,
        256,
        usize::MAX,
    ])
}

/// A number asked about, mostly one that exists.
fn some_number(rng: &mut Rng, existing: usize) -> usize {
    if existing > 0 && rng.chance(85) {
        return rng.below(existing);
    }
    rng.one_of([
        existing,
        existing.saturating_add(1),
        63,
        64,
        255,
        256,
        usize::MAX,
    ])
}

/// The enabled events with a response to an event that is pending.
fn events_that_meet(pair: &Pair) -> Vec<usize> {
    let Pair { table, marking } = pair;
    table
        .relations
        .iter()
        .take(table.count)
        .filter(|relation| relation.kind == 2)
        .filter(|relation| {
            let target = marking.records.get(usize::from(relation.right));
            target.is_some_and(|record| record.pending)
        })
        .map(|relation| usize::from(relation.left))
        .filter(|&event| enabled(table, marking, event).enabled)
        .collect()
}

/// A lent buffer for `needed` bytes with something already in it: exact, with
/// room to spare, or now and then too short.
fn some_buffer(rng: &mut Rng, needed: usize) -> Vec<u8> {
    let length = match rng.below(12) {
        0 => needed.saturating_sub(1),
        1 => rng.below(needed),
        2 => needed + 1,
        3 | 4 => needed + rng.below(20),
        _ => needed,
    };
    (0..length).map(|_| rng.byte()).collect()
}

fn some_set(rng: &mut Rng) -> u64 {
    let word = rng.next_u64();
    match rng.below(6) {
        0 => 0,
        1 => u64::MAX,
        2 => 2u64.pow(rng.below(64) as u32),
        // Few members, and those high up: the lowest is then far from 0.
        3 => word & rng.next_u64() & rng.next_u64(),
        4 => word / 2u64.pow(32) * 2u64.pow(32),
        _ => word,
    }
}

fn some_step(rng: &mut Rng, table: &Table, guarded_percent: usize) -> Step {
    if rng.chance(8) {
        return match rng.below(4) {
            0 => Step {
                kind: rng.one_of([4, 5, 128, 255]),
                event: rng.byte(),
            },
            1 => Step {
                kind: rng.one_of([2, 3]),
                event: rng.one_of([1, 63, 255]),
            },
            2 => Step {
                kind: rng.one_of([0, 1]),
                event: table.events.min(200) as u8 + rng.one_of([0, 1, 50]),
            },
            _ => Step {
                kind: rng.byte(),
                event: rng.byte(),
            },
        };
    }
    if rng.chance(guarded_percent) {
        return Step { kind: 3, event: 0 };
    }
    if rng.chance(35) {
        return Step { kind: 2, event: 0 };
    }
    let event = rng.below(table.events.min(MOST_EVENTS));
    let controllable = from_word(table.controllable, MOST_EVENTS);
    // Old traces tell the two kinds apart by the class, and so do most of these.
    let old = if controllable.contains(&event) { 0 } else { 1 };
    let kind = if rng.chance(90) { old } else { 1 - old };
    Step {
        kind,
        event: event as u8,
    }
}

fn some_steps(rng: &mut Rng, table: &Table) -> Vec<Step> {
    let length = match rng.below(100) {
        0..=4 => 0,
        5 => LONGEST_TRACE,
        6..=8 => LONGEST_TRACE + 1,
        9 => LONGEST_TRACE + rng.below(40),
        10..=29 => rng.between(20, 120),
        _ => rng.between(1, 20),
    };
    // The check is slow here, so long traces ask for it seldom.
    let guarded_percent = if length > 200 { 2 } else { 35 };
    (0..length)
        .map(|_| some_step(rng, table, guarded_percent))
        .collect()
}

fn bytes_of(steps: &[Step]) -> Vec<u8> {
    steps
        .iter()
        .flat_map(|step| [step.kind, step.event])
        .collect()
}

fn some_step_bytes(rng: &mut Rng, table: &Table) -> Vec<u8> {
    let mut bytes = bytes_of(&some_steps(rng, table));
    if rng.chance(8) {
        if rng.flag() {
            bytes.push(rng.byte());
        } else {
            bytes.pop();
        }
    }
    bytes
}

/// An operator's list. A random one seldom discharges, so most start from
/// what a guarded tick would cause.
fn some_list(rng: &mut Rng, pair: &Pair) -> Vec<u8> {
    let events = pair.table.events.clamp(1, MOST_EVENTS);
    let mut list = Vec::new();
    if rng.chance(70) {
        let guarded = guarded_tick(&pair.table, &pair.marking);
        list.extend(guarded.caused.iter().take(usize::from(guarded.count)));
    }
    for _ in 0..rng.one_of([0, 0, 1, 1, 2, 4]) {
        let event = if rng.chance(85) {
            rng.below(events) as u8
        } else {
            rng.one_of([events as u8, 63, 64, 255])
        };
        list.insert(rng.between(0, list.len()), event);
    }
    if rng.chance(15) && list.len() > 1 {
        let place = rng.below(list.len() - 1);
        list.swap(place, place + 1);
    }
    if rng.chance(10) {
        list.truncate(list.len() / 2);
    }
    if rng.chance(8) {
        let length = rng.one_of([254, 255, 256, 300]);
        while list.len() < length {
            list.push(rng.below(events) as u8);
        }
    }
    list
}

pub fn read_table_case(rng: &mut Rng) -> Case {
    let table = sound_pair(rng).table;
    let bytes = if rng.chance(3) {
        let length = rng.below(40);
        (0..length).map(|_| rng.byte()).collect()
    } else {
        some_table_image(rng, &table, 60)
    };
    Case::ReadTable { bytes }
}

pub fn read_marking_case(rng: &mut Rng) -> Case {
    let marking = sound_pair(rng).marking;
    let events = some_event_count(rng, marking.events);
    let bytes = some_marking_image(rng, &marking, 50);
    Case::ReadMarking { events, bytes }
}

pub fn write_marking_case(rng: &mut Rng) -> Case {
    let mut marking = sound_pair(rng).marking;
    if rng.chance(40) {
        damage::damage_marking(rng, &mut marking);
    }
    let buffer = some_buffer(rng, room_for_marking(marking.events));
    Case::WriteMarking { marking, buffer }
}

/// A marking image's length, and past the limit of the count room enough.
fn room_for_marking(events: usize) -> usize {
    RECORD_BYTES * events.min(MOST_EVENTS + 6)
}

/// A table image's length at these counts. The counts may be any: past their
/// limits a few bytes more are enough for a buffer that is not too short.
fn room_for_table(events: usize, relations: usize) -> usize {
    4 + events.min(MOST_EVENTS + 2) + 6 * relations.min(MOST_RELATIONS + 2)
}

/// Half the tables have rubbish in their unused places.
pub fn write_table_case(rng: &mut Rng) -> Case {
    let mut table = sound_pair(rng).table;
    if rng.chance(45) {
        damage::damage_table(rng, &mut table);
    }
    let buffer = some_buffer(rng, room_for_table(table.events, table.count));
    Case::WriteTable { table, buffer }
}

pub fn fresh_case(rng: &mut Rng) -> Case {
    let fitting = rng.between(1, MOST_EVENTS);
    let events = some_event_count(rng, fitting);
    Case::Fresh { events }
}

pub fn judge_table_case(rng: &mut Rng) -> Case {
    let mut table = sound_pair(rng).table;
    if rng.chance(70) {
        damage::damage_table(rng, &mut table);
    }
    Case::JudgeTable { table }
}

pub fn judge_marking_case(rng: &mut Rng) -> Case {
    let mut marking = sound_pair(rng).marking;
    let events = some_event_count(rng, marking.events);
    if rng.chance(50) {
        damage::damage_marking(rng, &mut marking);
    }
    Case::JudgeMarking { events, marking }
}

pub fn size_case(rng: &mut Rng) -> Case {
    let set = some_set(rng);
    Case::Size { set }
}

pub fn lowest_case(rng: &mut Rng) -> Case {
    let set = some_set(rng);
    Case::Lowest { set }
}

pub fn enabled_case(rng: &mut Rng) -> Case {
    let pair = pair(rng);
    let event = some_number(rng, pair.table.events);
    Case::Enabled { pair, event }
}

pub fn due_case(rng: &mut Rng) -> Case {
    Case::Due { pair: pair(rng) }
}

/// The event is of the given class more often than not, and often one that meets
/// another with a response.
fn happen_of_class(rng: &mut Rng, controllable: bool) -> Case {
    let pair = pair(rng);
    let set = from_word(pair.table.controllable, MOST_EVENTS);
    let fits = |event: &usize| set.contains(event) == controllable;
    let events = pair.table.events.min(MOST_EVENTS);
    let fitting: Vec<usize> = (0..events).filter(fits).collect();
    let meeting: Vec<usize> = events_that_meet(&pair).into_iter().filter(fits).collect();
    let event = match rng.pick(&meeting) {
        Some(event) if rng.chance(70) => event,
        _ => match rng.pick(&fitting) {
            Some(event) if rng.chance(60) => event,
            _ => some_number(rng, pair.table.events),
        },
    };
    Case::Happen { pair, event }
}

pub fn happen_case(rng: &mut Rng) -> Case {
    let controllable = rng.flag();
    happen_of_class(rng, controllable)
}

pub fn plain_tick_case(rng: &mut Rng) -> Case {
    Case::PlainTick { pair: pair(rng) }
}

pub fn margin_case(rng: &mut Rng) -> Case {
    let mut pair = pair(rng);
    let conditions: Vec<usize> = (0..pair.table.count.min(MOST_RELATIONS))
        .filter(|&number| pair.table.relations[number].kind == 1)
        .collect();
    // Those with a time are few, and the others wait for no tick.
    let timed: Vec<usize> = conditions
        .iter()
        .copied()
        .filter(|&number| pair.table.relations[number].time > 0)
        .collect();
    let relation = match (rng.pick(&conditions), rng.pick(&timed)) {
        (_, Some(condition)) if rng.chance(30) => condition,
        (Some(condition), _) if rng.chance(60) => condition,
        _ => some_number(rng, pair.table.count),
    };
    away::for_margin(&mut rng.aside(), &mut pair, relation);
    Case::Margin { pair, relation }
}

pub fn hold_up_case(rng: &mut Rng) -> Case {
    let mut pair = pair(rng);
    let event = some_number(rng, pair.table.events);
    away::for_hold_up(&mut rng.aside(), &mut pair, event);
    Case::HoldUp { pair, event }
}

pub fn closure_case(rng: &mut Rng) -> Case {
    Case::Closure {
        pair: pair_to_check(rng),
    }
}

pub fn check_case(rng: &mut Rng) -> Case {
    Case::Check {
        pair: pair_to_check(rng),
    }
}

pub fn guarded_tick_case(rng: &mut Rng) -> Case {
    Case::GuardedTick {
        pair: pair_to_check(rng),
    }
}

pub fn remedies_case(rng: &mut Rng) -> Case {
    let pair = pair(rng);
    let preferred = some_list(rng, &pair);
    let fallback = some_list(rng, &pair);
    Case::Remedies {
        pair,
        preferred,
        fallback,
    }
}

pub fn run_case(rng: &mut Rng) -> Case {
    let pair = pair(rng);
    let steps = some_steps(rng, &pair.table);
    let answers = some_buffer(rng, steps.len());
    Case::Run {
        pair,
        steps,
        answers,
    }
}

pub fn run_bytes_case(rng: &mut Rng) -> Case {
    let pair = pair(rng);
    let steps = some_step_bytes(rng, &pair.table);
    let answers = some_buffer(rng, steps.len() / 2);
    Case::RunBytes {
        pair,
        steps,
        answers,
    }
}

pub fn station_case(rng: &mut Rng) -> Case {
    let pair = sound_pair(rng);
    let mut input = some_table_image(rng, &pair.table, 25);
    input.extend(some_marking_image(rng, &pair.marking, 15));
    input.extend(some_step_bytes(rng, &pair.table));
    if rng.chance(4) {
        input.truncate(rng.below(input.len()));
    }
    Case::Station { input }
}
