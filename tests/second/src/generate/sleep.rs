//! Cases of sleeps: duties that fall due at several ticks, again and again or never,
//! and long stretches in which none does.

use super::shape::{self, push, relation, INCLUDES, RESPONSE};
use super::{damage, damage_pair, pair_to_check};
use crate::case::{Case, Pair};
use crate::check::check;
use crate::closure::closure;
use crate::decoded::{Marking, Record, Table, TIME_LIMIT};
use crate::event_set::from_word;
use crate::rng::Rng;
use crate::sleep::{first_places, LONGEST_SLEEP};

const LONGEST: u32 = LONGEST_SLEEP as u32;

/// Ticks pass one by one here, so sleeps of more ticks are rare.
const FEW: u32 = 2_000;

/// From 0 to this number.
pub(super) fn up_to(rng: &mut Rng, most: u32) -> u32 {
    rng.between(0, most as usize) as u32
}

/// How far apart dates are in a case, and how long it sleeps. Dates of one case are of
/// one size, so that they meet and cross.
struct Night {
    scale: u32,
    ticks: u64,
}

/// Mostly so many ticks that several dates come by.
fn short_night(rng: &mut Rng) -> Night {
    let scale = rng.one_of([2, 4, 4, 12, 12, 40, 300]);
    let ticks = match rng.below(16) {
        0 => 0,
        1 => 1,
        2 => up_to(rng, FEW),
        3 => up_to(rng, 40),
        _ => up_to(rng, 4 * scale),
    };
    let ticks = ticks.into();
    Night { scale, ticks }
}

fn long_night(rng: &mut Rng) -> Night {
    let scale = rng.one_of([5_000, 60_000, 250_000, LONGEST]);
    let ticks = match rng.below(10) {
        0..=2 => LONGEST - 1,
        3..=7 => LONGEST,
        8 => up_to(rng, LONGEST),
        _ => up_to(rng, (4 * scale).min(LONGEST)),
    };
    let ticks = ticks.into();
    Night { scale, ticks }
}

/// More ticks than one call passes, by 1 or by far. Some would be few if they were cut
/// to 32 bits.
fn endless_night(rng: &mut Rng) -> Night {
    let Night { scale, ticks } = short_night(rng);
    let past = 1 + u64::from(up_to(rng, LONGEST));
    let any = rng.next_u64().max(LONGEST_SLEEP + 1);
    let word = 2u64.pow(32);
    let ticks = match rng.below(8) {
        0..=2 => LONGEST_SLEEP + 1,
        3 => LONGEST_SLEEP + past,
        4 => rng.one_of([LONGEST_SLEEP + 2, 16_777_216, word - 1, word, u64::MAX]),
        5 => any,
        6 => word * (1 + u64::from(rng.byte())) + ticks,
        _ => word + ticks,
    };
    Night { scale, ticks }
}

fn some_night(rng: &mut Rng) -> Night {
    match rng.below(100) {
        0..=6 => long_night(rng),
        7..=15 => endless_night(rng),
        _ => short_night(rng),
    }
}

/// Draws most response times and deadlines anew. The check looks at none of them.
fn spread_dates(rng: &mut Rng, pair: &mut Pair, scale: u32) {
    let Pair { table, marking } = pair;
    for link in table.relations.iter_mut().take(table.count) {
        if link.kind == RESPONSE && link.bounded && rng.chance(85) {
            link.time = up_to(rng, scale).max(1);
        }
    }
    // Else what is due at the start stays so.
    let due_too = rng.chance(70);
    for record in marking.records.iter_mut().take(marking.events) {
        if record.bounded && (record.deadline > 0 || due_too) && rng.chance(85) {
            record.deadline = up_to(rng, scale);
        }
    }
}

/// Some ages come to be held on the way.
fn make_old(rng: &mut Rng, pair: &mut Pair, scale: u32) {
    let Pair { marking, .. } = pair;
    for record in marking.records.iter_mut().take(marking.events) {
        if record.happened && rng.chance(15) {
            record.age = TIME_LIMIT - up_to(rng, 2 * scale);
        }
    }
}

pub(super) fn set_date(record: &mut Record, deadline: u32) {
    record.pending = true;
    record.bounded = true;
    record.deadline = deadline;
}

/// The events that may get a date. Without a closure any might.
fn members(pair: &Pair) -> Vec<usize> {
    let events = pair.table.events;
    let closure = from_word(closure(&pair.table, &pair.marking).set, events);
    match closure.is_empty() {
        true => (0..events).collect(),
        false => closure.into_iter().collect(),
    }
}

/// Responses from event to event and back to the first, all of them or none: the
/// check may not have it, as of milestones.
fn add_round(rng: &mut Rng, pair: &mut Pair, scale: u32) {
    let members = members(pair);
    let length = rng.one_of([1, 1, 1, 2, 3]);
    let round: Vec<usize> = (0..length).filter_map(|_| rng.pick(&members)).collect();
    let before = pair.clone();
    let targets = round.iter().cycle().skip(1);
    for (&left, &right) in round.iter().zip(targets) {
        let time = up_to(rng, scale).max(1);
        push(&mut pair.table, relation(RESPONSE, left, right, Some(time)));
    }
    if let Some(&first) = round.first() {
        set_date(&mut pair.marking.records[first], up_to(rng, scale));
        pair.marking.records[first].included = true;
    }
    if check(&pair.table, &pair.marking).number != 0 {
        *pair = before;
    }
}

/// An event that falls due includes one that is excluded. It has no date then: the check
/// has no event of the closure include another.
fn let_one_come_back(rng: &mut Rng, pair: &mut Pair) {
    let closure = members(pair);
    let others = (0..pair.table.events)
        .filter(|&event| !closure.contains(&event) && may_be_away(&pair.table, event));
    let others: Vec<usize> = others.collect();
    if let (Some(left), Some(right)) = (rng.pick(&closure), rng.pick(&others)) {
        pair.marking.records[right].included = false;
        push(&mut pair.table, relation(INCLUDES, left, right, None));
    }
}

/// What unused places hold looks like a date, and is none.
pub(super) fn date_unused_places(rng: &mut Rng, marking: &mut Marking) {
    for record in marking.records.iter_mut().skip(marking.events) {
        if rng.chance(10) {
            record.included = true;
            set_date(record, up_to(rng, 3));
        }
    }
}

fn may_be_away(table: &Table, event: usize) -> bool {
    from_word(table.controllable, table.events).contains(&event)
}

/// Some events with a date are excluded. It runs out, and nothing comes of it.
fn send_some_away(rng: &mut Rng, pair: &mut Pair) {
    let percent = rng.one_of([0, 20, 20, 60]);
    for event in 0..pair.table.events {
        if pair.marking.records[event].bounded
            && may_be_away(&pair.table, event)
            && rng.chance(percent)
        {
            pair.marking.records[event].included = false;
        }
    }
}

/// Leaves nothing that falls due before the last of so many ticks, though some of it
/// then or right after.
fn hush(rng: &mut Rng, pair: &mut Pair, ticks: u64) {
    let ticks = ticks.min(TIME_LIMIT.into()) as u32;
    for event in 0..pair.table.events {
        let away = may_be_away(&pair.table, event);
        let record = &mut pair.marking.records[event];
        if !record.bounded || !record.included {
            continue;
        }
        let deadline = match rng.below(8) {
            0 if away => {
                record.included = false;
                record.deadline
            }
            1 => ticks.saturating_sub(1),
            2..=4 => ticks,
            5 => ticks + rng.one_of([1, 2, 1_000]),
            _ => TIME_LIMIT,
        };
        record.deadline = deadline.min(TIME_LIMIT);
    }
}

/// A pair that the check accepts.
fn quiet_pair(rng: &mut Rng, night: &Night) -> Pair {
    let Night { scale, ticks } = *night;
    let (table, marking) = shape::shaped(rng);
    let mut pair = Pair {
        table: Box::new(table),
        marking: Box::new(marking),
    };
    spread_dates(rng, &mut pair, scale);
    make_old(rng, &mut pair, scale);
    for _ in 0..rng.one_of([0, 1, 1, 2, 3]) {
        add_round(rng, &mut pair, scale);
    }
    send_some_away(rng, &mut pair);
    if rng.chance(15) {
        let_one_come_back(rng, &mut pair);
    }
    // Long sleeps would else seldom be quiet.
    let quiet_percent = if ticks > FEW.into() { 80 } else { 12 };
    if rng.chance(quiet_percent) {
        hush(rng, &mut pair, ticks);
    }
    pair
}

/// Now and then the check rejects, or a part is damaged.
fn some_pair(rng: &mut Rng, night: &Night) -> Pair {
    if rng.chance(15) {
        return pair_to_check(rng);
    }
    let mut pair = quiet_pair(rng, night);
    // Of two refusals one comes first.
    let endless = night.ticks > LONGEST_SLEEP;
    let (spoilt_percent, damaged_percent) = if endless { (40, 20) } else { (15, 8) };
    if rng.chance(spoilt_percent) {
        // None: there was no place for the reason drawn.
        let _ = shape::spoil(rng, &mut pair.table, &mut pair.marking);
    }
    if rng.flag() {
        damage::fill_unused_places(rng, &mut pair.table, &mut pair.marking);
        date_unused_places(rng, &mut pair.marking);
    }
    if rng.chance(damaged_percent) {
        damage_pair(rng, &mut pair);
    }
    pair
}

/// So much is caused at most, as every tick before which something is takes a
/// check. Now and then it is much.
fn most_caused(rng: &mut Rng) -> usize {
    match rng.below(60) {
        0 => 300,
        1..=9 => 60,
        _ => 16,
    }
}

/// Other ticks, so that the last of them is one before which something is caused, or
/// the one before that. And what is caused then. None: nothing is.
fn cut_short(rng: &mut Rng, places: &[u32]) -> Option<(u64, usize)> {
    let last = rng.pick(places)? / 256;
    let ticks = last - rng.one_of([0, 0, 1]);
    let caused = places.iter().filter(|&place| place / 256 <= ticks);
    Some((ticks.into(), caused.count()))
}

/// The ticks for which room is lent. Too many are refused; an engine that cut them to
/// 32 bits might not find them too many.
fn foreseen_ticks(ticks: u64) -> u64 {
    match ticks {
        0..=LONGEST_SLEEP => ticks,
        _ => (ticks % 2u64.pow(32)).min(FEW.into()),
    }
}

/// How long to sleep, and the room that it takes, as far as that is foreseen.
fn ticks_and_room(rng: &mut Rng, pair: &Pair, ticks: u64) -> (u64, usize) {
    let most = most_caused(rng);
    let foreseen = first_places(&pair.table, &pair.marking, foreseen_ticks(ticks), most);
    let cut_percent = match &foreseen {
        _ if ticks > LONGEST_SLEEP => 0,
        Some(places) if places.len() > most => 80,
        // The longest sleeps are few.
        Some(_) if ticks > FEW.into() => 0,
        Some(_) => 30,
        None => 25,
    };
    match (foreseen, rng.chance(cut_percent)) {
        (Some(places), true) => cut_short(rng, &places).unwrap_or((ticks, 0)),
        (Some(places), false) => (ticks, places.len()),
        // Refused, and needs no room: by the check without any tick, too.
        (None, true) => (0, 0),
        (None, false) => (ticks, 0),
    }
}

fn some_room(rng: &mut Rng, needed: usize) -> usize {
    match rng.below(15) {
        0..=2 => needed.saturating_sub(1),
        3 => rng.below(needed),
        4 => 0,
        5 | 6 => needed + 1,
        7 | 8 => needed + rng.below(20),
        9 => needed + 300,
        _ => needed,
    }
}

/// A lent list with something already in it: all alike, or places that a sleep could
/// give, or any.
fn some_list(rng: &mut Rng, needed: usize) -> Vec<u32> {
    let room = some_room(rng, needed);
    let alike = rng.one_of([0, u32::MAX]);
    let sort = rng.below(4);
    let places = (0..room).map(|_| match sort {
        0 => alike,
        1 => 256 * rng.between(1, 9) as u32 + rng.below(6) as u32,
        _ => rng.word(),
    });
    places.collect()
}

pub fn sleep_case(rng: &mut Rng) -> Case {
    let night = some_night(rng);
    let pair = some_pair(rng, &night);
    let (ticks, needed) = ticks_and_room(rng, &pair, night.ticks);
    let list = some_list(rng, needed);
    Case::Sleep { pair, ticks, list }
}
