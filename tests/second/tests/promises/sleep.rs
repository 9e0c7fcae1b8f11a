//! What is promised of sleeps: the answer of so many single guarded ticks. They are
//! worded here on the decoded values, from date to date; a sleep of few ticks is also
//! put together from as many calls.

use super::replay::{replay, Moment, REPLAYED};
use super::{accepts, cause, counts, firm, holds, judged, made, one_tick_later, Promise};
use second::case::Pair;
use second::*;

pub const MOST_TICKS: u64 = 1_000_000;

/// The number of the tick before which an event was caused, and the event.
pub type Caused = (u32, u8);

/// So many ticks later, if nothing is caused meanwhile.
pub fn later(before: &Marking, ticks: u32) -> Marking {
    let mut after = *before;
    for record in after.records.iter_mut().take(before.events) {
        if record.happened {
            record.age = (record.age + ticks).min(1_000_000_000);
        }
        if record.bounded {
            record.deadline -= ticks.min(record.deadline);
        }
    }
    after
}

/// The ticks that pass before something is due. None: there is nothing to fall due.
pub fn ticks_to_the_next(now: &Marking) -> Option<u32> {
    let records = now.records[..now.events].iter();
    let with_a_date = records.filter(|record| record.included && record.bounded);
    with_a_date.map(|record| record.deadline).min()
}

/// The caused events and the marking after so many ticks. None: more is caused than
/// there is room for.
fn foresee(pair: &Pair, ticks: u32, room: usize) -> Option<(Vec<Caused>, Marking)> {
    let mut now = *pair.marking;
    let mut all = Vec::new();
    let mut passed = 0;
    loop {
        let left = ticks - passed;
        let quiet = ticks_to_the_next(&now).map_or(left, |ticks| ticks.min(left));
        now = later(&now, quiet);
        passed += quiet;
        if passed == ticks {
            return Some((all, now));
        }
        let (events, after) = cause(&pair.table, &now);
        now = one_tick_later(&after);
        passed += 1;
        all.extend(events.into_iter().map(|event| (passed, event)));
        if all.len() > room {
            return None;
        }
    }
}

/// Number, reason and place of a call that is refused before its first tick.
fn refused_at_once(pair: &Pair, ticks: u64) -> Option<(u8, u8, u16)> {
    match judged(pair) {
        0 if ticks > MOST_TICKS => return Some((14, 0, 0)),
        0 => {}
        number => return Some((number, 0, 0)),
    }
    let check = check(&pair.table, &pair.marking);
    (check.number != 0).then_some((check.number, check.reason, check.place))
}

fn refusal_promise(
    pair: &Pair,
    refusal: (u8, u8, u16),
    before: &[u32],
    end: &SleepAnswer,
    after: &[u32],
) -> Promise {
    holds(
        (end.number, end.reason, end.place) == refusal,
        "not refused with its number, reason and place",
    )?;
    holds(after == before, "a refused sleep is listed")?;
    holds(
        end.count == 0 && end.marking == *pair.marking,
        "a refused sleep did something",
    )
}

/// The list, taken apart: tick numbers from 1 that do not fall, and events there are.
fn listed(table: &Table, ticks: u32, places: &[u32]) -> Result<Vec<Caused>, String> {
    let mut last = 1;
    let mut all = Vec::new();
    for place in places {
        let (tick, event) = (place / 256, (place % 256) as u8);
        holds((last..=ticks).contains(&tick), "no such tick, or too late")?;
        holds(usize::from(event) < table.events, "no such event is listed")?;
        all.push((tick, event));
        last = tick;
    }
    Ok(all)
}

/// One call for each tick.
fn single_ticks_promise(pair: &Pair, ticks: u32, all: &[Caused], end: &Marking) -> Promise {
    let steps = vec![Step { kind: 3, event: 0 }; ticks as usize];
    let moments = replay(&pair.table, &pair.marking, &steps);
    let mut expected = Vec::new();
    for (tick, moment) in (1..).zip(&moments) {
        holds(moment.number == 0, "a single guarded tick is refused")?;
        let executed = moment.executed.iter();
        expected.extend(executed.map(|&event| (tick, event as u8)));
    }
    let last = moments
        .last()
        .map_or(*pair.marking, |moment| moment.marking);
    holds(all == expected, "the list is not that of single ticks")?;
    holds(*end == last, "the marking is not that of single ticks")?;
    if pair.table.firm {
        firm::dates_promise(&pair.marking, &moments)?;
    }
    Ok(())
}

/// A sleep that is done, its list taken apart.
fn nap(table: &Table, start: &Marking, ticks: u32, room: usize) -> Option<(Vec<Caused>, Marking)> {
    let mut list = vec![0; room];
    let end = sleep(table, start, ticks.into(), &mut list);
    let all = listed(table, ticks, &list[..end.count]).ok()?;
    (end.number == 0).then_some((all, end.marking))
}

/// Sleeping t and then u is sleeping t + u, with the second list's tick numbers moved
/// by t.
fn two_parts_promise(pair: &Pair, ticks: u32, all: &[Caused], end: &Marking) -> Promise {
    let middle = all.get(all.len() / 2).map_or(0, |(tick, _)| *tick);
    for first in [ticks / 2, middle] {
        let parts = nap(&pair.table, &pair.marking, first, all.len());
        let parts = parts.and_then(|(mut listed, between)| {
            let room = all.len() - listed.len();
            let (second, end) = nap(&pair.table, &between, ticks - first, room)?;
            listed.extend(second.iter().map(|(tick, event)| (first + tick, *event)));
            Some((listed, end))
        });
        holds(
            parts == Some((all.to_vec(), *end)),
            "sleeping in two parts is another sleep",
        )?;
    }
    Ok(())
}

/// Counts are their starts and what is listed.
fn counts_promise(start: &Marking, all: &[Caused], end: &Marking) -> Promise {
    let history = Moment {
        number: 0,
        executed: all.iter().map(|(_, event)| (*event).into()).collect(),
        ticked: false,
        marking: *end,
    };
    counts::counts_promise(start, &[history], end)
}

/// A sleep that is to be done, with this list and this marking at its end.
fn done_promise(
    pair: &Pair,
    before: &[u32],
    end: &SleepAnswer,
    after: &[u32],
    ticks: u32,
    (expected, last): (Vec<Caused>, Marking),
) -> Promise {
    let Pair { table, marking } = pair;
    holds(
        (end.number, end.reason, end.place) == (0, 0, 0),
        "a sleep is refused without cause",
    )?;
    holds(
        after.len() == before.len() && end.count <= after.len(),
        "more is counted than there is room for",
    )?;
    holds(
        after[end.count..] == before[end.count..],
        "places past the count are changed",
    )?;
    let all = listed(table, ticks, &after[..end.count])?;
    made(table, marking, &end.marking)?;
    counts_promise(marking, &all, &end.marking)?;
    holds(all == expected, "not what so many guarded ticks cause")?;
    holds(end.marking == last, "not the marking after so many ticks")?;
    if ticks as usize <= REPLAYED {
        single_ticks_promise(pair, ticks, &all, &end.marking)?;
    }
    two_parts_promise(pair, ticks, &all, &end.marking)?;
    holds(accepts(table, &end.marking), "the check no longer accepts")
}

pub fn sleep_promise(
    pair: &Pair,
    ticks: u64,
    before: &[u32],
    end: &SleepAnswer,
    after: &[u32],
) -> Promise {
    if let Some(refusal) = refused_at_once(pair, ticks) {
        return refusal_promise(pair, refusal, before, end, after);
    }
    // No more than a million.
    let ticks = ticks as u32;
    match foresee(pair, ticks, before.len()) {
        Some(foreseen) => done_promise(pair, before, end, after, ticks, foreseen),
        None => refusal_promise(pair, (14, 0, 0), before, end, after),
    }
}
