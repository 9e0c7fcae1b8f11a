//! The sorts of sleeps, by what comes up on the way, and of quiet ticks.

use crate::chain::sorts::true_ones;
use crate::promises::sleep::{Caused, MOST_TICKS};
use second::case::{Answer, Case, Pair};
use second::*;

pub const SORTS: [&str; 65] = [
    "nothing caused",
    "nothing caused, and a date still runs",
    "one event caused",
    "many events caused",
    "caused before tick 1",
    "caused before the last tick",
    "due after the last tick",
    "before several ticks",
    "before two ticks in a row",
    "quiet ticks between",
    "many quiet ticks between",
    "an event again",
    "an event again and again",
    "an event, another and the first again",
    "several before one tick",
    "not by number",
    "an inhibitor first",
    "caused and still pending",
    "an excluded date runs out",
    "an excluded date runs out before something is caused",
    "an excluded date is 0 all along",
    "an excluded date runs on",
    "excluded on the way, with a date",
    "included on the way",
    "an age comes to be held",
    "an age is held all along",
    "an excluded event ages",
    "a count comes to be held",
    "in a firm table",
    "in a firm table, an event again",
    "without any tick",
    "without any tick, and an event is due",
    "one tick",
    "10,000 ticks and more, and nothing caused",
    "10,000 ticks and more",
    "caused after 10,000 ticks",
    "999,999 ticks",
    "1,000,000 ticks",
    "1,000,000 ticks, and an event due then",
    "as many places as needed",
    "one place more",
    "more places",
    "no places, and none needed",
    "one place too few",
    "no places, and some needed",
    "too few at a later tick",
    "1,000,001 ticks",
    "more than 32 bits of ticks",
    "too many ticks, and the check rejects",
    "too many ticks, and nothing falls due",
    "rejected without any tick",
    "rejected with nothing due",
    "rejected with an event due, and no places",
    "quiet: due now",
    "quiet: nothing pending",
    "quiet: eventually pending only",
    "quiet: excluded dates only",
    "quiet: 1 tick",
    "quiet: several dates, and excluded ones before",
    "quiet: 10,000 ticks and more",
    "quiet: a date at 999,999",
    "quiet: a date at 1,000,000",
    "quiet: a date at 1,000,001",
    "quiet: a date far beyond",
    "quiet: the check rejects",
];

const LONG: u64 = 10_000;
const AGE_LIMIT: u32 = 1_000_000_000;

fn taken_apart(places: &[u32]) -> Vec<Caused> {
    let places = places.iter();
    places
        .map(|place| (place / 256, (place % 256) as u8))
        .collect()
}

/// Of what is listed, and when.
fn of_list(ticks: u64, all: &[Caused]) -> Vec<&'static str> {
    let times = |event: u8| all.iter().filter(|(_, other)| *other == event).count();
    let most = all
        .iter()
        .map(|(_, event)| times(*event))
        .max()
        .unwrap_or(0);
    let gap = |least: u32| all.windows(2).any(|two| two[1].0 >= two[0].0 + least);
    let any = |fits: &dyn Fn(u32) -> bool| all.iter().any(|(tick, _)| fits(*tick));
    let last = all.last().map_or(0, |(tick, _)| *tick);
    true_ones([
        (all.is_empty(), "nothing caused"),
        (all.len() == 1, "one event caused"),
        (all.len() > 20, "many events caused"),
        (any(&|tick| tick == 1), "caused before tick 1"),
        (
            any(&|tick| u64::from(tick) == ticks),
            "caused before the last tick",
        ),
        (gap(1), "before several ticks"),
        (
            all.windows(2).any(|two| two[1].0 == two[0].0 + 1),
            "before two ticks in a row",
        ),
        (gap(2), "quiet ticks between"),
        (gap(100), "many quiet ticks between"),
        (most > 1, "an event again"),
        (most > 5, "an event again and again"),
        (
            all.windows(3)
                .any(|three| three[0].1 == three[2].1 && three[0].1 != three[1].1),
            "an event, another and the first again",
        ),
        (
            all.windows(2).any(|two| two[0].0 == two[1].0),
            "several before one tick",
        ),
        (
            all.windows(2)
                .any(|two| two[0].0 == two[1].0 && two[0].1 > two[1].1),
            "not by number",
        ),
        (u64::from(last) > LONG, "caused after 10,000 ticks"),
    ])
}

/// What became of one event.
struct Fate<'a> {
    start: &'a Record,
    end: &'a Record,
    caused: bool,
}

/// Of one event on the way. `last` is the tick before which something was caused last.
fn of_event(fate: &Fate, ticks: u64, last: u32) -> Vec<&'static str> {
    let Fate { start, end, caused } = *fate;
    let away = !start.included && !end.included && start.bounded;
    let runs_out = away && start.deadline > 0 && u64::from(start.deadline) < ticks;
    let old = end.happened && end.age == AGE_LIMIT && !caused;
    let held = end.count == u32::MAX && caused;
    true_ones([
        (caused && end.pending, "caused and still pending"),
        (runs_out, "an excluded date runs out"),
        (
            runs_out && start.deadline < last,
            "an excluded date runs out before something is caused",
        ),
        (
            away && start.deadline == 0 && ticks > 0,
            "an excluded date is 0 all along",
        ),
        (
            away && end.deadline > 0 && ticks > 0,
            "an excluded date runs on",
        ),
        (
            start.included && !end.included && end.bounded,
            "excluded on the way, with a date",
        ),
        (!start.included && end.included, "included on the way"),
        (old && start.age < AGE_LIMIT, "an age comes to be held"),
        (
            old && start.age == AGE_LIMIT && ticks > 0,
            "an age is held all along",
        ),
        (
            !end.included && end.age > start.age,
            "an excluded event ages",
        ),
        (held && start.count < u32::MAX, "a count comes to be held"),
    ])
}

/// Of the lent list where there is room enough.
fn of_room(room: usize, needed: usize) -> &'static str {
    match room - needed {
        0 if room == 0 => "no places, and none needed",
        0 => "as many places as needed",
        1 => "one place more",
        _ => "more places",
    }
}

fn of_done(pair: &Pair, ticks: u64, end: &SleepAnswer, list: &[u32]) -> Vec<&'static str> {
    let Pair { table, marking } = pair;
    let all = taken_apart(&list[..end.count]);
    let last = all.last().map_or(0, |(tick, _)| *tick);
    let mut sorts = of_list(ticks, &all);
    sorts.push(of_room(list.len(), all.len()));
    for event in 0..table.events {
        let fate = Fate {
            start: &marking.records[event],
            end: &end.marking.records[event],
            caused: all.iter().any(|(_, other)| usize::from(*other) == event),
        };
        sorts.extend(of_event(&fate, ticks, last));
    }
    let due_now = due(table, marking).set;
    let due_then = due(table, &end.marking).set;
    let runs = |record: &Record| record.included && record.bounded;
    let inhibitor = all
        .iter()
        .any(|(tick, event)| *tick == 1 && due_now & 2u64.pow(u32::from(*event)) == 0);
    sorts.extend(true_ones([
        (
            all.is_empty() && end.marking.records[..table.events].iter().any(runs),
            "nothing caused, and a date still runs",
        ),
        (due_then != 0 && ticks > 0, "due after the last tick"),
        (inhibitor, "an inhibitor first"),
        (table.firm, "in a firm table"),
        (
            table.firm && sorts.contains(&"an event again"),
            "in a firm table, an event again",
        ),
        (ticks == 0, "without any tick"),
        (
            ticks == 0 && due_now != 0,
            "without any tick, and an event is due",
        ),
        (ticks == 1, "one tick"),
        (ticks >= LONG, "10,000 ticks and more"),
        (
            ticks >= LONG && all.is_empty(),
            "10,000 ticks and more, and nothing caused",
        ),
        (ticks == MOST_TICKS - 1, "999,999 ticks"),
        (ticks == MOST_TICKS, "1,000,000 ticks"),
        (
            ticks == MOST_TICKS && due_then != 0,
            "1,000,000 ticks, and an event due then",
        ),
    ]));
    sorts
}

/// Of a sleep that is refused for want of room, or of its ticks.
fn of_fourteen(pair: &Pair, ticks: u64, room: usize) -> Vec<&'static str> {
    let Pair { table, marking } = pair;
    if ticks > MOST_TICKS {
        let quiet = quiet(table, marking).ticks == MOST_TICKS;
        return true_ones([
            (ticks == MOST_TICKS + 1, "1,000,001 ticks"),
            (ticks >= 2u64.pow(32), "more than 32 bits of ticks"),
            (
                check(table, marking).number == 12,
                "too many ticks, and the check rejects",
            ),
            (quiet, "too many ticks, and nothing falls due"),
        ]);
    }
    let one_more = sleep(table, marking, ticks, &mut vec![0; room + 1]);
    let first = quiet(table, marking).ticks + 1;
    let in_time = sleep(table, marking, first, &mut vec![0; room]);
    true_ones([
        (one_more.number == 0, "one place too few"),
        (room == 0, "no places, and some needed"),
        (room > 0 && in_time.number == 0, "too few at a later tick"),
    ])
}

fn of_rejected(pair: &Pair, ticks: u64, room: usize) -> Vec<&'static str> {
    let due = due(&pair.table, &pair.marking).set;
    true_ones([
        (ticks == 0, "rejected without any tick"),
        (due == 0, "rejected with nothing due"),
        (
            due != 0 && room == 0,
            "rejected with an event due, and no places",
        ),
    ])
}

fn of_quiet(pair: &Pair, ticks: u64) -> Vec<&'static str> {
    let Pair { table, marking } = pair;
    let records = &marking.records[..table.events];
    let any = |fits: &dyn Fn(&Record) -> bool| records.iter().any(fits);
    let dates = records
        .iter()
        .filter(|record| record.included && record.bounded);
    let nearest = dates.clone().map(|record| record.deadline).min();
    let eventually = any(&|record| record.pending && !record.bounded);
    let away = any(&|record| record.bounded && !record.included);
    let sooner =
        |record: &Record| record.bounded && !record.included && u64::from(record.deadline) < ticks;
    true_ones([
        (ticks == 0, "quiet: due now"),
        (!any(&|record| record.pending), "quiet: nothing pending"),
        (
            nearest.is_none() && eventually && !away,
            "quiet: eventually pending only",
        ),
        (nearest.is_none() && away, "quiet: excluded dates only"),
        (ticks == 1, "quiet: 1 tick"),
        (
            dates.count() > 1 && any(&sooner),
            "quiet: several dates, and excluded ones before",
        ),
        (
            nearest.is_some() && (LONG..999_999).contains(&ticks),
            "quiet: 10,000 ticks and more",
        ),
        (nearest == Some(999_999), "quiet: a date at 999,999"),
        (nearest == Some(1_000_000), "quiet: a date at 1,000,000"),
        (nearest == Some(1_000_001), "quiet: a date at 1,000,001"),
        (nearest > Some(2_000_000), "quiet: a date far beyond"),
        (
            check(table, marking).number == 12,
            "quiet: the check rejects",
        ),
    ])
}

/// Each sort once.
pub fn sorts_of(case: &Case, answer: &Answer) -> Vec<&'static str> {
    let mut sorts = match (case, answer) {
        (Case::Sleep { pair, ticks, .. }, Answer::Sleep { end, list }) => match end.number {
            0 => of_done(pair, *ticks, end, list),
            12 => of_rejected(pair, *ticks, list.len()),
            14 => of_fourteen(pair, *ticks, list.len()),
            _ => Vec::new(),
        },
        (Case::Quiet { pair }, Answer::Ticks(given)) if given.number == 0 => {
            of_quiet(pair, given.ticks)
        }
        _ => Vec::new(),
    };
    sorts.sort_unstable();
    sorts.dedup();
    sorts
}
