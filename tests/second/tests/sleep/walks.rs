//! Engines that pass the ticks of a sleep in a wrong way. All are variations of one that
//! goes from date to date.

use crate::promises::sleep::Caused;
use crate::promises::{effect, taken_in_turn};
use second::case::Pair;
use second::{Marking, Record, Table};

/// Some engines never get anywhere: none goes on after so many stops.
const PATIENCE: usize = 3000;

/// How an engine passes the ticks.
#[derive(Clone, Copy)]
pub struct Ways {
    /// Whether the table is firm, by what is set in it.
    firm: fn(bool) -> bool,
    /// The ticks that are passed, of so many asked.
    ticks: fn(u32) -> u32,
    /// How many events may have a date.
    events: fn(&Walk) -> usize,
    /// The date of an event. None: it has none that counts.
    date: fn(&Walk, usize) -> Option<u32>,
    /// The ticks passed in one go, if the nearest date is so many ticks on.
    jump: fn(&Walk, Option<u32>) -> u32,
    /// A record so many ticks later, in one go.
    later: fn(&Record, u32) -> Record,
    /// What is executed of the needed events, which are given in turn.
    takes: fn(&Walk, Vec<u8>) -> Vec<u8>,
    /// Whether an event is skipped that an earlier one has excluded.
    skips: bool,
    /// The ticks that pass before what is caused, and after it.
    around: (u32, u32),
    /// The number of the tick that has just passed.
    number: fn(&Walk) -> u32,
    /// The marking at the end.
    end: fn(&Walk) -> Marking,
}

/// A sleep as far as an engine has come with it.
pub struct Walk<'a> {
    pair: &'a Pair,
    table: Table,
    ticks: u32,
    now: Marking,
    passed: u32,
    /// The stops that it made, a tick each.
    stops: usize,
    /// The jumps that it made, of 1 tick or more.
    jumps: u32,
    /// The tick before which something was caused last, 0 if nothing was.
    last: u32,
    all: Vec<Caused>,
}

impl Walk<'_> {
    fn left(&self) -> u32 {
        self.ticks - self.passed
    }

    /// Of an event that is included: when it falls due.
    fn dated(&self, event: usize) -> Option<u32> {
        let record = &self.now.records[event];
        (record.included && record.bounded).then_some(record.deadline)
    }

    fn excluded_at_0(&self) -> bool {
        let mut records = self.now.records[..self.pair.table.events].iter();
        records.any(|record| !record.included && record.bounded && record.deadline == 0)
    }

    fn pass(&mut self, ticks: u32, later: fn(&Record, u32) -> Record) {
        for record in self.now.records.iter_mut().take(self.pair.table.events) {
            *record = later(record, ticks);
        }
    }

    /// The events and their dates, as the engine sees them.
    fn dates(&self, ways: &Ways) -> Vec<(usize, u32)> {
        let events = 0..(ways.events)(self);
        events
            .filter_map(|event| Some((event, (ways.date)(self, event)?)))
            .collect()
    }

    /// All the ticks that pass in one go from here.
    fn go_far(&mut self, ways: &Ways) {
        let next = self.dates(ways).into_iter().map(|(_, date)| date).min();
        let jump = (ways.jump)(self, next);
        if jump > 0 {
            self.pass(jump, ways.later);
            self.passed += jump;
            self.jumps += 1;
        }
    }

    /// A guarded tick.
    fn stop(&mut self, ways: &Ways) {
        let due = self.dates(ways).into_iter().filter(|(_, date)| *date == 0);
        let due = due.map(|(event, _)| 2u64.pow(event as u32)).sum();
        let needed = taken_in_turn(&self.table, &self.now, due);
        let taken = (ways.takes)(self, needed);
        self.pass(ways.around.0, later);
        let mut caused = Vec::new();
        for event in taken {
            if self.now.records[usize::from(event)].included || !ways.skips {
                self.now = effect(&self.table, &self.now, event.into());
                caused.push(event);
            }
        }
        self.pass(ways.around.1, later);
        self.passed += 1;
        self.stops += 1;
        let number = (ways.number)(self);
        if !caused.is_empty() {
            self.last = self.passed;
        }
        let caused = caused.into_iter().map(|event| (number, event));
        self.all.extend(caused);
    }
}

fn later(before: &Record, ticks: u32) -> Record {
    let mut after = *before;
    if after.happened {
        after.age = (after.age + ticks).min(1_000_000_000);
    }
    if after.bounded {
        after.deadline = after.deadline.saturating_sub(ticks);
    }
    after
}

fn jump(walk: &Walk, next: Option<u32>) -> u32 {
    next.map_or(walk.left(), |date| date.min(walk.left()))
}

pub const RIGHT: Ways = Ways {
    firm: |firm| firm,
    ticks: |ticks| ticks,
    events: |walk| walk.pair.table.events,
    date: |walk, event| walk.dated(event),
    jump,
    later,
    takes: |_, needed| needed,
    skips: true,
    around: (0, 1),
    number: |walk| walk.passed,
    end: |walk| walk.now,
};

/// What is caused in so many ticks, and the marking then.
pub enum Found {
    Done(Vec<Caused>, Box<Marking>),
    /// More is caused than there is room for.
    TooMuch,
    /// No end was found.
    Endless,
}

pub fn walk(pair: &Pair, ticks: u32, room: usize, ways: &Ways) -> Found {
    let mut table = *pair.table;
    table.firm = (ways.firm)(table.firm);
    let mut walk = Walk {
        pair,
        table,
        ticks: (ways.ticks)(ticks),
        now: *pair.marking,
        passed: 0,
        stops: 0,
        jumps: 0,
        last: 0,
        all: Vec::new(),
    };
    while walk.passed < walk.ticks {
        walk.go_far(ways);
        if walk.passed < walk.ticks {
            walk.stop(ways);
        }
        if walk.all.len() > room {
            return Found::TooMuch;
        }
        if walk.stops > PATIENCE {
            return Found::Endless;
        }
    }
    let end = (ways.end)(&walk);
    Found::Done(walk.all, Box::new(end))
}

/// The marking at the end, each record changed by what it was at the start.
fn with(walk: &Walk, change: fn(&Record, &mut Record)) -> Marking {
    let mut end = walk.now;
    let records = walk.pair.marking.records.iter().zip(&mut end.records);
    for (start, record) in records.take(walk.pair.table.events) {
        change(start, record);
    }
    end
}

pub const WALKS: [(&str, Ways); 46] = [
    (
        "one tick too far",
        Ways {
            jump: |walk, next| jump(walk, next.map(|date| date + u32::from(date > 0))),
            ..RIGHT
        },
    ),
    (
        "one tick too soon",
        Ways {
            date: |walk, event| Some(walk.dated(event)?.saturating_sub(1)),
            ..RIGHT
        },
    ),
    (
        "nothing is ever due",
        Ways {
            date: |_, _| None,
            ..RIGHT
        },
    ),
    (
        "to the furthest date",
        Ways {
            jump: |walk, next| {
                let events = 0..walk.pair.table.events;
                let furthest = events.filter_map(|event| walk.dated(event)).max();
                jump(walk, if next == Some(0) { next } else { furthest })
            },
            ..RIGHT
        },
    ),
    (
        "to the date of the lowest event",
        Ways {
            jump: |walk, _| {
                let mut events = 0..walk.pair.table.events;
                jump(walk, events.find_map(|event| walk.dated(event)))
            },
            ..RIGHT
        },
    ),
    (
        "to the next date, whatever is left",
        Ways {
            jump: |walk, next| next.unwrap_or(walk.left()).min(1_000_000),
            ..RIGHT
        },
    ),
    (
        "to no date that was not there at the start",
        Ways {
            jump: |walk, _| {
                let start = walk.pair.marking.records[..walk.pair.table.events].iter();
                let dated = start.filter(|record| record.included && record.bounded);
                let ahead = dated.filter_map(|record| record.deadline.checked_sub(walk.passed));
                jump(walk, ahead.min())
            },
            ..RIGHT
        },
    ),
    (
        "nothing after what is caused first",
        Ways {
            jump: |walk, next| match walk.all.is_empty() {
                true => jump(walk, next),
                false => walk.left(),
            },
            ..RIGHT
        },
    ),
    (
        "event 0 has no date",
        Ways {
            date: |walk, event| walk.dated(event).filter(|_| event > 0),
            ..RIGHT
        },
    ),
    (
        "the last event has no date",
        Ways {
            date: |walk, event| {
                let last = walk.pair.table.events - 1;
                walk.dated(event).filter(|_| event < last)
            },
            ..RIGHT
        },
    ),
    (
        "unused places have dates",
        Ways {
            events: |_| 64,
            ..RIGHT
        },
    ),
    (
        "an excluded event is caused",
        Ways {
            date: |walk, event| {
                let record = &walk.now.records[event];
                record.bounded.then_some(record.deadline)
            },
            skips: false,
            ..RIGHT
        },
    ),
    (
        "nothing is caused while an excluded date is 0",
        Ways {
            takes: |walk, needed| match walk.excluded_at_0() {
                true => Vec::new(),
                false => needed,
            },
            ..RIGHT
        },
    ),
    (
        "nothing falls due once an excluded date is 0",
        Ways {
            jump: |walk, next| jump(walk, next.filter(|_| !walk.excluded_at_0())),
            ..RIGHT
        },
    ),
    (
        "who is included is asked at the start",
        Ways {
            date: |walk, event| {
                let record = &walk.now.records[event];
                let included = walk.pair.marking.records[event].included;
                (included && record.bounded).then_some(record.deadline)
            },
            skips: false,
            ..RIGHT
        },
    ),
    (
        "eventually is due",
        Ways {
            date: |walk, event| {
                let record = &walk.now.records[event];
                (record.included && record.pending).then_some(record.deadline)
            },
            ..RIGHT
        },
    ),
    (
        "ages stay",
        Ways {
            later: |before, ticks| Record {
                age: before.age,
                ..later(before, ticks)
            },
            ..RIGHT
        },
    ),
    (
        "ages are not held",
        Ways {
            later: |before, ticks| Record {
                age: before.age + u32::from(before.happened) * ticks,
                ..later(before, ticks)
            },
            ..RIGHT
        },
    ),
    (
        "ages are held one too soon",
        Ways {
            later: |before, ticks| Record {
                age: later(before, ticks).age.min(999_999_999),
                ..later(before, ticks)
            },
            ..RIGHT
        },
    ),
    (
        "ages of excluded events stay",
        Ways {
            later: |before, ticks| Record {
                age: later(before, u32::from(before.included) * ticks).age,
                ..later(before, ticks)
            },
            ..RIGHT
        },
    ),
    (
        "what never happened ages",
        Ways {
            later: |before, ticks| Record {
                age: (before.age + ticks).min(1_000_000_000),
                ..later(before, ticks)
            },
            ..RIGHT
        },
    ),
    (
        "dates of excluded events stay",
        Ways {
            later: |before, ticks| Record {
                deadline: later(before, u32::from(before.included) * ticks).deadline,
                ..later(before, ticks)
            },
            ..RIGHT
        },
    ),
    (
        "dates of excluded events fall below 0",
        Ways {
            later: |before, ticks| Record {
                deadline: before
                    .deadline
                    .wrapping_sub(u32::from(before.bounded) * ticks),
                ..later(before, ticks)
            },
            ..RIGHT
        },
    ),
    (
        "dates of excluded events end at 1",
        Ways {
            later: |before, ticks| Record {
                deadline: match before.included {
                    true => later(before, ticks).deadline,
                    false => later(before, ticks).deadline.max(before.deadline.min(1)),
                },
                ..later(before, ticks)
            },
            ..RIGHT
        },
    ),
    (
        "a jump is cut to 8 bits",
        Ways {
            later: |before, ticks| later(before, ticks % 256),
            ..RIGHT
        },
    ),
    (
        "a jump forgets the ages it began with",
        Ways {
            later: |before, ticks| Record {
                age: u32::from(before.happened) * ticks,
                ..later(before, ticks)
            },
            ..RIGHT
        },
    ),
    (
        "only what is due, and no inhibitor",
        Ways {
            takes: |walk, mut needed| {
                needed.retain(|&event| walk.dated(event.into()) == Some(0));
                needed
            },
            ..RIGHT
        },
    ),
    (
        "one event a tick",
        Ways {
            takes: |_, mut needed| {
                needed.truncate(1);
                needed
            },
            ..RIGHT
        },
    ),
    (
        "by number",
        Ways {
            takes: |_, mut needed| {
                needed.sort_unstable();
                needed
            },
            ..RIGHT
        },
    ),
    (
        "what an earlier one excluded is executed",
        Ways {
            skips: false,
            ..RIGHT
        },
    ),
    (
        "nothing before the first tick",
        Ways {
            takes: |walk, needed| match walk.passed {
                0 => Vec::new(),
                _ => needed,
            },
            ..RIGHT
        },
    ),
    (
        "nothing before the last tick",
        Ways {
            takes: |walk, needed| match walk.left() {
                1 => Vec::new(),
                _ => needed,
            },
            ..RIGHT
        },
    ),
    (
        "each event once",
        Ways {
            takes: |walk, mut needed| {
                needed.retain(|event| walk.all.iter().all(|(_, before)| before != event));
                needed
            },
            ..RIGHT
        },
    ),
    (
        "no tick passes where something is caused",
        Ways {
            around: (0, 0),
            ..RIGHT
        },
    ),
    (
        "two ticks pass where something is caused",
        Ways {
            around: (0, 2),
            ..RIGHT
        },
    ),
    (
        "the tick passes before what is caused",
        Ways {
            around: (1, 0),
            ..RIGHT
        },
    ),
    (
        "one tick less",
        Ways {
            ticks: |ticks| ticks.saturating_sub(1),
            ..RIGHT
        },
    ),
    (
        "one tick more",
        Ways {
            ticks: |ticks| ticks + 1,
            ..RIGHT
        },
    ),
    (
        "firm is ignored",
        Ways {
            firm: |_| false,
            ..RIGHT
        },
    ),
    (
        "every table is firm",
        Ways {
            firm: |_| true,
            ..RIGHT
        },
    ),
    (
        "the marking as handed in",
        Ways {
            end: |walk| *walk.pair.marking,
            ..RIGHT
        },
    ),
    (
        "what is due at the end is executed",
        Ways {
            end: |walk| {
                let events = 0..walk.pair.table.events;
                let due = events.filter(|&event| walk.dated(event) == Some(0));
                due.fold(walk.now, |now, event| effect(&walk.table, &now, event))
            },
            ..RIGHT
        },
    ),
    (
        "counts as at the start",
        Ways {
            end: |walk| with(walk, |start, record| record.count = start.count),
            ..RIGHT
        },
    ),
    (
        "counts grow once",
        Ways {
            end: |walk| {
                with(walk, |start, record| {
                    record.count = record.count.min(start.count.saturating_add(1));
                })
            },
            ..RIGHT
        },
    ),
    (
        "included as at the start",
        Ways {
            end: |walk| with(walk, |start, record| record.included = start.included),
            ..RIGHT
        },
    ),
    (
        "unused places are emptied",
        Ways {
            end: |walk| {
                let mut end = second::fresh(walk.pair.table.events).marking;
                let used = ..walk.pair.table.events;
                end.records[used].copy_from_slice(&walk.now.records[used]);
                end
            },
            ..RIGHT
        },
    ),
];

/// Engines that pass the ticks rightly and number them wrongly.
pub const NUMBERS: [(&str, Ways); 8] = [
    (
        "numbers from 0",
        Ways {
            number: |walk| walk.passed - 1,
            ..RIGHT
        },
    ),
    (
        "numbers from 2",
        Ways {
            number: |walk| walk.passed + 1,
            ..RIGHT
        },
    ),
    (
        "numbers from what was caused last",
        Ways {
            number: |walk| walk.passed - walk.last,
            ..RIGHT
        },
    ),
    (
        "a jump is one tick",
        Ways {
            number: |walk| walk.jumps + walk.stops as u32,
            ..RIGHT
        },
    ),
    (
        "a jump is one tick short",
        Ways {
            number: |walk| walk.passed - walk.jumps,
            ..RIGHT
        },
    ),
    (
        "numbers only the ticks before which something is caused",
        Ways {
            number: |walk| walk.stops as u32,
            ..RIGHT
        },
    ),
    (
        "numbers from the end",
        Ways {
            number: |walk| walk.left() + 1,
            ..RIGHT
        },
    ),
    (
        "the number of the tick is cut to 8 bits",
        Ways {
            number: |walk| walk.passed % 256,
            ..RIGHT
        },
    ),
];
