//! What a sleep causes and before which ticks, how long nothing is due, the room lent,
//! and why a sleep is refused.

use super::REASONS;
use second::case::Pair;
use second::{check, sleep, Record, SleepAnswer};
use std::collections::BTreeSet;

/// The most ticks that there are in one call.
const MOST: u64 = 1_000_000;

/// Where an age is held.
const HOLD: u32 = 1_000_000_000;

/// A sleep that is done.
struct Slept<'a> {
    pair: &'a Pair,
    ticks: u64,
    end: &'a SleepAnswer,
    /// Tick and event of what was caused.
    caused: Vec<(u64, u32)>,
    room: usize,
}

impl Slept<'_> {
    /// The ticks before which something was caused.
    fn causing(&self) -> BTreeSet<u64> {
        self.caused.iter().map(|caused| caused.0).collect()
    }

    /// How many ticks there are before the first of these, between two and behind the
    /// last.
    fn quiet(&self) -> Vec<u64> {
        let causing = self.causing();
        let ends = causing.iter().copied().chain([self.ticks + 1]);
        let starts = [0].into_iter().chain(causing.iter().copied());
        starts
            .zip(ends)
            .map(|(start, end)| end - start - 1)
            .collect()
    }

    /// An event was caused before more than one tick.
    fn comes_back(&self) -> bool {
        let events: BTreeSet<u32> = self.caused.iter().map(|caused| caused.1).collect();
        events.len() < self.caused.len()
    }

    /// Whether some event's record at the start and that at the end are so.
    fn some(&self, fits: impl Fn(&Record, &Record) -> bool) -> bool {
        let events = self.pair.table.events;
        let (start, end) = (&self.pair.marking.records, &self.end.marking.records);
        let mut both = start.iter().zip(end).take(events);
        both.any(|(start, end)| fits(start, end))
    }

    fn shapes(&self) -> Vec<&'static str> {
        let (caused, causing, quiet) = (self.caused.len(), self.causing(), self.quiet());
        let longest = quiet.iter().max().copied().unwrap_or(0);
        let (first, last) = (quiet[0], quiet[quiet.len() - 1]);
        let between = quiet.iter().skip(1).rev().skip(1).any(|&ticks| ticks > 0);
        let ran_out = |start: &Record| {
            start.bounded && start.deadline > 0 && u64::from(start.deadline) <= self.ticks
        };
        let shapes = [
            ("no ticks", self.ticks == 0),
            ("the most ticks", self.ticks == MOST),
            ("none caused", caused == 0),
            ("one caused", caused == 1),
            ("2 or more caused", caused > 1),
            ("16 or more caused", caused > 15),
            ("32 or more caused", caused > 31),
            ("caused before 2 or more ticks", causing.len() > 1),
            ("caused before 8 or more ticks", causing.len() > 7),
            ("2 or more caused before one tick", caused > causing.len()),
            ("caused before the first tick", causing.contains(&1)),
            ("caused before the last tick", causing.contains(&self.ticks)),
            ("an event is caused again", self.comes_back()),
            ("quiet, then caused", caused > 0 && first > 0),
            ("quiet in between", between),
            ("caused, then quiet", caused > 0 && last > 0),
            ("100 or more quiet ticks", longest > 99),
            ("100,000 or more quiet ticks", longest > 99_999),
            ("1,000,000 quiet ticks", longest == MOST),
            ("list just long enough", caused > 0 && caused == self.room),
            ("list of no places", self.room == 0),
            ("room to spare", caused < self.room),
            (
                "64 places for each tick",
                self.ticks > 0 && 64 * self.ticks <= self.room as u64,
            ),
            (
                "an excluded date runs out",
                self.some(|start, _| !start.included && ran_out(start)),
            ),
            (
                "excluded on the way, with a date",
                self.some(|start, end| start.included && !end.included && end.bounded),
            ),
            (
                "an excluded event comes back",
                self.some(|start, end| !start.included && end.included),
            ),
            (
                "an age comes to its hold",
                self.some(|start, end| start.age < HOLD && end.age == HOLD),
            ),
        ];
        let there = shapes.into_iter().filter(|shape| shape.1);
        there.map(|shape| shape.0).collect()
    }
}

/// With too many ticks.
fn of_too_many(pair: &Pair, ticks: u64) -> Vec<&'static str> {
    let rejected = check(&pair.table, &pair.marking).number == 12;
    let shapes = [
        ("too many ticks", true),
        ("too many ticks, and rejected", rejected),
        ("one tick too many", ticks == MOST + 1),
        (
            "too many ticks by their upper half alone",
            ticks % (1 << 32) <= MOST,
        ),
    ];
    let there = shapes.into_iter().filter(|shape| shape.1);
    there.map(|shape| shape.0).collect()
}

/// With too few places.
fn of_too_few(pair: &Pair, ticks: u64, room: usize) -> Vec<&'static str> {
    let mut longer = vec![0; room + 1];
    let one_more = sleep(&pair.table, &pair.marking, ticks, &mut longer);
    let by = if one_more.number == 0 {
        "one place too few"
    } else {
        "2 or more places too few"
    };
    let none = (room == 0).then_some("no places, and some needed");
    [by].into_iter().chain(none).collect()
}

fn of_rejected(ticks: u64, reason: u8) -> Vec<&'static str> {
    let without = (ticks == 0).then_some("rejected without a tick");
    let reason = REASONS[usize::from(reason)];
    [reason].into_iter().chain(without).collect()
}

pub fn of(pair: &Pair, ticks: u64, end: &SleepAnswer, list: &[u32]) -> Vec<&'static str> {
    match end.number {
        0 => {
            let places = list[..end.count].iter();
            let slept = Slept {
                pair,
                ticks,
                end,
                caused: places.map(|p| (u64::from(p / 256), p % 256)).collect(),
                room: list.len(),
            };
            slept.shapes()
        }
        12 => of_rejected(ticks, end.reason),
        14 if ticks > MOST => of_too_many(pair, ticks),
        14 => of_too_few(pair, ticks, list.len()),
        _ if ticks > MOST => vec!["bad images", "bad images and too many ticks"],
        _ => vec!["bad images"],
    }
}

#[cfg(test)]
mod tests {
    use crate::calls::chosen;
    use crate::compare::{edge_questions, random_questions};
    use crate::shape::missing;

    const SORTS: [&str; 45] = [
        "bad images",
        "bad images and too many ticks",
        "too many ticks",
        "too many ticks, and rejected",
        "one tick too many",
        "too many ticks by their upper half alone",
        "one place too few",
        "2 or more places too few",
        "no places, and some needed",
        "rejected without a tick",
        "reason 1",
        "reason 2",
        "reason 3",
        "reason 4",
        "reason 5",
        "reason 6",
        "no ticks",
        "the most ticks",
        "none caused",
        "one caused",
        "2 or more caused",
        "16 or more caused",
        "32 or more caused",
        "caused before 2 or more ticks",
        "caused before 8 or more ticks",
        "2 or more caused before one tick",
        "caused before the first tick",
        "caused before the last tick",
        "an event is caused again",
        "quiet, then caused",
        "quiet in between",
        "caused, then quiet",
        "100 or more quiet ticks",
        "100,000 or more quiet ticks",
        "1,000,000 quiet ticks",
        "list just long enough",
        "list of no places",
        "room to spare",
        "64 places for each tick",
        "an excluded date runs out",
        "excluded on the way, with a date",
        "an excluded event comes back",
        "an age comes to its hold",
        "firm: response meets a pending event",
        "firm decides",
    ];

    #[test]
    fn every_sort_of_sleep_comes_up() {
        let call = || chosen("26").expect("the call");
        assert_eq!(missing(&SORTS, edge_questions(call())), [""; 0]);
        let random = random_questions(call(), 1_000, 1);
        assert_eq!(missing(&SORTS, random), [""; 0]);
    }
}
