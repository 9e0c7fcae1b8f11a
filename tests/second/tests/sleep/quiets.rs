//! Engines that have quiet ticks wrong.

use crate::promises::sleep::MOST_TICKS;
use second::case::Pair;
use second::{check, enabled, Record, TicksAnswer};

/// A question that is not refused, with the answer that is right.
pub struct Asked<'a> {
    pub pair: &'a Pair,
    pub ticks: u64,
}

impl Asked<'_> {
    fn records(&self) -> &[Record] {
        &self.pair.marking.records[..self.pair.table.events]
    }

    /// The dates of the events that count.
    fn dates(&self, counts: impl Fn(usize, &Record) -> bool) -> Vec<u64> {
        let records = self.records().iter().enumerate();
        let counted = records.filter(|(event, record)| counts(*event, record));
        counted.map(|(_, record)| record.deadline.into()).collect()
    }

    /// The dates that count.
    fn right_dates(&self) -> Vec<u64> {
        self.dates(|_, record| record.included && record.bounded)
    }

    /// The nearest of these, or none.
    fn nearest(&self, counts: impl Fn(usize, &Record) -> bool) -> u64 {
        held(self.dates(counts).into_iter().min())
    }

    /// What is given if no date runs, and else the right answer.
    fn if_none(&self, ticks: u64) -> u64 {
        match self.right_dates().is_empty() {
            true => ticks,
            false => self.ticks,
        }
    }
}

fn held(ticks: Option<u64>) -> u64 {
    ticks.unwrap_or(MOST_TICKS).min(MOST_TICKS)
}

fn done(ticks: u64) -> TicksAnswer {
    TicksAnswer { number: 0, ticks }
}

fn refused(number: u8) -> TicksAnswer {
    TicksAnswer { number, ticks: 0 }
}

pub type Engine = fn(&Asked) -> TicksAnswer;

pub const QUIETS: [(&str, Engine); 27] = [
    ("one less", |asked| done(asked.ticks.saturating_sub(1))),
    ("one more", |asked| done(asked.ticks + 1)),
    ("one more, up to the limit", |asked| {
        done(held(Some(asked.ticks + 1)))
    }),
    ("excluded events count", |asked| {
        done(asked.nearest(|_, record| record.bounded))
    }),
    ("only excluded events count", |asked| {
        done(asked.nearest(|_, record| record.bounded && !record.included))
    }),
    ("eventually is due", |asked| {
        done(asked.nearest(|_, record| record.included && record.pending))
    }),
    ("what is not pending is due", |asked| {
        done(asked.nearest(|_, record| record.included))
    }),
    ("at most 999,999", |asked| done(asked.ticks.min(999_999))),
    ("at most 1,000,001", |asked| {
        let dates = asked.right_dates().into_iter();
        done(dates.min().unwrap_or(MOST_TICKS).min(1_000_001))
    }),
    ("no limit", |asked| {
        let nearest = asked.right_dates().into_iter().min();
        done(nearest.unwrap_or(MOST_TICKS))
    }),
    ("0 if it is the limit or more", |asked| {
        done(asked.ticks % MOST_TICKS)
    }),
    ("cut to 8 bits", |asked| done(asked.ticks % 256)),
    ("0 if no date runs", |asked| done(asked.if_none(0))),
    ("for ever if no date runs", |asked| {
        done(asked.if_none(u64::MAX))
    }),
    ("as long as dates last if no date runs", |asked| {
        done(asked.if_none(1_000_000_000))
    }),
    ("refused if no date runs", |asked| {
        match asked.right_dates().is_empty() {
            true => refused(13),
            false => done(asked.ticks),
        }
    }),
    ("refused if an event is due", |asked| match asked.ticks {
        0 => refused(11),
        _ => done(asked.ticks),
    }),
    ("1 if an event is due", |asked| done(asked.ticks.max(1))),
    ("to the next date but what is due", |asked| {
        let dates = asked.right_dates().into_iter();
        done(held(dates.filter(|date| *date > 0).min()))
    }),
    ("the furthest date", |asked| {
        done(held(asked.right_dates().into_iter().max()))
    }),
    ("the date of the lowest event", |asked| {
        done(held(asked.right_dates().first().copied()))
    }),
    ("the dates together", |asked| {
        let dates = asked.right_dates();
        done(match dates.is_empty() {
            true => MOST_TICKS,
            false => held(Some(dates.iter().sum())),
        })
    }),
    ("unused places count", |asked| {
        let all = asked.pair.marking.records.iter();
        let dated = all.filter(|record| record.included && record.bounded);
        let dates = dated.map(|record| u64::from(record.deadline));
        done(held(dates.min()))
    }),
    ("the check is asked", |asked| {
        match check(&asked.pair.table, &asked.pair.marking).number {
            0 => done(asked.ticks),
            number => refused(number),
        }
    }),
    ("0 if the check rejects", |asked| {
        match check(&asked.pair.table, &asked.pair.marking).number {
            0 => done(asked.ticks),
            _ => done(0),
        }
    }),
    ("only what is enabled counts", |asked| {
        let Pair { table, marking } = asked.pair;
        done(
            asked.nearest(|event, record| record.bounded && enabled(table, marking, event).enabled),
        )
    }),
    ("only what has happened counts", |asked| {
        done(asked.nearest(|_, record| record.included && record.bounded && record.happened))
    }),
];

/// Engines that give ticks with a refusal.
pub const REFUSED: [(&str, u64); 2] = [
    ("the limit in a refusal", MOST_TICKS),
    ("1 in a refusal", 1),
];
