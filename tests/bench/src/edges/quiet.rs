//! Cases at the limits of quiet ticks: dates that are due, within the limit, at it and
//! past it, those of excluded events beside them, and pairs that the check rejects.

use super::nights::{ages, night, rejected, set_date};
use super::{faulty_pairs, full_cases, LIMIT};
use crate::shop;
use second::case::{Case, Pair};
use second::Record;

const EVENTS: usize = 64;

fn of(pair: Pair) -> Case {
    Case::Quiet { pair }
}

/// Due now, within a few ticks, and about a byte's carry.
const NEAR: [u32; 7] = [0, 1, 2, 255, 256, 65_535, 65_536];

/// The limit and about it, and the longest that there are.
const FAR: [u32; 5] = [999_999, 1_000_000, 1_000_001, LIMIT - 1, LIMIT];

/// Alone, of the first event and of the last. The second implementation counts each
/// tick, so most that are far are of one event alone.
fn of_one() -> Vec<Case> {
    let mut all = Vec::new();
    for date in NEAR {
        for (events, event) in [(1, 0), (2, 0), (2, 1), (EVENTS, 0), (EVENTS, 63)] {
            all.push(of(night(events, &[], &[(event, date)])));
        }
    }
    for date in FAR {
        all.push(of(night(1, &[], &[(0, date)])));
    }
    all.push(of(night(EVENTS, &[], &[(63, 1_000_000)])));
    all
}

/// Of two events, of which none, one or both are excluded.
fn of_two() -> Vec<Case> {
    let mut all = Vec::new();
    for dates in [(0, 0), (0, 1), (1, 0), (3, 3), (3, 7), (7, 3), (256, 255)] {
        for away in 0..4 {
            let mut pair = night(2, &[], &[(0, dates.0), (1, dates.1)]);
            for (event, record) in pair.marking.records.iter_mut().enumerate().take(2) {
                record.included = away >> event & 1 == 0;
            }
            all.push(of(pair));
        }
    }
    all
}

/// The excluded event's date comes first, or at the limit.
fn of_far_and_excluded() -> Vec<Case> {
    let mut all = Vec::new();
    for (date, away) in [
        (999_999, 0),
        (1_000_000, 999_999),
        (1_000_001, 1_000_000),
        (LIMIT, 5),
    ] {
        let mut pair = night(2, &[], &[(0, date), (1, away)]);
        pair.marking.records[1].included = false;
        all.push(of(pair));
    }
    all
}

/// Every event has a date, and the soonest is in turn that of each event. The same with
/// that event excluded.
fn of_all() -> Vec<Case> {
    let mut all = Vec::new();
    for soonest in 0..EVENTS {
        let date = |event: usize| 7 + (event + EVENTS - soonest) as u32 % 64;
        let dates: Vec<(usize, u32)> = (0..EVENTS).map(|e| (e, date(e))).collect();
        let pair = night(EVENTS, &[], &dates);
        let mut away = pair.clone();
        away.marking.records[soonest].included = false;
        all.extend([of(pair), of(away)]);
    }
    all
}

/// How an event may be that has no date: done or not, pending or not, excluded or not.
fn without_date(flags: usize) -> Record {
    Record {
        age: [0, LIMIT][flags & 1],
        happened: flags & 1 != 0,
        count: [0, 1][flags & 1],
        pending: flags & 2 != 0,
        included: flags & 4 != 0,
        ..Record::EMPTY
    }
}

/// Alone, and beside an event that has one. What stands past the count looks like a date,
/// and is none.
fn of_none() -> Vec<Case> {
    let mut all = Vec::new();
    for flags in 0..8 {
        let mut pair = night(2, &[], &[(0, 3)]);
        pair.marking.records[1] = without_date(flags);
        let unused = &mut pair.marking.records[2];
        unused.included = true;
        set_date(unused, 1);
        let mut alone = pair.clone();
        alone.marking.records[0] = without_date(flags);
        all.extend([of(pair), of(alone)]);
    }
    all
}

/// The check rejects, and it is not asked.
fn of_rejected() -> Vec<Case> {
    let mut all = Vec::new();
    for pair in rejected() {
        for date in [0, 3] {
            let mut pair = pair.clone();
            set_date(&mut pair.marking.records[shop::FLUSH], date);
            all.push(of(pair.clone()));
            pair.marking.records[shop::FLUSH].included = true;
            all.push(of(pair));
        }
    }
    all
}

pub fn quiet() -> Vec<Case> {
    let mut cases = full_cases(&[0], |pair, _| of(pair));
    for more in [
        of_one(),
        of_two(),
        of_far_and_excluded(),
        of_all(),
        of_none(),
        of_rejected(),
    ] {
        cases.extend(more);
    }
    cases.push(of(ages()));
    let pairs = shop::pairs().into_iter().chain(faulty_pairs());
    cases.extend(pairs.map(of));
    cases
}

#[cfg(test)]
mod tests {
    use super::*;
    use second::case::Answer;

    /// The ticks, or the number of a refusal.
    fn told(case: &Case) -> Result<u64, u8> {
        match case.answer() {
            Answer::Ticks(answer) if answer.number == 0 => Ok(answer.ticks),
            Answer::Ticks(answer) => {
                assert_eq!(answer.ticks, 0);
                Err(answer.number)
            }
            _ => panic!("{} is another call", case.name()),
        }
    }

    fn all_told(cases: Vec<Case>) -> Vec<Result<u64, u8>> {
        cases.iter().map(told).collect()
    }

    #[test]
    fn a_date_counts_up_to_the_limit() {
        let near = NEAR.map(|date| [Ok(u64::from(date)); 5]).concat();
        let far = [999_999, 1_000_000, 1_000_000, 1_000_000, 1_000_000].map(Ok);
        let expected = [&near[..], &far, &[Ok(1_000_000)]].concat();
        assert_eq!(all_told(of_one()), expected);
    }

    #[test]
    fn the_soonest_of_the_included_events_counts() {
        let most = Ok(1_000_000);
        let expected = [
            [Ok(0), Ok(0), Ok(0), most],
            [Ok(0), Ok(1), Ok(0), most],
            [Ok(0), Ok(0), Ok(1), most],
            [Ok(3), Ok(3), Ok(3), most],
            [Ok(3), Ok(7), Ok(3), most],
            [Ok(3), Ok(3), Ok(7), most],
            [Ok(255), Ok(255), Ok(256), most],
        ];
        assert_eq!(all_told(of_two()), expected.concat());
        let expected = [Ok(999_999), most, most, most];
        assert_eq!(all_told(of_far_and_excluded()), expected);
        assert_eq!(all_told(of_all()), [Ok(7), Ok(8)].repeat(EVENTS));
    }

    #[test]
    fn without_a_date_there_are_the_most() {
        assert_eq!(all_told(of_none()), [Ok(3), Ok(1_000_000)].repeat(8));
    }

    #[test]
    fn the_check_is_not_asked() {
        for case in of_rejected() {
            let pair = case.pair().expect("of a pair");
            assert_eq!(second::check(&pair.table, &pair.marking).number, 12);
        }
        let most = Ok(1_000_000);
        assert_eq!(
            all_told(of_rejected()),
            [most, Ok(0), most, Ok(3)].repeat(6)
        );
    }

    #[test]
    fn the_shop_at_each_of_its_markings() {
        let most = Ok(1_000_000);
        let pairs = shop::pairs().into_iter();
        let expected = [
            [most, Ok(3), most, Ok(3), Ok(3)],
            [most, Ok(3), most, Ok(1), Ok(0)],
        ];
        assert_eq!(all_told(pairs.map(of).collect()), expected.concat());
    }
}
