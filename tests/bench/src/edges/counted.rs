//! Cases at the limits of counts: each way of executing an event at each count up
//! to the hold, what does not count, and counts that disagree with happened.

use super::{marking, LIMIT, SMALL};
use crate::full;
use second::case::{Case, Pair};
use second::{Marking, Record, Step};

const HOLD: u32 = u32::MAX;

/// None, the first ones, one below each byte's carry, and those about the hold.
const COUNTS: [u32; 10] = [
    0,
    1,
    2,
    255,
    (1 << 16) - 1,
    (1 << 24) - 1,
    (1 << 31) - 1,
    1 << 31,
    HOLD - 1,
    HOLD,
];

/// Each event of a full pair has the count; with 0 none has happened.
fn at_each_count(pair: fn() -> Pair) -> impl Iterator<Item = Pair> {
    COUNTS
        .into_iter()
        .map(move |count| full::counted(pair(), count))
}

/// Event 63 waits for nothing, so it is enabled at each count; the others need
/// that those behind them have happened.
const ASKED: [usize; 3] = [0, 40, 63];

pub fn happens() -> Vec<Case> {
    let pairs = at_each_count(full::quiet).chain(at_each_count(full::all_due));
    pairs
        .flat_map(|pair| {
            ASKED.map(|event| Case::Happen {
                pair: pair.clone(),
                event,
            })
        })
        .collect()
}

/// A tick executes nothing.
pub fn plain_ticks() -> Vec<Case> {
    let quiet = at_each_count(full::quiet);
    quiet.map(|pair| Case::PlainTick { pair }).collect()
}

/// None, one and all are caused.
pub fn guarded_ticks() -> Vec<Case> {
    let pairs = at_each_count(full::quiet).chain(at_each_count(full::one_due));
    pairs
        .chain(at_each_count(full::all_due))
        .map(|pair| Case::GuardedTick { pair })
        .collect()
}

/// Over the hold within one trace: the last event twice by itself, all events by a
/// guarded tick, the last twice more, and steps that execute nothing.
pub fn traces() -> impl Iterator<Item = (Pair, Vec<Step>)> {
    let steps = [(0, 63), (0, 63), (3, 0), (1, 63), (2, 0), (0, 63), (9, 9)];
    let steps = steps.map(|(kind, event)| Step { kind, event });
    let starts = at_each_count(full::all_due).chain(at_each_count(full::quiet));
    starts.map(move |pair| (pair, steps.to_vec()))
}

/// Records without a count that differ in all else; a record that has not happened
/// has no age.
fn bases(happened: bool) -> [Record; 4] {
    let age = |age: u32| if happened { age } else { 0 };
    let included = Record {
        happened,
        included: true,
        ..Record::EMPTY
    };
    let eventually = Record {
        age: age(1),
        included: false,
        pending: true,
        ..included
    };
    let due = Record {
        age: age(LIMIT),
        pending: true,
        bounded: true,
        ..included
    };
    let later = Record {
        deadline: LIMIT,
        ..due
    };
    [included, eventually, due, later]
}

/// Each count, and each bit of a count alone, with happened and without, at each
/// used place and at the first unused one, where no call looks.
pub fn markings() -> Vec<Marking> {
    let bits = (0..32).map(|bit| 1 << bit);
    let mut all = Vec::new();
    for count in COUNTS.into_iter().chain(bits) {
        for base in [bases(false), bases(true)].concat() {
            for place in 0..=SMALL {
                let mut marking = marking(SMALL);
                marking.records[place] = Record { count, ..base };
                all.push(marking);
            }
        }
    }
    all
}

#[cfg(test)]
mod tests {
    use super::*;
    use second::case::Answer;

    /// The counts before of the events that these cases execute, and after.
    fn executed(cases: Vec<Case>) -> Vec<(u32, u32)> {
        let mut all = Vec::new();
        for case in cases {
            let before = *case.pair().expect("of a pair").marking;
            let (after, events) = match (&case, case.answer()) {
                (Case::Happen { event, .. }, Answer::Marking(done)) if done.number == 0 => {
                    (done.marking, vec![*event])
                }
                (_, Answer::Guarded(done)) => {
                    let caused = &done.caused[..usize::from(done.count)];
                    (done.marking, caused.iter().map(|&e| e.into()).collect())
                }
                _ => continue,
            };
            let count = |event: usize| (before.records[event].count, after.records[event].count);
            all.extend(events.into_iter().map(count));
        }
        all.sort();
        all.dedup();
        all
    }

    #[test]
    fn each_count_is_added_to_in_each_way() {
        let expected = COUNTS.map(|count| (count, count.saturating_add(1)));
        assert_eq!(executed(happens()), expected);
        assert_eq!(executed(guarded_ticks()), expected);
    }

    #[test]
    fn counts_that_disagree_are_refused_and_no_others() {
        let mut numbers = [0; 2];
        for marking in markings() {
            let used = &marking.records[..marking.events];
            let agrees = used.iter().all(|r| r.happened == (r.count > 0));
            let number = second::judge_marking(marking.events, &marking);
            assert_eq!(number, if agrees { 0 } else { 7 });
            numbers[usize::from(agrees)] += 1;
        }
        assert!(numbers[0] > 50 && numbers[1] > 50, "{numbers:?}");
    }

    #[test]
    fn a_trace_goes_over_the_hold() {
        for (pair, steps) in traces() {
            let mut answers = [7; 7];
            let end = second::run(&pair.table, &pair.marking, &steps, &mut answers);
            assert_eq!((end.number, answers[0], answers[6]), (0, 0, 15));
            let start = pair.marking.records[63].count;
            let least = start.saturating_add(4);
            assert!(end.marking.records[63].count >= least);
        }
    }
}
