//! Counts: those that come up in the cases, and wrong ones in the answers.

use super::promises::promise;
use super::{count, for_each_case, Counts};
use second::case::{Answer, Case};
use second::rng::Rng;
use second::*;

const HOLD: u32 = u32::MAX;

/// The marking that an answer holds, of a call that is done.
fn marking_of(answer: &mut Answer) -> Option<&mut Marking> {
    match answer {
        Answer::ReadMarking(read) if read.number == 0 => Some(&mut read.marking),
        Answer::Marking(answer) if answer.number == 0 => Some(&mut answer.marking),
        Answer::Guarded(answer) if answer.number == 0 => Some(&mut answer.marking),
        Answer::Sleep { end, .. } if end.number == 0 => Some(&mut end.marking),
        Answer::Run { end, .. } if end.number == 0 => Some(&mut end.marking),
        _ => None,
    }
}

/// And in particular: all right but one count.
#[test]
fn a_wrong_count_is_noticed() {
    let mut rng = Rng::new(1);
    let mut noticed = Counts::new();
    for_each_case(|case, answer| {
        // Only so much of a trace is replayed.
        if matches!(answer, Answer::Run { answers, .. } if answers.len() > 64) {
            return;
        }
        let mut bad = answer.clone();
        let Some(marking) = marking_of(&mut bad) else {
            return;
        };
        let event = rng.below(marking.events);
        let count_of_it = &mut marking.records[event].count;
        *count_of_it = match (rng.below(3), *count_of_it) {
            (0, was) => was.wrapping_add(1),
            (1, was) => was.wrapping_sub(1),
            (_, 0) => HOLD,
            _ => 0,
        };
        if promise(case, &bad).is_ok() {
            panic!("not noticed\n{case:?}\n{answer:?}\n{bad:?}");
        }
        count(&mut noticed, case.name());
    });
    println!("noticed: {noticed:?}");
    let calls: Vec<&str> = noticed.into_keys().collect();
    let expected = [
        "fresh",
        "guarded_tick",
        "happen",
        "plain_tick",
        "read_marking",
        "run",
        "run_bytes",
        "sleep",
    ];
    assert_eq!(calls, expected);
}

/// Whether the count is all that is wrong with a record: with the other count
/// it would be sound.
fn only_the_count_disagrees(record: &Record) -> Option<&'static str> {
    let mut mended = *record;
    mended.count = u32::from(record.happened);
    let mut marking = fresh(1).marking;
    marking.records[0] = mended;
    match (record.happened, record.count) {
        _ if judge_marking(1, &marking) != 0 => None,
        (true, 0) => Some("happened without a count"),
        (false, 1..) => Some("a count without having happened"),
        _ => None,
    }
}

/// The records of an image that is as long as its events ask, sound or not.
fn records_in(image: &[u8]) -> Vec<Record> {
    let word = |bytes: &[u8]| u32::from_be_bytes(bytes.try_into().expect("four bytes"));
    let record = |bytes: &[u8]| {
        let (first, second) = (word(&bytes[..4]), word(&bytes[4..8]));
        Record {
            happened: first >= 2_147_483_648,
            age: first % 2_147_483_648 / 2,
            included: first % 2 == 1,
            pending: second >= 2_147_483_648,
            bounded: second % 2_147_483_648 >= 1_073_741_824,
            deadline: second % 1_073_741_824,
            count: word(&bytes[8..]),
        }
    };
    image.chunks_exact(RECORD_BYTES).map(record).collect()
}

/// The marking before, and the events that the call executed.
fn executed(case: &Case, answer: &Answer) -> Option<(Marking, Vec<usize>)> {
    let before = *case.pair()?.marking;
    match (case, answer) {
        (Case::Happen { event, .. }, Answer::Marking(done)) if done.number == 0 => {
            Some((before, vec![*event]))
        }
        (_, Answer::Guarded(done)) if done.number == 0 => {
            let caused = &done.caused[..usize::from(done.count)];
            Some((before, caused.iter().map(|&event| event.into()).collect()))
        }
        _ => None,
    }
}

/// The bias that makes the counts worth comparing.
#[test]
fn counts_of_every_sort_come_up() {
    let mut markings = 0;
    let mut with_happened = 0;
    let mut seen = Counts::new();
    for_each_case(|case, answer| {
        if let Some((before, events)) = executed(case, answer) {
            markings += 1;
            let used = &before.records[..before.events];
            with_happened += usize::from(used.iter().any(|record| record.happened));
            for event in events {
                let sort = match before.records[event].count {
                    0 => "0",
                    1 => "1",
                    2..=9 => "small",
                    HOLD => "at the hold",
                    4_294_967_294 => "one below the hold",
                    _ => "any",
                };
                count(&mut seen, (case.name(), sort));
            }
        }
        let (records, name) = match case {
            Case::JudgeMarking { marking, .. } | Case::WriteMarking { marking, .. } => {
                let used = marking.records.iter().take(marking.events);
                (used.copied().collect(), case.name())
            }
            Case::ReadMarking { events, bytes } if bytes.len() / RECORD_BYTES == *events => {
                (records_in(bytes), case.name())
            }
            _ => match case.pair() {
                Some(pair) if answer.number() == 7 => (pair.marking.records.to_vec(), "a pair"),
                _ => return,
            },
        };
        if answer.number() == 7 {
            for sort in records.iter().filter_map(only_the_count_disagrees) {
                count(&mut seen, (name, sort));
            }
        }
    });
    println!("{with_happened} of {markings} with a happened event: {seen:?}");
    assert!(with_happened * 4 > markings * 3);
    let counts = [
        "0",
        "1",
        "small",
        "one below the hold",
        "at the hold",
        "any",
    ];
    for call in ["happen", "guarded_tick"] {
        for sort in counts {
            let times = seen.get(&(call, sort)).copied().unwrap_or(0);
            assert!(times >= 5, "{call} {sort}: {seen:?}");
        }
    }
    let faults = [
        "happened without a count",
        "a count without having happened",
    ];
    for call in ["judge_marking", "read_marking", "write_marking", "a pair"] {
        for sort in faults {
            let times = seen.get(&(call, sort)).copied().unwrap_or(0);
            assert!(times >= 5, "{call} {sort}: {seen:?}");
        }
    }
}
