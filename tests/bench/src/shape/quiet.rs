//! By what date quiet ticks end, if they do, and what is excluded meanwhile.

use second::case::Pair;
use second::{check, TicksAnswer};

/// The most ticks that are told.
const MOST: u64 = 1_000_000;

/// The soonest date of the events that are included, or of those that are not.
fn soonest(pair: &Pair, included: bool) -> Option<u64> {
    let records = pair.marking.records.iter().take(pair.marking.events);
    let dated = records.filter(|record| record.bounded && record.included == included);
    dated.map(|record| u64::from(record.deadline)).min()
}

pub fn of(pair: &Pair, answer: &TicksAnswer) -> Vec<&'static str> {
    if answer.number != 0 {
        return vec!["bad images"];
    }
    let (date, away) = (soonest(pair, true), soonest(pair, false));
    let ends = match date {
        None => "no date",
        Some(0) => "due now",
        Some(1) => "one tick to a date",
        Some(MOST) => "1,000,000 ticks to a date",
        Some(ticks) if ticks == MOST - 1 => "999,999 ticks to a date",
        Some(ticks) if ticks > MOST => "a later date",
        Some(_) => "an earlier date",
    };
    let rejected = check(&pair.table, &pair.marking).number != 0;
    let shapes = [
        ("none but excluded dates", date.is_none() && away.is_some()),
        (
            "a sooner date is excluded",
            away.map_or(false, |away| away < answer.ticks),
        ),
        ("the check rejects", rejected),
    ];
    let there = shapes.into_iter().filter(|shape| shape.1);
    [ends]
        .into_iter()
        .chain(there.map(|shape| shape.0))
        .collect()
}

#[cfg(test)]
mod tests {
    use crate::calls::chosen;
    use crate::compare::{edge_questions, random_questions};
    use crate::shape::missing;

    const SORTS: [&str; 11] = [
        "bad images",
        "no date",
        "due now",
        "one tick to a date",
        "an earlier date",
        "999,999 ticks to a date",
        "1,000,000 ticks to a date",
        "a later date",
        "none but excluded dates",
        "a sooner date is excluded",
        "the check rejects",
    ];

    #[test]
    fn every_sort_of_quiet_ticks_comes_up() {
        let call = || chosen("27").expect("the call");
        assert_eq!(missing(&SORTS, edge_questions(call())), [""; 0]);
        let random = random_questions(call(), 1_000, 1);
        assert_eq!(missing(&SORTS, random), [""; 0]);
    }
}
