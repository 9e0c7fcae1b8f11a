//! Cases at the limits of what happens: events of both classes that are enabled,
//! blocked and excluded, and numbers that no event has; by the call, and by the two
//! kinds of step that mean it.

use super::{table, SMALL};
use second::case::{Case, Pair};
use second::generate::relation;
use second::{fresh, Step};

/// All events are of one class: the first is enabled, the second waits for it, and
/// the third is excluded until the first happens.
fn pair(controllable: bool) -> Pair {
    let mut table = table(SMALL, 2);
    table.relations[0] = relation(1, 1, 0, Some(0));
    table.relations[1] = relation(3, 0, 2, None);
    table.controllable = if controllable { u64::MAX } else { 0 };
    let mut marking = fresh(SMALL).marking;
    marking.records[2].included = false;
    Pair {
        table: Box::new(table),
        marking: Box::new(marking),
    }
}

/// Cut to 8, 32 or 63 bits, those before the last are the first event's number.
const ASKED: [usize; 9] = [0, 1, 2, SMALL, 64, 256, 1 << 32, 1 << 63, usize::MAX];

pub fn cases() -> Vec<Case> {
    let of = |pair: Pair| {
        let happen = |event| Case::Happen {
            pair: pair.clone(),
            event,
        };
        ASKED.map(happen)
    };
    [pair(true), pair(false)].map(of).concat()
}

/// The third event and the second, before the first and behind it; then numbers that no
/// event has, and a guarded tick.
fn steps(kind: u8) -> Vec<Step> {
    let events = [2, 1, 0, 1, 2, SMALL as u8, 64, 255];
    let happen = events.map(|event| Step { kind, event });
    [&happen[..], &[Step { kind: 3, event: 0 }]].concat()
}

/// Each class by each kind.
pub fn traces() -> Vec<(Pair, Vec<Step>)> {
    [(true, 0), (true, 1), (false, 0), (false, 1)]
        .map(|(controllable, kind)| (pair(controllable), steps(kind)))
        .into()
}

#[cfg(test)]
mod tests {
    use super::*;

    #[test]
    fn an_event_of_either_class_happens_if_it_is_enabled() {
        let numbers = Vec::from_iter(cases().iter().map(|case| case.answer().number()));
        assert_eq!(numbers, [0, 10, 10, 8, 8, 8, 8, 8, 8].repeat(2));
    }

    /// An uncontrollable event that waits for another is reason 1 of the check.
    #[test]
    fn both_kinds_mean_it_and_the_class_decides_for_the_check_alone() {
        for (pair, steps) in traces() {
            let mut answers = [7; 9];
            let end = second::run(&pair.table, &pair.marking, &steps, &mut answers);
            let tick = if pair.table.controllable == 0 { 12 } else { 0 };
            assert_eq!((end.number, answers), (0, [10, 10, 0, 0, 0, 8, 8, 8, tick]));
        }
    }
}
