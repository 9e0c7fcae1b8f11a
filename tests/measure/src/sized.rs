//! A table and the markings for it, of any number of events and relations.
//! Every kind of relation comes up, and the check accepts.

use second::generate::relation;
use second::{Marking, Record, Relation, Table};
use std::fmt;

/// How many events and relations.
#[derive(Clone, Copy, PartialEq, Eq, Debug)]
pub struct Size {
    pub events: usize,
    pub relations: usize,
}

impl Size {
    pub const fn of(events: usize, relations: usize) -> Size {
        Size { events, relations }
    }
}

impl fmt::Display for Size {
    fn fmt(&self, out: &mut fmt::Formatter) -> fmt::Result {
        write!(out, "{}×{}", self.events, self.relations)
    }
}

/// Every other relation is a condition on a later event, so that all of them
/// are a chain from event 0 on, as far as they reach. Responses go from the upper
/// half of the events to the lower, milestones the other way, so that no response
/// is one. An event that excludes itself includes itself too.
fn nth(size: Size, n: usize) -> Relation {
    let Size { events, .. } = size;
    let (half, k) = (events / 2, n / 8);
    match n % 8 {
        1 => relation(
            2,
            events - 1 - k % half,
            k % half,
            (k % 4 != 3).then_some(10),
        ),
        3 => relation(3, k % events, k % events, None),
        5 => relation(5, k % half, half + 3 * k % half, None),
        7 => relation(4, k % (events - 1), k % (events - 1), None),
        _ => {
            let (lap, left) = (n / 2 / (events - 1), n / 2 % (events - 1));
            let right = (left + 1 + lap % 2).min(events - 1);
            relation(1, left, right, Some(0))
        }
    }
}

/// All events are causable, all but the last are controllable.
pub fn table(size: Size) -> Table {
    let mut table = Table::EMPTY;
    table.events = size.events;
    table.count = size.relations;
    table.causable = u64::MAX >> (64 - size.events);
    table.controllable = table.causable >> 1;
    for n in 0..size.relations {
        table.relations[n] = nth(size, n);
    }
    table
}

/// The last relation has event 0 include event 1, both in the closure: reason 6,
/// the last that is looked for, at the last place.
pub fn rejected_table(size: Size) -> Table {
    let mut table = table(size);
    table.relations[size.relations - 1] = relation(3, 0, 1, None);
    table
}

/// The same relations, and no response moves a deadline out.
pub fn firm_table(size: Size) -> Table {
    let mut table = table(size);
    table.firm = true;
    table
}

/// The first response is one of event 0 to itself, within ten ticks.
pub fn returning_table(size: Size) -> Table {
    let mut table = table(size);
    table.relations[1] = relation(2, 0, 0, Some(10));
    table
}

/// Every event but the last waits for the last: by conditions, and by the last of its
/// relations, a milestone.
pub fn waiting_table(size: Size) -> Table {
    let mut table = table(size);
    let last = size.events - 1;
    let conditions = size.relations.saturating_sub(last);
    for n in 0..size.relations {
        let left = n % last;
        table.relations[n] = if n < conditions {
            relation(1, left, last, Some(0))
        } else {
            relation(5, left, last, None)
        };
    }
    table
}

/// The first condition of each event is one on the next, and has a time: where all events
/// have just happened each waits for the next one, as far as the conditions reach, and no
/// other relation blocks.
pub fn ladder_table(size: Size) -> Table {
    let mut table = table(size);
    for event in 0..size.events - 1 {
        if 2 * event < size.relations {
            table.relations[2 * event] = relation(1, event, event + 1, Some(1));
        }
    }
    table
}

/// Event 0 waits for each other event by conditions with a time, and by nothing else.
pub fn blocked_table(size: Size) -> Table {
    let mut table = table(size);
    for n in 0..size.relations {
        table.relations[n] = relation(1, 0, 1 + n % (size.events - 1), Some(1));
    }
    table
}

/// Every event included, and happened or not, but for the first, which has
/// happened and is pending with a deadline.
fn marking(size: Size, happened: bool, deadline: u32) -> Marking {
    let mut marking = Marking::EMPTY;
    marking.events = size.events;
    for event in 0..size.events {
        let happened = happened || event == 0;
        marking.records[event] = Record {
            included: true,
            happened,
            count: happened.into(),
            pending: event == 0,
            bounded: event == 0,
            deadline: if event == 0 { deadline } else { 0 },
            ..Record::EMPTY
        };
    }
    marking
}

/// Nothing is due, and nothing blocks.
pub fn quiet(size: Size) -> Marking {
    marking(size, true, 1000)
}

/// Nothing is due for twice as many ticks as a sleep has at most.
pub fn still(size: Size) -> Marking {
    marking(size, true, 2_000_000)
}

/// The last event is excluded. It has happened and is pending, so of the relations that
/// wait for it only the milestones would block if it returned: they come last.
pub fn away(size: Size) -> Marking {
    let mut marking = quiet(size);
    let last = &mut marking.records[size.events - 1];
    last.included = false;
    last.pending = true;
    marking
}

/// Event 0 is due, and nothing blocks it.
pub fn one_due(size: Size) -> Marking {
    marking(size, true, 0)
}

/// Event 0 is due, and no other event has happened: each is needed by the one before it.
pub fn chain(size: Size) -> Marking {
    marking(size, false, 0)
}

/// Events 0 and 1 are due, and nothing blocks them.
pub fn two_due(size: Size) -> Marking {
    let mut marking = one_due(size);
    marking.records[1] = marking.records[0];
    marking
}

/// Neither list's first two discharge; the preferred list's third does not either.
pub const PREFERRED: [u8; 3] = [1, 1, 1];
pub const FALLBACK: [u8; 3] = [1, 1, 0];

/// Of 16 steps 12 are guarded ticks; the last event happens, and two others, and there
/// is a plain tick.
pub fn steps(size: Size, count: usize) -> Vec<u8> {
    let step = |n: usize| match n % 16 {
        0 => [1, size.events as u8 - 1],
        5 | 10 => [0, (7 * n % size.events) as u8],
        13 => [2, 0],
        _ => [3, 0],
    };
    (0..count).flat_map(step).collect()
}

/// The same with the last event at every fourth step: it has event 0 as response, which
/// is then still to be done.
pub fn repeats(size: Size, count: usize) -> Vec<u8> {
    let mut steps = steps(size, count);
    for step in steps.chunks_exact_mut(2).step_by(4) {
        step.copy_from_slice(&[1, size.events as u8 - 1]);
    }
    steps
}

#[cfg(test)]
mod tests {
    use super::*;
    use crate::cases::{GROWING, SIZES};
    use second::{
        chain as whole_chain, check, enabled, guarded_tick, happen, hold_up, margin, remedies,
        run_bytes, sleep, HoldUpAnswer, MarginAnswer, Rest,
    };

    #[test]
    fn the_check_accepts_what_is_to_be_accepted() {
        for size in SIZES {
            for marking in [quiet(size), one_due(size), chain(size), two_due(size)] {
                assert_eq!(check(&table(size), &marking).number, 0, "{size:?}");
            }
            let rejected = check(&rejected_table(size), &quiet(size));
            assert_eq!((rejected.number, rejected.reason), (12, 6));
            assert_eq!(usize::from(rejected.place), size.relations - 1);
        }
    }

    /// How many events a chain needs: its conditions reach so far.
    fn reach(size: Size) -> usize {
        size.events.min(size.relations / 2 + 1)
    }

    #[test]
    fn a_guarded_tick_causes_what_its_name_says() {
        for size in SIZES {
            let caused = |m: Marking| usize::from(guarded_tick(&table(size), &m).count);
            assert_eq!(caused(quiet(size)), 0);
            assert_eq!(caused(one_due(size)), 1);
            assert!(caused(chain(size)) >= reach(size), "{size:?}");
        }
    }

    #[test]
    fn nothing_is_caused_in_a_still_sleep() {
        for size in SIZES {
            for ticks in [1_000, 1_000_000] {
                let answer = sleep(&table(size), &still(size), ticks, &mut []);
                assert_eq!((answer.number, answer.count), (0, 0), "{size:?}");
            }
        }
    }

    /// The list is full then, and with one place fewer there is no room.
    #[test]
    fn a_duty_returns_every_tenth_tick() {
        for size in SIZES {
            let (t, m) = (returning_table(size), one_due(size));
            let mut list = [0; 100];
            let answer = sleep(&t, &m, 1_000, &mut list);
            assert_eq!((answer.number, answer.count), (0, 100), "{size:?}");
            assert!((0..)
                .zip(list)
                .all(|(n, place)| place == 256 * (10 * n + 1)));
            assert_eq!(sleep(&t, &m, 1_000, &mut list[1..]).number, 14);
        }
    }

    #[test]
    fn the_fallback_has_a_remedy_of_three() {
        for size in SIZES {
            let answer = remedies(&table(size), &two_due(size), &PREFERRED, &FALLBACK);
            assert_eq!(
                (answer.number, answer.from_fallback, answer.length),
                (0, true, 3)
            );
        }
    }

    #[test]
    fn every_event_is_enabled_and_can_happen() {
        for size in SIZES {
            let (t, m) = (table(size), quiet(size));
            for event in 0..size.events {
                assert!(enabled(&t, &m, event).enabled);
                assert_eq!(happen(&t, &m, event).number, 0);
            }
        }
    }

    /// An event that waits for nothing is enabled, and no relation is named.
    #[test]
    fn what_would_block_comes_late() {
        for size in SIZES {
            let (t, m) = (waiting_table(size), away(size));
            let last = size.events - 1;
            for event in 0..last {
                let own = (0..size.relations).filter(|n| n % last == event);
                let named = own.max().map(HoldUpAnswer::EnabledUnless);
                let expected = named.unwrap_or(HoldUpAnswer::Enabled);
                assert_eq!(hold_up(&t, &m, event), expected, "{size:?}");
            }
            assert_eq!(hold_up(&t, &m, last), HoldUpAnswer::Excluded);
        }
    }

    #[test]
    fn conditions_on_an_excluded_event_are_ignored() {
        for size in SIZES {
            let (t, m) = (waiting_table(size), away(size));
            let met = MarginAnswer::Ignored(Rest::By(0));
            let ignored = (0..size.relations).filter(|&n| margin(&t, &m, n) == met);
            let conditions = (size.relations + 1).saturating_sub(size.events);
            assert_eq!(ignored.count(), conditions, "{size:?}");
        }
    }

    /// What is listed of event 0, relation and depth.
    fn listed(t: &Table, m: &Marking) -> Vec<(usize, usize)> {
        let mut list = [0; 256];
        let answer = whole_chain(t, m, 0, &mut list);
        assert_eq!(answer.number, 0);
        let of = |&place: &u16| (usize::from(place / 256), usize::from(place % 256));
        list[..answer.count].iter().map(of).collect()
    }

    #[test]
    fn a_ladder_leads_down_one_event_after_the_other() {
        for size in SIZES {
            let down: Vec<(usize, usize)> = (0..reach(size) - 1).map(|n| (2 * n, n)).collect();
            let told = listed(&ladder_table(size), &quiet(size));
            assert_eq!(told, down, "{size:?}");
        }
        // The sizes that are shown have it down to their last event.
        assert!(GROWING.iter().all(|&size| reach(size) == size.events));
    }

    #[test]
    fn all_relations_may_block_one_event() {
        for size in SIZES {
            let own: Vec<(usize, usize)> = (0..size.relations).map(|n| (n, 0)).collect();
            let told = listed(&blocked_table(size), &quiet(size));
            assert_eq!(told, own, "{size:?}");
        }
    }

    /// The end of a run of which most steps are done.
    fn end(size: Size, table: &Table, steps: &[u8]) -> Marking {
        let mut answers = [0; 4096];
        let answer = run_bytes(table, &quiet(size), steps, &mut answers);
        assert_eq!(answer.number, 0);
        let done = answers.iter().filter(|&&number| number == 0).count();
        assert!(done > 3000, "{size:?}: {done}");
        answer.marking
    }

    #[test]
    fn most_steps_of_a_run_are_done() {
        for size in SIZES {
            end(size, &table(size), &steps(size, 4096));
        }
    }

    #[test]
    fn repeats_put_a_duty_off_for_ever_but_in_a_firm_table() {
        for size in SIZES {
            let executed = |table| end(size, &table, &repeats(size, 4096)).records[0].count;
            let (put_off, kept) = (executed(table(size)), executed(firm_table(size)));
            assert!(kept > put_off + 100, "{size:?}: {kept}, {put_off}");
        }
    }
}
