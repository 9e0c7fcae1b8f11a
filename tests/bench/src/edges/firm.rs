//! Cases at the limits of firm tables: the header's bits beside firm, and responses
//! that meet each deadline that their target can have, in tables that are firm and
//! in tables that are not.

use super::{
    faulty_images, faulty_tables, flipped, lengths_about, marking, resized, set_bit_of, table,
    tables_with_unused_full, HEADER_SPARE, LIMIT, SMALL,
};
use crate::shop;
use second::case::{Case, Pair};
use second::generate::{relation, table_image};
use second::{Record, Step, Table};

fn firm(mut table: Table) -> Table {
    table.firm = true;
    table
}

/// Firm tables of the fewest events and relations, of some and of the most; about
/// their length, and each with one of the header's other bits. Then firm beside
/// every fault: it changes no number.
pub fn images() -> Vec<Vec<u8>> {
    let mut all = Vec::new();
    for (events, count) in [(1, 0), (SMALL, SMALL), (64, 256)] {
        let image = table_image(&firm(table(events, count)));
        all.extend(lengths_about(image.len(), 6).map(|length| resized(&image, length)));
        all.extend(HEADER_SPARE.map(|bit| flipped(&image, bit)));
    }
    let mut faulty = faulty_images();
    for image in &mut faulty {
        set_bit_of(image, 2, 0x80);
    }
    all.extend(faulty);
    all
}

/// Firm tables that are sound, of the fewest and of the most, some with their places
/// past the count full; and firm tables with every fault.
pub fn tables() -> Vec<Table> {
    let mut all = vec![table(1, 0), table(SMALL, SMALL), table(64, 256)];
    all.extend(tables_with_unused_full());
    all.extend(faulty_tables());
    all.into_iter().map(firm).collect()
}

/// A deadline that is given or had; none is "eventually".
type Deadline = Option<u32>;

/// What a target has when responses meet it: nothing where it is not pending.
const HAD: [Option<Deadline>; 8] = [
    None,
    Some(None),
    Some(Some(0)),
    Some(Some(1)),
    Some(Some(2)),
    Some(Some(3)),
    Some(Some(4)),
    Some(Some(LIMIT)),
];

/// What the responses to it give, in the table's order.
const GIVEN: [&[Deadline]; 7] = [
    &[None],
    &[Some(1)],
    &[Some(3)],
    &[Some(LIMIT)],
    &[None, Some(3)],
    &[Some(3), None],
    &[Some(4), Some(3), Some(LIMIT)],
];

/// The executed event and the target of its responses, which may be itself.
const ENDS: [(usize, usize); 5] = [(0, 1), (1, 0), (1, 1), (0, 63), (63, 0)];

/// One event that is executed, and what it meets.
#[derive(Clone, Copy)]
struct Meeting {
    executed: usize,
    target: usize,
    had: Option<Deadline>,
    given: &'static [Deadline],
    included: bool,
    firm: bool,
}

/// Each with each. An event that is executed is included.
fn meetings() -> Vec<Meeting> {
    let mut all = Vec::new();
    for (executed, target) in ENDS {
        for had in HAD {
            for given in GIVEN {
                for (included, firm) in [(true, false), (true, true), (false, false), (false, true)]
                {
                    all.push(Meeting {
                        executed,
                        target,
                        had,
                        given,
                        included,
                        firm,
                    });
                }
            }
        }
    }
    all.retain(|meeting| meeting.included || meeting.executed != meeting.target);
    all
}

fn had(record: Record, had: Option<Deadline>) -> Record {
    Record {
        pending: had.is_some(),
        bounded: had.flatten().is_some(),
        deadline: had.flatten().unwrap_or(0),
        ..record
    }
}

impl Meeting {
    /// Every event is causable and nothing blocks any, so the check accepts. The
    /// other events have duties of their own, which stay.
    fn pair(&self) -> Pair {
        let events = if self.executed.max(self.target) < SMALL {
            SMALL
        } else {
            64
        };
        let mut table = table(events, 0);
        table.causable = u64::MAX;
        table.controllable = u64::MAX;
        table.firm = self.firm;
        for given in self.given {
            table.relations[table.count] = relation(2, self.executed, self.target, *given);
            table.count += 1;
        }
        let mut marking = marking(events);
        for record in marking.records.iter_mut().take(events) {
            record.included = true;
        }
        let target = &mut marking.records[self.target];
        *target = had(*target, self.had);
        target.included = self.included;
        Pair {
            table: Box::new(table),
            marking: Box::new(marking),
        }
    }

    /// Where the executed event is due, so that a guarded tick causes it.
    fn due(&self) -> Pair {
        let mut pair = self.pair();
        let executed = &mut pair.marking.records[self.executed];
        *executed = had(*executed, Some(Some(0)));
        pair
    }
}

pub fn happens() -> Vec<Case> {
    let of = |meeting: Meeting| Case::Happen {
        pair: meeting.pair(),
        event: meeting.executed,
    };
    meetings().into_iter().map(of).collect()
}

/// An event that has itself as response was due, whatever it had.
pub fn guarded_ticks() -> Vec<Case> {
    let of = |meeting: Meeting| Case::GuardedTick {
        pair: meeting.due(),
    };
    meetings().into_iter().map(of).collect()
}

/// A target that is due: in a table that is not firm the response alone puts its
/// deadline off, and so discharges it.
pub fn remedies() -> Vec<Case> {
    let mut cases = Vec::new();
    for meeting in meetings().iter().filter(|m| m.had == Some(Some(0))) {
        let preferred = vec![meeting.executed as u8];
        let both = vec![meeting.executed as u8, meeting.target as u8];
        for fallback in [preferred.clone(), both] {
            cases.push(Case::Remedies {
                pair: meeting.pair(),
                preferred: preferred.clone(),
                fallback,
            });
        }
    }
    cases
}

/// Twice at once, a minute apart, and behind a guarded tick that may have caused the
/// target; then the shop, where a leak comes again, and the minutes behind it.
pub fn traces() -> Vec<(Pair, Vec<Step>)> {
    let tick = |kind: u8| Step { kind, event: 0 };
    let mut all = Vec::new();
    for meeting in meetings() {
        let event = meeting.executed as u8;
        let [one, other] = [0, 1].map(|kind| Step { kind, event });
        let steps = vec![one, other, tick(2), one, tick(3), other, tick(3)];
        all.push((meeting.pair(), steps));
    }
    for firm in [false, true] {
        for start in [shop::repeated(), shop::brought_back()] {
            let minutes = [tick(2), tick(3), tick(2), tick(3), tick(3), tick(3)];
            all.push((shop::pair(firm), [start, minutes.to_vec()].concat()));
        }
    }
    all
}

#[cfg(test)]
mod tests {
    use super::*;
    use crate::turned::turned;
    use second::case::Answer;

    /// What the target has once the event has happened.
    fn has(had: Option<Deadline>, given: &'static [Deadline], firm: bool) -> Option<Deadline> {
        let (executed, target) = (0, 1);
        met(Meeting {
            executed,
            target,
            had,
            given,
            included: true,
            firm,
        })
    }

    fn met(meeting: Meeting) -> Option<Deadline> {
        let pair = meeting.pair();
        let done = second::happen(&pair.table, &pair.marking, meeting.executed);
        assert_eq!(done.number, 0);
        let record = done.marking.records[meeting.target];
        record
            .pending
            .then_some(record.bounded.then_some(record.deadline))
    }

    #[test]
    fn a_response_in_a_firm_table_moves_no_deadline_out() {
        for (before, given, after) in [
            (None, Some(3), Some(3)),
            (None, None, None),
            (Some(None), Some(3), Some(3)),
            (Some(None), None, None),
            (Some(Some(3)), None, Some(3)),
            (Some(Some(0)), Some(3), Some(0)),
            (Some(Some(0)), None, Some(0)),
            (Some(Some(1)), Some(3), Some(1)),
            (Some(Some(4)), Some(3), Some(3)),
        ] {
            let one = GIVEN.iter().find(|all| **all == [given]);
            let one = one.expect("it is given alone");
            assert_eq!(has(before, one, true), Some(after), "{before:?}, {given:?}");
            assert_eq!(has(before, one, false), Some(given));
        }
        // The smallest that is given meets what the target has.
        assert_eq!(has(Some(Some(4)), GIVEN[6], true), Some(Some(3)));
        assert_eq!(has(Some(Some(2)), GIVEN[6], true), Some(Some(2)));
    }

    #[test]
    fn a_response_to_itself_gives_the_new_deadline() {
        for meeting in meetings().into_iter().filter(|m| m.executed == m.target) {
            let new = meeting.given.iter().copied().flatten().min();
            assert_eq!(met(meeting), Some(new));
        }
    }

    /// How many of these cases are answered otherwise where the table is turned.
    fn decided(cases: Vec<Case>) -> usize {
        let other = |case: &Case| turned(case).expect("events are executed").answer();
        let cases = cases.iter().filter(|case| case.answer() != other(case));
        cases.count()
    }

    #[test]
    fn firm_decides_in_each_way_of_executing() {
        assert!(decided(happens()) > 200);
        assert!(decided(guarded_ticks()) > 200);
        assert!(decided(remedies()) > 100);
        assert!(decided(super::super::run()) > 200);
        assert!(decided(super::super::run_bytes()) > 200);
    }

    #[test]
    fn a_guarded_tick_causes_the_event_that_is_due() {
        for case in guarded_ticks() {
            let Answer::Guarded(done) = case.answer() else {
                panic!("{} is another call", case.name());
            };
            assert_eq!(done.number, 0);
            assert!(done.count > 0);
        }
    }

    #[test]
    fn each_bit_beside_firm_is_refused() {
        let image = table_image(&firm(table(SMALL, SMALL)));
        let number = |bytes| Case::ReadTable { bytes }.answer().number();
        assert_eq!(number(image.clone()), 0);
        for bit in HEADER_SPARE {
            assert_eq!(number(flipped(&image, bit)), 2, "bit {bit}");
        }
    }
}
