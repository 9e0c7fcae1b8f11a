//! Cases at the limits of excluded events, and of what would be if one returned: the
//! rest of an ignored margin, and the relation that the hold-up of an enabled event
//! names.

use super::{marking, table, LIMIT};
use second::case::{Case, Pair};
use second::generate::relation;
use second::{Record, Relation, Table};

const EVENTS: usize = 64;
const RELATIONS: usize = 256;

/// How long ago the events have happened that another one waits for.
const AGE: u32 = 5;

/// How a relation would block: its right event has not happened long enough ago, has
/// never happened, is pending, or is pending and its time is over.
#[derive(Clone, Copy, PartialEq, Eq, Debug)]
enum Stop {
    Late,
    Never,
    Pending,
    Overdue,
}

const STOPS: [Stop; 4] = [Stop::Late, Stop::Never, Stop::Pending, Stop::Overdue];

impl Stop {
    fn other(self) -> Stop {
        STOPS[(self as usize + 1) % STOPS.len()]
    }

    /// Its right event, which no other relation has.
    fn right(self, event: usize) -> usize {
        (event + 1 + self as usize) % EVENTS
    }

    fn relation(self, event: usize) -> Relation {
        match self {
            Stop::Late => relation(1, event, self.right(event), Some(AGE + 1)),
            Stop::Never => relation(1, event, self.right(event), Some(0)),
            Stop::Pending | Stop::Overdue => relation(5, event, self.right(event), None),
        }
    }
}

/// An event to which every used relation of a full table belongs. All other events are
/// excluded, but for the right events of some stops.
#[derive(Clone, Debug)]
struct Waiting {
    event: usize,
    /// The relations that would block, in the table's order.
    stops: Vec<(usize, Stop)>,
    /// Those whose right event is included.
    included: Vec<Stop>,
    count: usize,
}

/// A condition that is just met or a milestone, on an event that none of the stops has.
fn met(event: usize, place: usize) -> Relation {
    let first = 1 + STOPS.len();
    let right = (event + first + place % (EVENTS - first)) % EVENTS;
    match place % 3 {
        0 => relation(1, event, right, Some(AGE)),
        1 => relation(5, event, right, None),
        _ => relation(1, event, right, Some(0)),
    }
}

/// It has happened so long ago, or never.
fn happened(age: Option<u32>, included: bool) -> Record {
    Record {
        age: age.unwrap_or(0),
        happened: age.is_some(),
        included,
        count: age.is_some().into(),
        ..Record::EMPTY
    }
}

impl Waiting {
    fn table(&self) -> Table {
        let mut table = table(EVENTS, self.count);
        for (place, relation) in table.relations.iter_mut().enumerate() {
            *relation = met(self.event, place);
        }
        for &(place, stop) in &self.stops {
            table.relations[place] = stop.relation(self.event);
        }
        table
    }

    fn pair(&self) -> Pair {
        let mut marking = marking(EVENTS);
        marking.records = [happened(Some(AGE), false); EVENTS];
        marking.records[self.event].included = true;
        marking.records[Stop::Never.right(self.event)] = happened(None, false);
        marking.records[Stop::Pending.right(self.event)].pending = true;
        let overdue = &mut marking.records[Stop::Overdue.right(self.event)];
        (overdue.pending, overdue.bounded) = (true, true);
        for stop in &self.included {
            marking.records[stop.right(self.event)].included = true;
        }
        Pair {
            table: Box::new(self.table()),
            marking: Box::new(marking),
        }
    }
}

const PLACES: [usize; 6] = [0, 1, 127, 128, 254, 255];

/// None would block; one, first to last; two, of which the one, the other or both are
/// included; all; and some behind the last used place, where no call looks.
fn waitings_of(event: usize) -> Vec<Waiting> {
    let of = |stops: &[(usize, Stop)], included: &[Stop], count: usize| Waiting {
        event,
        stops: stops.to_vec(),
        included: included.to_vec(),
        count,
    };
    let mut all = vec![of(&[], &[], RELATIONS), of(&[], &[], 0)];
    for stop in STOPS {
        let other = stop.other();
        for place in PLACES {
            all.push(of(&[(place, stop)], &[], RELATIONS));
            all.push(of(&[(place, stop)], &[stop], RELATIONS));
        }
        for (one, two) in [(0, 1), (0, 255), (100, 101), (254, 255)] {
            let both = [(one, stop), (two, other)];
            for included in [&[][..], &[stop], &[other], &[stop, other]] {
                all.push(of(&both, included, RELATIONS));
            }
        }
        let every: Vec<(usize, Stop)> = (0..RELATIONS).map(|place| (place, stop)).collect();
        all.push(of(&every, &[], RELATIONS));
        all.push(of(&[(255, stop)], &[], 255));
        all.push(of(&[(254, stop), (255, other)], &[other], 255));
        all.push(of(&[(0, stop)], &[stop], 0));
    }
    all
}

fn waitings() -> Vec<Waiting> {
    [0, 31, 63].into_iter().flat_map(waitings_of).collect()
}

/// The first relation would block, and is another event's. Both events are asked about.
fn of_another() -> Vec<(Pair, usize)> {
    let mut all = Vec::new();
    for (event, stop) in [(0, Stop::Late), (31, Stop::Never), (63, Stop::Pending)] {
        let waiting = Waiting {
            event,
            stops: vec![(0, stop)],
            included: Vec::new(),
            count: RELATIONS,
        };
        let (mut pair, other) = (waiting.pair(), (event + 32) % EVENTS);
        pair.table.relations[0].left = other as u8;
        pair.marking.records[other].included = true;
        all.push((pair.clone(), event));
        all.push((pair, other));
    }
    all
}

/// The states of an event that may wait for itself.
fn states() -> Vec<Record> {
    let mut all = Vec::new();
    for age in [None, Some(0), Some(1)] {
        for flags in 0..4 {
            let mut record = happened(age, flags & 1 != 0);
            record.pending = flags & 2 != 0;
            all.push(record);
        }
    }
    all
}

/// An event in a state, with a relation to itself; behind it comes one that would block,
/// of an excluded event.
fn with_itself(events: usize, own: Relation, record: Record) -> (Pair, usize) {
    let event = usize::from(own.left);
    let other = events - 1 - event;
    let mut table = table(events, 2);
    table.relations[0] = own;
    table.relations[1] = relation(1, event, other, Some(0));
    let mut marking = marking(events);
    marking.records[event] = record;
    marking.records[other] = happened(None, false);
    let pair = Pair {
        table: Box::new(table),
        marking: Box::new(marking),
    };
    (pair, event)
}

/// Conditions and milestones, of the fewest events that there can be with another one
/// beside and of the most, at both ends.
fn on_itself() -> Vec<(Pair, usize)> {
    let mut all = Vec::new();
    for (events, event) in [(2, 0), (2, 1), (64, 0), (64, 63)] {
        for record in states() {
            let condition = relation(1, event, event, Some(1));
            let milestone = relation(5, event, event, None);
            all.push(with_itself(events, condition, record));
            all.push(with_itself(events, milestone, record));
        }
    }
    all
}

/// What is asked about, and a number that no event has.
fn asked() -> Vec<(Pair, usize)> {
    let waiting = waitings().into_iter().map(|w| (w.pair(), w.event));
    let mut all: Vec<(Pair, usize)> = waiting.collect();
    all.extend(of_another());
    all.extend(on_itself());
    let (pair, _) = all[0].clone();
    all.extend([EVENTS, usize::MAX].map(|event| (pair.clone(), event)));
    all
}

pub fn hold_ups() -> Vec<Case> {
    let of = |(pair, event)| Case::HoldUp { pair, event };
    asked().into_iter().map(of).collect()
}

/// What would be does not matter here.
pub fn enabled() -> Vec<Case> {
    let of = |(pair, event)| Case::Enabled { pair, event };
    asked().into_iter().map(of).collect()
}

/// A relation at a place of a full table, and when its right event has happened.
#[derive(Clone, Copy, Debug)]
struct Looked {
    place: usize,
    kind: u8,
    left: usize,
    right: usize,
    time: u32,
    age: Option<u32>,
    included: bool,
}

const ENDS: [(usize, usize); 3] = [(0, 63), (63, 0), (40, 40)];
const LONG: [u32; 5] = [0, 1, AGE, LIMIT - 1, LIMIT];

/// Conditions of each time on an event of each age, and relations of each other kind;
/// the event is included or not.
fn looked() -> Vec<Looked> {
    let ages = LONG.map(Some).into_iter().chain([None]);
    let times = LONG.map(|time| (1, time)).into_iter();
    let others = (2..6).map(|kind| (kind, 0));
    let mut all = Vec::new();
    for (kind, time) in times.chain(others) {
        for age in ages.clone() {
            for (left, right) in ENDS {
                for (place, included) in [(0, false), (0, true), (255, false), (255, true)] {
                    all.push(Looked {
                        place,
                        kind,
                        left,
                        right,
                        time,
                        age,
                        included,
                    });
                }
            }
        }
    }
    all
}

impl Looked {
    fn pair(&self) -> Pair {
        let mut table = table(EVENTS, RELATIONS);
        let time = (self.kind == 1).then_some(self.time);
        table.relations[self.place] = relation(self.kind, self.left, self.right, time);
        let mut marking = marking(EVENTS);
        marking.records[self.right] = happened(self.age, self.included);
        Pair {
            table: Box::new(table),
            marking: Box::new(marking),
        }
    }
}

pub fn margins() -> Vec<Case> {
    let of = |looked: Looked| Case::Margin {
        pair: looked.pair(),
        relation: looked.place,
    };
    looked().into_iter().map(of).collect()
}

#[cfg(test)]
mod tests {
    use super::*;
    use second::{hold_up, margin, HoldUpAnswer, MarginAnswer, Rest};
    use std::collections::BTreeSet;

    fn held_up(pair: &Pair, event: usize) -> HoldUpAnswer {
        hold_up(&pair.table, &pair.marking, event)
    }

    fn expected(waiting: &Waiting) -> HoldUpAnswer {
        let used = || waiting.stops.iter().filter(|stop| stop.0 < waiting.count);
        let blocks = used().find(|stop| waiting.included.contains(&stop.1));
        match (blocks, used().next()) {
            (Some(stop), _) => HoldUpAnswer::Blocked(stop.0),
            (None, Some(stop)) => HoldUpAnswer::EnabledUnless(stop.0),
            (None, None) => HoldUpAnswer::Enabled,
        }
    }

    #[test]
    fn the_first_that_would_block_is_named() {
        let mut named = BTreeSet::new();
        for waiting in waitings() {
            let answer = held_up(&waiting.pair(), waiting.event);
            assert_eq!(answer, expected(&waiting), "{waiting:?}");
            if let HoldUpAnswer::EnabledUnless(place) = answer {
                named.insert(place);
            }
        }
        assert_eq!(Vec::from_iter(named), [0, 1, 100, 127, 128, 254, 255]);
    }

    #[test]
    fn each_event_has_its_own() {
        let answers: Vec<HoldUpAnswer> = of_another().iter().map(|(p, e)| held_up(p, *e)).collect();
        let each = [HoldUpAnswer::Enabled, HoldUpAnswer::EnabledUnless(0)];
        assert_eq!(answers, each.repeat(3));
    }

    /// It is included wherever it is enabled, so it cannot return.
    #[test]
    fn an_event_is_not_named_for_itself() {
        let mut times = [0; 3];
        for (pair, event) in on_itself() {
            let (own, record) = (pair.table.relations[0], pair.marking.records[event]);
            let stops = if own.kind == 1 {
                record.age < 1
            } else {
                record.pending
            };
            let answer = held_up(&pair, event);
            let (expected, which) = match (record.included, stops) {
                (false, _) => (HoldUpAnswer::Excluded, 0),
                (true, true) => (HoldUpAnswer::Blocked(0), 1),
                (true, false) => (HoldUpAnswer::EnabledUnless(1), 2),
            };
            assert_eq!(answer, expected);
            times[which] += 1;
        }
        assert!(times.iter().all(|&times| times > 10), "{times:?}");
    }

    #[test]
    fn an_ignored_margin_has_the_rest_of_an_included_event() {
        let mut rests = BTreeSet::new();
        for looked in looked() {
            let pair = looked.pair();
            let rest = looked.age.map(|age| age as i32 - looked.time as i32);
            let expected = match (looked.kind, looked.included, rest) {
                (1, true, None) => MarginAnswer::Never,
                (1, true, Some(ticks)) => MarginAnswer::By(ticks),
                (1, false, None) => MarginAnswer::Ignored(Rest::Never),
                (1, false, Some(ticks)) => MarginAnswer::Ignored(Rest::By(ticks)),
                _ => MarginAnswer::NotACondition,
            };
            let answer = margin(&pair.table, &pair.marking, looked.place);
            assert_eq!(answer, expected, "{looked:?}");
            if let MarginAnswer::Ignored(Rest::By(ticks)) = answer {
                rests.insert(ticks);
            }
        }
        let limit = LIMIT as i32;
        for ticks in [-limit, 1 - limit, -1, 0, 1, limit - 1, limit] {
            assert!(rests.contains(&ticks), "{ticks}");
        }
    }
}
