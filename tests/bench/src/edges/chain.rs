//! Cases at the limits of the whole chain of an event: events that lead back to one
//! another, the deepest and the longest lists that there are, what is excluded or
//! enabled on the way, and the room lent.

use super::{faulty_pairs, full_cases, marking, table, EVENTS_ASKED, LIMIT, SMALL};
use second::case::{Case, Pair};
use second::generate::relation;
use second::{Record, Relation};

const EVENTS: usize = 64;
const RELATIONS: usize = 256;

/// How many places a list has at least.
const PLACES: usize = 256;

fn of(pair: Pair, event: usize, room: usize) -> Case {
    Case::Chain {
        pair,
        event,
        list: (0..room).map(|place| 0xA5C3 ^ place as u16).collect(),
    }
}

/// It blocks while right is included and has never happened.
fn waits(left: usize, right: usize) -> Relation {
    relation(1, left, right, Some(0))
}

/// It blocks while right is included and pending.
fn milestone(left: usize, right: usize) -> Relation {
    relation(5, left, right, None)
}

/// Included, never happened and pending: every condition and every milestone on it
/// blocks.
const OPEN: Record = Record {
    included: true,
    pending: true,
    ..Record::EMPTY
};

/// A table of these relations alone, with a marking in which all of them block.
fn blocked(events: usize, relations: &[Relation]) -> Pair {
    let mut table = table(events, relations.len());
    table.relations = [Relation::EMPTY; RELATIONS];
    table.relations[..relations.len()].copy_from_slice(relations);
    let mut marking = marking(events);
    marking.records[..events].fill(OPEN);
    Pair {
        table: Box::new(table),
        marking: Box::new(marking),
    }
}

/// Each event waits for the next one, and the last for the first.
fn cycle(events: usize) -> Vec<Relation> {
    let next = |event| waits(event, (event + 1) % events);
    (0..events).map(next).collect()
}

/// Two ways lead to event 3, which waits for event 4.
fn diamond() -> Vec<Relation> {
    vec![
        waits(0, 1),
        milestone(0, 2),
        waits(1, 3),
        waits(2, 3),
        milestone(3, 4),
    ]
}

/// Event 0 leads to a cycle that does not lead back to it.
fn cycle_below() -> Vec<Relation> {
    vec![waits(0, 1), waits(1, 2), waits(2, 3), waits(3, 1)]
}

/// An event that waits for itself, before and behind the one that it waits for besides.
fn with_itself() -> Vec<Relation> {
    vec![
        milestone(0, 0),
        waits(0, 1),
        waits(0, 0),
        milestone(1, 1),
        waits(1, 0),
    ]
}

fn reversed(mut relations: Vec<Relation>) -> Vec<Relation> {
    relations.reverse();
    relations
}

/// All that a full table can have, of one event, on each event in turn.
fn of_one(event: usize) -> Vec<Relation> {
    let of = |number| match number % 2 {
        0 => waits(event, number % EVENTS),
        _ => milestone(event, number * 5 % EVENTS),
    };
    (0..RELATIONS).map(of).collect()
}

/// Over all events, four of each, so that most lead to what is open by then.
fn of_many() -> Vec<Relation> {
    let of = |number: usize| {
        let (left, lap) = (number % EVENTS, number / EVENTS);
        let right = (left * 7 + 11 * lap + 3) % EVENTS;
        match (number + lap) % 2 {
            0 => waits(left, right),
            _ => milestone(left, right),
        }
    };
    (0..RELATIONS).map(of).collect()
}

/// Relations of every kind between those that block, none of them an inhibitor.
fn among_others() -> Vec<Relation> {
    let others = [(2, Some(1)), (3, None), (4, None), (2, None)];
    let own = [waits(0, 2), milestone(2, 1), waits(1, 0), milestone(0, 1)];
    let of = |(other, own): ((u8, Option<u32>), Relation)| {
        let (left, right) = (usize::from(own.left), usize::from(own.right));
        [relation(other.0, left, right, other.1), own]
    };
    others.into_iter().zip(own).flat_map(of).collect()
}

/// The relations of a whole table, and how many events it has.
fn ways() -> Vec<(usize, Vec<Relation>)> {
    let mut all = vec![
        (1, Vec::new()),
        (1, vec![waits(0, 0)]),
        (1, vec![milestone(0, 0)]),
        (1, vec![waits(0, 0); RELATIONS]),
        (2, with_itself()),
        (3, among_others()),
        (4, cycle_below()),
        (5, diamond()),
        (5, reversed(diamond())),
        (EVENTS, cycle(EVENTS).repeat(4)),
        (EVENTS, of_one(0)),
        (EVENTS, of_one(63)),
        (EVENTS, of_many()),
        (EVENTS, reversed(of_many())),
    ];
    for events in [2, 3, 63, EVENTS] {
        all.push((events, cycle(events)));
        all.push((events, reversed(cycle(events))));
        // Without the relation that leads back.
        let ladder = cycle(events)[..events - 1].to_vec();
        all.push((events, ladder.clone()));
        all.push((events, reversed(ladder)));
    }
    all
}

/// Events at both ends and in the middle.
fn some_of(events: usize) -> Vec<usize> {
    let mut some = vec![0, 1, events / 2, events - 1];
    some.sort_unstable();
    some.dedup();
    some.retain(|&event| event < events);
    some
}

fn of_ways() -> Vec<Case> {
    let mut all = Vec::new();
    for (events, relations) in ways() {
        for event in some_of(events) {
            for room in [PLACES, PLACES + 1, PLACES + 40] {
                all.push(of(blocked(events, &relations), event, room));
            }
        }
    }
    all
}

/// How an event may be that another one waits for.
fn states() -> Vec<Record> {
    let mut all = Vec::new();
    for age in [None, Some(0), Some(4), Some(5), Some(6), Some(LIMIT)] {
        for flags in 0..4 {
            all.push(Record {
                age: age.unwrap_or(0),
                happened: age.is_some(),
                count: age.is_some().into(),
                included: flags & 1 != 0,
                pending: flags & 2 != 0,
                ..Record::EMPTY
            });
        }
    }
    all
}

/// Event 0 waits for event 1, and that one for event 2, by conditions of each time and
/// by milestones; one of the three is in each of its states.
fn of_states() -> Vec<Case> {
    let mut all = Vec::new();
    for time in [Some(0), Some(5), Some(LIMIT), None] {
        let kind = if time.is_some() { 1 } else { 5 };
        let relations = [relation(kind, 0, 1, time), relation(kind, 1, 2, time)];
        for event in 0..SMALL {
            for state in states() {
                let mut pair = blocked(SMALL, &relations);
                pair.marking.records[event] = state;
                all.push(of(pair, 0, PLACES));
            }
        }
    }
    all
}

/// The table of many relations, where every third event is excluded, or has happened and
/// is not pending; the asked one too.
fn of_holes() -> Vec<Case> {
    let done = Record {
        happened: true,
        included: true,
        count: 1,
        ..Record::EMPTY
    };
    let away = Record {
        included: false,
        ..OPEN
    };
    let mut all = Vec::new();
    for (hole, event) in [done, away]
        .iter()
        .flat_map(|r| (0..6).map(move |e| (r, e)))
    {
        let mut pair = blocked(EVENTS, &of_many());
        for record in pair.marking.records.iter_mut().step_by(3) {
            *record = *hole;
        }
        all.push(of(pair, event, PLACES));
    }
    all
}

/// What stands behind the last used relation would block, and is not looked at.
fn of_fewer() -> Vec<Case> {
    let mut all = Vec::new();
    for relations in [cycle(EVENTS).repeat(4), of_one(0), of_many()] {
        for count in [0, 1, 2, 63, 64, 255] {
            let mut pair = blocked(EVENTS, &relations);
            pair.table.count = count;
            all.push(of(pair, 0, PLACES));
        }
    }
    all
}

/// So few places that some chain might not fit them, also where this one would: of an
/// event that has none, one that has one, and one that has 256.
fn of_rooms() -> Vec<Case> {
    let mut excluded = blocked(2, &cycle(2));
    excluded.marking.records[0].included = false;
    let pairs = [
        excluded,
        blocked(2, &[]),
        blocked(2, &[waits(0, 1)]),
        blocked(EVENTS, &of_one(0)),
    ];
    let mut all = Vec::new();
    for pair in pairs {
        for room in [0, 1, 2, 254, 255, 256, 257, 512] {
            all.push(of(pair.clone(), 0, room));
            // Before the room comes the event, and before that the pair.
            for event in [pair.table.events, 64, 256, 1 << 32, usize::MAX] {
                all.push(of(pair.clone(), event, room));
            }
        }
    }
    all
}

/// Each fault with room and without, for an event and for none.
fn of_faults() -> Vec<Case> {
    let asked = |pair: Pair| {
        let some = [(0, PLACES), (0, 0), (usize::MAX, PLACES), (usize::MAX, 0)];
        some.map(|(event, room)| of(pair.clone(), event, room))
    };
    faulty_pairs().into_iter().flat_map(asked).collect()
}

pub fn chain() -> Vec<Case> {
    let mut cases = full_cases(&EVENTS_ASKED, |pair, event| of(pair, event, PLACES + 1));
    for more in [
        of_ways(),
        of_states(),
        of_holes(),
        of_fewer(),
        of_rooms(),
        of_faults(),
    ] {
        cases.extend(more);
    }
    cases
}

#[cfg(test)]
mod tests {
    use super::*;
    use second::case::Answer;

    /// What is listed, relation and depth, and that the places behind it stay.
    fn listed(case: &Case) -> Vec<(usize, usize)> {
        let (Case::Chain { list: before, .. }, Answer::Chain { count, list, .. }) =
            (case, case.answer())
        else {
            panic!("{} is another call", case.name());
        };
        assert_eq!(list[count..], before[count..]);
        let of = |&place: &u16| (usize::from(place / 256), usize::from(place % 256));
        list[..count].iter().map(of).collect()
    }

    fn told(events: usize, relations: &[Relation], event: usize) -> Vec<(usize, usize)> {
        listed(&of(blocked(events, relations), event, PLACES + 1))
    }

    #[test]
    fn a_relation_comes_before_all_below_it_and_then_the_next() {
        let expected = [(0, 0), (2, 1), (4, 2), (1, 0), (3, 1)];
        assert_eq!(told(5, &diamond(), 0), expected);
        let expected = [(3, 0), (1, 1), (0, 2), (4, 0), (2, 1)];
        assert_eq!(told(5, &reversed(diamond()), 0), expected);
        let expected = [(1, 0), (3, 1), (5, 2), (7, 0)];
        assert_eq!(told(3, &among_others(), 0), expected);
    }

    #[test]
    fn an_event_is_opened_once() {
        let expected = [(0, 0), (1, 1), (2, 2), (3, 3)];
        assert_eq!(told(4, &cycle_below(), 0), expected);
        assert_eq!(told(4, &cycle_below(), 2), [(2, 0), (3, 1), (1, 2)]);
        let expected = [(0, 0), (1, 0), (3, 1), (4, 1), (2, 0)];
        assert_eq!(told(2, &with_itself(), 0), expected);
        assert_eq!(told(1, &[waits(0, 0)], 0), [(0, 0)]);
    }

    #[test]
    fn the_deepest_is_63_deep() {
        let down: Vec<(usize, usize)> = (0..EVENTS).map(|n| (n, n)).collect();
        assert_eq!(told(EVENTS, &cycle(EVENTS), 0), down);
        assert_eq!(told(EVENTS, &cycle(EVENTS)[..63], 0), down[..63]);
        let up: Vec<(usize, usize)> = (0..EVENTS).map(|n| (63 - n, n)).collect();
        assert_eq!(told(EVENTS, &reversed(cycle(EVENTS)), 0), up);
        // Down by the first of each four, and back up by the others.
        let all = told(EVENTS, &cycle(EVENTS).repeat(4), 0);
        assert_eq!(all[..64], down);
        assert_eq!(
            all[64..70],
            [
                (127, 63),
                (191, 63),
                (255, 63),
                (126, 62),
                (190, 62),
                (254, 62)
            ]
        );
        assert_eq!(all[255], (192, 0));
    }

    #[test]
    fn all_256_are_listed() {
        for event in [0, 63] {
            let own: Vec<(usize, usize)> = (0..RELATIONS).map(|n| (n, 0)).collect();
            assert_eq!(told(EVENTS, &of_one(event), event), own);
            assert_eq!(told(EVENTS, &of_one(event), 1), []);
        }
        assert_eq!(told(EVENTS, &of_many(), 0).len(), RELATIONS);
    }

    #[test]
    fn what_is_excluded_or_behind_the_count_leads_nowhere() {
        for case in of_holes().iter().chain(&of_fewer()) {
            let (all, pair) = (listed(case), case.pair().expect("a pair"));
            assert!(all.len() < RELATIONS);
            for (number, _) in all {
                assert!(number < pair.table.count);
                let right = usize::from(pair.table.relations[number].right);
                assert!(pair.marking.records[right].included);
            }
        }
    }

    /// The room's number is the last, and the event's the last but one.
    #[test]
    fn the_images_come_first_and_the_room_comes_last() {
        let mut seen = std::collections::BTreeSet::new();
        for case in of_rooms().iter().chain(&of_faults()) {
            let Case::Chain { pair, event, list } = case else {
                panic!("{} is another call", case.name());
            };
            let due = Case::Due { pair: pair.clone() };
            let expected = match due.answer().number() {
                0 if *event >= pair.table.events => 8,
                0 if list.len() < PLACES => 14,
                number => number,
            };
            assert_eq!(case.answer().number(), expected);
            seen.insert((expected, list.len() < PLACES));
        }
        let refused = [1, 3, 4, 5, 6, 7, 8].map(|number| [(number, false), (number, true)]);
        let expected = [&[(0, false)][..], &refused.concat(), &[(14, true)]].concat();
        assert_eq!(Vec::from_iter(seen), expected);
    }
}
