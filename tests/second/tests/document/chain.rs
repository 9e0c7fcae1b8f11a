//! The whole chain of what stands in an event's way, sentence by sentence of the
//! request. Each case worked by hand.

use crate::shop::*;
use second::*;

/// A relation and its depth.
type Visit = (usize, usize);

fn events(count: usize) -> Vec<Class> {
    vec![CONTROLLED; count]
}

/// A list with another number in each place, none of which a chain has: no depth
/// is above 63.
fn lent(places: usize) -> Vec<u16> {
    (0..places)
        .map(|place| 256 * (place % 256) as u16 + 200)
        .collect()
}

/// The chain as told into a list of so many places, of which those past the count
/// stay.
fn listed_in(places: usize, table: &Table, now: &Marking, event: usize) -> Vec<Visit> {
    let mut list = lent(places);
    let answer = chain(table, now, event, &mut list);
    assert_eq!(answer.number, 0);
    assert_eq!(list.len(), places);
    assert_eq!(list[answer.count..], lent(places)[answer.count..]);
    list[..answer.count]
        .iter()
        .map(|place| (usize::from(place / 256), usize::from(place % 256)))
        .collect()
}

fn listed(table: &Table, now: &Marking, event: usize) -> Vec<Visit> {
    listed_in(256, table, now, event)
}

/// Of event 0 in a table of these relations and a marking of these records, firm
/// or not.
fn chain_of_0(relations: &[Relation], records: &[Record], expected: &[Visit]) {
    let now = marking(records);
    let ask = |table: &Table| {
        assert_eq!(listed(table, &now, 0), expected, "{relations:?}\n{now:?}");
        let held_up = expected.first().map(|(number, _)| *number);
        let first = match hold_up(table, &now, 0) {
            HoldUpAnswer::Blocked(number) => Some(number),
            _ => None,
        };
        assert_eq!(first, held_up);
    };
    both_ways(&events(records.len()), relations, ask);
    firm_both_ways(&events(records.len()), relations, ask);
}

fn refused(table: &Table, now: &Marking, event: usize, places: usize, number: u8) {
    let mut list = lent(places);
    let answer = chain(table, now, event, &mut list);
    assert_eq!(answer, ChainAnswer { number, count: 0 });
    assert_eq!(list, lent(places));
}

/// So many events, each of which waits for the next.
fn ladder(events: usize) -> Vec<Relation> {
    (1..events)
        .map(|event| condition(event - 1, event, 0))
        .collect()
}

/// So many relations, each one deeper than the one before.
fn deeper_and_deeper(count: usize) -> Vec<Visit> {
    (0..count).map(|number| (number, number)).collect()
}

/// "Blocked by relation 1" was one step; here are all. Of P after leak: isolate
/// has not happened, drain is pending, and neither is held up.
#[test]
fn p_after_leak() {
    for_p(|p| {
        let now = marking_after(p, &p_start(), LEAK);
        assert_eq!(listed(p, &now, FLUSH), [(1, 0), (4, 0)]);
        for event in [LEAK, ISOLATE, STANDBY, DRAIN] {
            assert_eq!(listed(p, &now, event), []);
        }
        let isolated = marking_after(p, &now, ISOLATE);
        assert_eq!(listed(p, &isolated, FLUSH), [(4, 0)]);
        let drained = marking_after(p, &now, DRAIN);
        assert_eq!(listed(p, &drained, FLUSH), [(1, 0)]);
        let both = marking_after(p, &isolated, DRAIN);
        assert_eq!(listed(p, &both, FLUSH), []);
    });
}

/// P before leak and after standby: flush is excluded.
#[test]
fn p_without_flush() {
    for_p(|p| {
        assert_eq!(listed(p, &p_start(), FLUSH), []);
        let leaked = marking_after(p, &p_start(), LEAK);
        let away = marking_after(p, &leaked, STANDBY);
        assert_eq!(hold_up(p, &away, FLUSH), HoldUpAnswer::Excluded);
        assert_eq!(listed(p, &away, FLUSH), []);
        let back = marking_after(p, &away, LEAK);
        assert_eq!(listed(p, &back, FLUSH), [(1, 0), (4, 0)]);
    });
}

/// P and one relation more: below relation 1, below relation 4, and beside them.
#[test]
fn p_and_one_more() {
    for (added, of_flush, of_isolate, of_drain) in [
        // Isolate and flush wait for each other.
        (
            condition(ISOLATE, FLUSH, 0),
            vec![(1, 0), (6, 1), (4, 0)],
            vec![(6, 0), (1, 1), (4, 1)],
            vec![],
        ),
        // Isolate was opened before drain leads to it.
        (
            condition(DRAIN, ISOLATE, 0),
            vec![(1, 0), (4, 0), (6, 1)],
            vec![],
            vec![(6, 0)],
        ),
        // Drain is opened below isolate, and not at relation 4.
        (
            milestone(ISOLATE, DRAIN),
            vec![(1, 0), (6, 1), (4, 0)],
            vec![(6, 0)],
            vec![],
        ),
        // Drain has itself as milestone.
        (
            milestone(DRAIN, DRAIN),
            vec![(1, 0), (4, 0), (6, 1)],
            vec![],
            vec![(6, 0)],
        ),
        // Nothing waits for leak, which has happened.
        (
            condition(ISOLATE, LEAK, 0),
            vec![(1, 0), (4, 0)],
            vec![],
            vec![],
        ),
        // It has happened just now.
        (
            condition(ISOLATE, LEAK, 1),
            vec![(1, 0), (6, 1), (4, 0)],
            vec![(6, 0)],
            vec![],
        ),
        // Another of flush's own.
        (
            condition(FLUSH, STANDBY, 0),
            vec![(1, 0), (4, 0), (6, 0)],
            vec![],
            vec![],
        ),
    ] {
        for_p_and(added, |table| {
            let now = marking_after(table, &p_start(), LEAK);
            assert_eq!(listed(table, &now, FLUSH), of_flush, "{added:?}");
            assert_eq!(listed(table, &now, ISOLATE), of_isolate, "{added:?}");
            assert_eq!(listed(table, &now, DRAIN), of_drain, "{added:?}");
        });
    }
}

/// "A blocking relation": what blocks event 0 is listed and nothing else.
#[test]
fn each_thing_that_blocks() {
    for (relation, right, blocks) in [
        (condition(0, 1, 0), included(), true),
        (condition(0, 1, 5), included(), true),
        (condition(0, 1, 5), happened(4), true),
        (condition(0, 1, 5), happened(5), false),
        (condition(0, 1, 0), happened(0), false),
        (condition(0, 1, LIMIT), happened(LIMIT - 1), true),
        (condition(0, 1, LIMIT), happened(LIMIT), false),
        (condition(0, 1, 0), pending(0), true),
        (condition(0, 1, 0), excluded(included()), false),
        (condition(0, 1, 5), excluded(happened(4)), false),
        (milestone(0, 1), pending(0), true),
        (milestone(0, 1), pending(LIMIT), true),
        (milestone(0, 1), pending_eventually(), true),
        (milestone(0, 1), included(), false),
        (milestone(0, 1), happened(0), false),
        (milestone(0, 1), excluded(pending(0)), false),
        (response(0, 1, 5), pending(0), false),
        (eventually(0, 1), pending(0), false),
        (includes(0, 1), pending(0), false),
        (excludes(0, 1), pending(0), false),
        // Of another event, with event 0 as right.
        (condition(1, 0, 0), pending(0), false),
        (milestone(1, 1), pending(0), false),
    ] {
        let expected: &[Visit] = if blocks { &[(0, 0)] } else { &[] };
        chain_of_0(&[relation], &[included(), right], expected);
        // The same one step further down.
        let below = Relation {
            left: relation.left + 1,
            right: relation.right + 1,
            ..relation
        };
        let mut expected = vec![(0, 0)];
        expected.extend(blocks.then_some((1, 1)));
        // Event 1 blocks event 0 for good, and is in place.
        let top = condition(0, 1, LIMIT);
        chain_of_0(&[top, below], &[included(), included(), right], &expected);
    }
}

/// "An event leads to its blocking relations in table order", whatever the kind
/// and the number of the right event.
#[test]
fn in_table_order() {
    let records = [included(), included(), happened(4), pending(0)];
    let all = [condition(0, 1, 0), condition(0, 2, 5), milestone(0, 3)];
    for order in [
        [0, 1, 2],
        [0, 2, 1],
        [1, 0, 2],
        [1, 2, 0],
        [2, 0, 1],
        [2, 1, 0],
    ] {
        let relations = order.map(|place: usize| all[place]);
        chain_of_0(&relations, &records, &[(0, 0), (1, 0), (2, 0)]);
        // Between relations that block nothing.
        let apart = [
            includes(0, 1),
            relations[0],
            condition(0, 2, 4),
            response(0, 3, 1),
            relations[1],
            milestone(0, 1),
            relations[2],
            excludes(0, 3),
        ];
        chain_of_0(&apart, &records, &[(1, 0), (4, 0), (6, 0)]);
    }
}

/// "A relation, all below it, then the next", where the table has them in another
/// order.
#[test]
fn in_visiting_order() {
    let never = [included(); 7];
    // Event 0 leads to 1 and 4, 1 to 2 and 3, 4 to 5 and 6.
    let relations = [
        condition(4, 5, 0),
        condition(1, 2, 0),
        condition(0, 1, 0),
        condition(4, 6, 0),
        condition(0, 4, 0),
        condition(1, 3, 0),
    ];
    chain_of_0(
        &relations,
        &never,
        &[(2, 0), (1, 1), (5, 1), (4, 0), (0, 1), (3, 1)],
    );
    // Two levels down and back up by two.
    let relations = [
        condition(0, 1, 0),
        condition(0, 4, 0),
        condition(2, 3, 0),
        condition(1, 2, 0),
        condition(4, 5, 0),
    ];
    chain_of_0(
        &relations,
        &never,
        &[(0, 0), (3, 1), (2, 2), (1, 0), (4, 1)],
    );
}

/// "At its first visit", be it by the longer way.
#[test]
fn opened_at_the_first_visit() {
    let never = [included(); 5];
    let longer_first = [
        condition(0, 1, 0),
        condition(1, 2, 0),
        condition(2, 3, 0),
        condition(0, 3, 0),
        condition(3, 4, 0),
    ];
    chain_of_0(
        &longer_first,
        &never,
        &[(0, 0), (1, 1), (2, 2), (4, 3), (3, 0)],
    );
    let shorter_first = [
        condition(0, 3, 0),
        condition(1, 2, 0),
        condition(2, 3, 0),
        condition(0, 1, 0),
        condition(3, 4, 0),
    ];
    chain_of_0(
        &shorter_first,
        &never,
        &[(0, 0), (4, 1), (3, 0), (1, 1), (2, 2)],
    );
}

/// "Each event is opened once only": two ways to event 3, and what is below it is
/// listed below the first.
#[test]
fn a_diamond() {
    let never = [included(); 5];
    let relations = [
        condition(0, 1, 0),
        condition(0, 2, 0),
        condition(1, 3, 0),
        condition(2, 3, 0),
        condition(3, 4, 0),
    ];
    chain_of_0(
        &relations,
        &never,
        &[(0, 0), (2, 1), (4, 2), (1, 0), (3, 1)],
    );
}

/// Two relations with the same ends: each is listed, the first opens.
#[test]
fn two_relations_with_the_same_ends() {
    let relations = [
        milestone(0, 1),
        condition(1, 2, 0),
        condition(0, 1, 0),
        condition(0, 1, 7),
    ];
    let records = [included(), pending(3), included()];
    chain_of_0(&relations, &records, &[(0, 0), (1, 1), (2, 0), (3, 0)]);
}

/// "So cycles end." The relation that leads back is listed.
#[test]
fn cycles() {
    let never = [included(); 4];
    chain_of_0(&[condition(0, 0, 0)], &never, &[(0, 0)]);
    chain_of_0(
        &[condition(0, 0, 0), condition(0, 0, 1)],
        &never,
        &[(0, 0), (1, 0)],
    );
    chain_of_0(
        &[condition(0, 1, 0), condition(1, 0, 0)],
        &never,
        &[(0, 0), (1, 1)],
    );
    // Back to the asked event, to one on the way down, and to itself; then the
    // asked event goes on.
    let relations = [
        condition(2, 0, 0),
        condition(2, 1, 0),
        condition(2, 2, 0),
        condition(1, 2, 0),
        condition(0, 1, 0),
        condition(0, 3, 0),
    ];
    chain_of_0(
        &relations,
        &never,
        &[(4, 0), (3, 1), (0, 2), (1, 2), (2, 2), (5, 0)],
    );
    // A cycle that event 0 is not on.
    let relations = [condition(1, 2, 0), condition(2, 1, 0), condition(0, 2, 0)];
    chain_of_0(&relations, &never, &[(2, 0), (1, 1), (0, 2)]);
}

/// Every event of a cycle has the whole cycle in its way.
#[test]
fn a_cycle_from_each_of_its_events() {
    let relations = [condition(0, 1, 0), condition(1, 2, 0), condition(2, 0, 0)];
    both_ways(&events(3), &relations, |table| {
        let now = fresh_marking(3);
        assert_eq!(listed(table, &now, 0), [(0, 0), (1, 1), (2, 2)]);
        assert_eq!(listed(table, &now, 1), [(1, 0), (2, 1), (0, 2)]);
        assert_eq!(listed(table, &now, 2), [(2, 0), (0, 1), (1, 2)]);
    });
}

/// The deepest chain: 64 events, and a relation of the last of them is at depth 63.
#[test]
fn a_ladder_of_64_events() {
    let mut relations = ladder(64);
    let never = vec![included(); 64];
    chain_of_0(&relations, &never, &deeper_and_deeper(63));
    relations.push(condition(63, 0, 0));
    chain_of_0(&relations, &never, &deeper_and_deeper(64));
    relations[63] = milestone(63, 63);
    chain_of_0(&relations, &never, &deeper_and_deeper(63));
    let mut last_pending = never.clone();
    last_pending[63] = pending_eventually();
    chain_of_0(&relations, &last_pending, &deeper_and_deeper(64));
    // Asked in the middle.
    both_ways(&events(64), &ladder(64), |table| {
        let now = fresh_marking(64);
        let expected: Vec<Visit> = (40..63).map(|number| (number, number - 40)).collect();
        assert_eq!(listed(table, &now, 40), expected);
        assert_eq!(listed(table, &now, 62), [(62, 0)]);
        assert_eq!(listed(table, &now, 63), []);
    });
}

/// A ladder one of whose events has happened, or is away: no further.
#[test]
fn a_ladder_that_breaks_off() {
    for there in [happened(0), excluded(included())] {
        for gap in [1, 2, 30, 63] {
            let mut records = vec![included(); 64];
            records[gap] = there;
            chain_of_0(&ladder(64), &records, &deeper_and_deeper(gap - 1));
        }
    }
}

/// 256 × relation + depth, up to the largest that there is.
#[test]
fn a_place_is_256_times_the_relation_plus_the_depth() {
    let mut relations = vec![includes(0, 0); 193];
    relations.extend(ladder(64));
    let mut list = lent(256);
    let table = table(&events(64), &relations);
    let answer = chain(&table, &fresh_marking(64), 0, &mut list);
    assert_eq!((answer.number, answer.count), (0, 63));
    assert_eq!(list[0], 49_408);
    assert_eq!(list[1], 49_665);
    assert_eq!(list[62], 65_342);
    // And with the last event held up by the first.
    relations.remove(0);
    relations.push(condition(63, 0, 0));
    let table = crate::shop::table(&events(64), &relations);
    let answer = chain(&table, &fresh_marking(64), 0, &mut list);
    assert_eq!((answer.number, answer.count), (0, 64));
    assert_eq!(list[63], 65_343);
}

/// As many as a table can have, all of one event.
#[test]
fn all_256_relations_of_one_event() {
    let own: Vec<Visit> = (0..256).map(|number| (number, 0)).collect();
    chain_of_0(&[condition(0, 0, 0); 256], &[included()], &own);
    chain_of_0(&[condition(0, 1, 0); 256], &[included(); 2], &own);
    let to_all: Vec<Relation> = (0..256)
        .map(|number| condition(0, number % 64, 0))
        .collect();
    chain_of_0(&to_all, &[included(); 64], &own);
    // In another table none of them stands in the way of event 1.
    let table = table(&events(2), &[milestone(0, 1); 256]);
    let now = marking(&[included(), pending(0)]);
    assert_eq!(listed(&table, &now, 0), own);
    assert_eq!(listed(&table, &now, 1), []);
}

/// 256 relations of 64 events, four each: all on the way down, the rest on the way
/// back up.
#[test]
fn all_256_relations_of_64_events() {
    let relations: Vec<Relation> = (0..256)
        .map(|number| condition(number / 4, (number / 4 + 1) % 64, 0))
        .collect();
    let down = (0..64).map(|event| (4 * event, event));
    let last = (253..256).map(|number| (number, 63));
    let up = (0..63)
        .rev()
        .flat_map(|event| (1..4).map(move |more| (4 * event + more, event)));
    let expected: Vec<Visit> = down.chain(last).chain(up).collect();
    assert_eq!(expected.len(), 256);
    chain_of_0(&relations, &[included(); 64], &expected);
}

/// "An excluded event opens nothing": done, with nothing listed.
#[test]
fn an_excluded_asked_event() {
    for relations in [
        vec![condition(0, 1, 0)],
        vec![milestone(0, 1)],
        vec![condition(0, 0, 0), milestone(0, 0)],
        vec![condition(0, 1, 0), condition(1, 2, 0), condition(1, 0, 0)],
    ] {
        let held_up = [pending(0), pending(0), included()];
        let mut away = held_up;
        away[0] = excluded(pending(0));
        chain_of_0(&relations, &away, &[]);
        let now = marking(&held_up);
        assert_ne!(listed(&table(&events(3), &relations), &now, 0), []);
    }
}

/// Further down an excluded event blocks nothing, so no relation leads to it.
#[test]
fn an_excluded_event_further_down() {
    let relations = [
        condition(0, 1, 0),
        condition(1, 2, 0),
        condition(2, 3, 0),
        condition(0, 2, 0),
        condition(0, 3, 0),
    ];
    let mut records = [included(); 4];
    chain_of_0(
        &relations,
        &records,
        &[(0, 0), (1, 1), (2, 2), (3, 0), (4, 0)],
    );
    records[2] = excluded(included());
    chain_of_0(&relations, &records, &[(0, 0), (4, 0)]);
    records[1] = excluded(included());
    chain_of_0(&relations, &records, &[(4, 0)]);
}

/// What would block if an event came back stands in nobody's way.
#[test]
fn what_is_ignored_is_not_listed() {
    let relations = [condition(0, 1, 0), condition(1, 2, 0), milestone(0, 3)];
    let away = excluded(pending(0));
    chain_of_0(&relations, &[included(), away, included(), away], &[]);
    let table = table(&events(4), &relations);
    let now = marking(&[included(), away, included(), away]);
    assert_eq!(hold_up(&table, &now, 0), HoldUpAnswer::EnabledUnless(0));
}

/// Nothing stands in the way of an enabled event, whatever there is elsewhere.
#[test]
fn an_enabled_asked_event() {
    chain_of_0(&[], &[included()], &[]);
    chain_of_0(
        &[condition(0, 1, 3), condition(1, 2, 0), milestone(2, 2)],
        &[included(), happened(3), pending(0)],
        &[],
    );
}

/// "Exactly the blocking relations of the events reachable in this way": those of
/// an event that only leads here are not among them.
#[test]
fn what_is_not_reached_is_not_listed() {
    let relations = [
        condition(3, 0, 0),
        condition(0, 1, 0),
        condition(2, 1, 0),
        condition(3, 2, 0),
    ];
    chain_of_0(&relations, &[included(); 4], &[(1, 0)]);
    // By a relation of another kind, event 2 is not reached.
    let relations = [
        response(0, 2, 1),
        includes(0, 2),
        condition(2, 1, 0),
        condition(0, 1, 0),
    ];
    chain_of_0(&relations, &[included(); 3], &[(3, 0)]);
}

/// An event that waits for a milestone or a tick is not held up itself: nothing is
/// below it, but what holds it up, if something does.
#[test]
fn below_what_has_happened() {
    let relations = [
        condition(0, 1, 5),
        condition(1, 2, 5),
        milestone(0, 3),
        milestone(3, 1),
    ];
    let records = [included(), happened(4), happened(4), pending(9)];
    chain_of_0(&relations, &records, &[(0, 0), (1, 1), (2, 0)]);
}

/// "Fewer than 256 places" is refused, also where few would do or none.
#[test]
fn room_for_256() {
    let none = table(&events(1), &[]);
    let one = table(&events(1), &[condition(0, 0, 0)]);
    let all = table(&events(1), &[condition(0, 0, 0); 256]);
    let now = fresh_marking(1);
    for (table, count) in [(&none, 0), (&one, 1), (&all, 256)] {
        for places in [0, 1, 2, 63, 64, 128, 254, 255] {
            refused(table, &now, 0, places, 14);
        }
        for places in [256, 257, 300, 512, 1000] {
            assert_eq!(listed_in(places, table, &now, 0).len(), count);
        }
    }
    // Of an excluded event, too.
    let away = marking(&[excluded(included())]);
    refused(&one, &away, 0, 255, 14);
    assert_eq!(listed(&one, &away, 0), []);
}

/// "Places past it stay", whatever is in them.
#[test]
fn places_past_the_count_stay() {
    let table = table(&events(3), &ladder(3));
    for before in [0, 1, 256, u16::MAX] {
        let mut list = vec![before; 300];
        let answer = chain(&table, &fresh_marking(3), 0, &mut list);
        assert_eq!((answer.number, answer.count), (0, 2));
        assert_eq!(list[..2], [0, 257]);
        assert_eq!(list[2..], vec![before; 298]);
        let answer = chain(&table, &fresh_marking(3), 2, &mut list);
        assert_eq!((answer.number, answer.count), (0, 0));
        assert_eq!(list[..3], [0, 257, before]);
    }
}

/// "8, then 14", and both after the table and the marking.
#[test]
fn the_order_of_refusals() {
    let good = table(&events(2), &ladder(2));
    let now = fresh_marking(2);
    for missing in [2, 3, 63, 64, 255, 256, usize::MAX] {
        for places in [0, 255, 256, 300] {
            refused(&good, &now, missing, places, 8);
        }
    }
    refused(&good, &now, 0, 255, 14);
    let wrong = marking(&[
        included(),
        Record {
            age: 1,
            ..included()
        },
    ]);
    for (event, places) in [(0, 256), (0, 255), (2, 256), (2, 0)] {
        refused(&good, &wrong, event, places, 7);
        refused(&good, &fresh_marking(3), event, places, 1);
        let late = table(&events(2), &[condition(0, 1, LIMIT + 1)]);
        refused(&late, &wrong, event, places, 6);
        let beyond = table(&events(2), &[condition(0, 2, 0)]);
        refused(&beyond, &now, event, places, 5);
        refused(&table(&events(2), &[NO_RELATION]), &now, event, places, 4);
        refused(&NO_TABLE, &now, event, places, 3);
    }
}

/// An event there is not, though it stands in an unused place.
#[test]
fn unused_places_are_not_looked_at() {
    let mut strange = table(&events(2), &[condition(0, 1, 0)]);
    strange.relations[1] = milestone(0, 1);
    strange.relations[2] = condition(1, 2, 0);
    let mut now = marking(&[included(), pending(0)]);
    now.records[2] = pending(0);
    assert_eq!(listed(&strange, &now, 0), [(0, 0)]);
    refused(&strange, &now, 2, 256, 8);
    strange.count = 2;
    assert_eq!(listed(&strange, &now, 0), [(0, 0), (1, 0)]);
}

/// The class of an event, what it is to be done by and how often it was done play
/// no part.
#[test]
fn only_what_blocks_counts() {
    let relations = [condition(0, 1, 5), milestone(1, 2)];
    for classes in [[CONTROLLED; 3], [UNCONTROLLED; 3], [CAUSABLE_ONLY; 3]] {
        both_ways(&classes, &relations, |table| {
            for asked in [included(), happened_often(3, 17), pending(0)] {
                let now = marking(&[asked, happened_often(4, u32::MAX), pending(0)]);
                assert_eq!(listed(table, &now, 0), [(0, 0), (1, 1)]);
            }
        });
    }
}

/// Done from the end of the chain to its start, each step may be taken, and the
/// chain gets shorter.
#[test]
fn from_the_end_to_the_start() {
    both_ways(&events(6), &ladder(6), |table| {
        let mut now = fresh_marking(6);
        for left in (0..6).rev() {
            assert_eq!(listed(table, &now, 0), deeper_and_deeper(left));
            now = marking_after(table, &now, left);
        }
    });
}
