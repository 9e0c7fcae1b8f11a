//! What an event that is excluded would do if it came back: the rest of an
//! ignored margin, and the relation that an enabled event's hold-up names. Each
//! case worked by hand.

use crate::shop::*;
use second::HoldUpAnswer::{Blocked, Enabled, EnabledUnless, Excluded};
use second::MarginAnswer::{By, Ignored, Never, NotACondition};
use second::*;

fn events(count: usize) -> Vec<Class> {
    vec![CONTROLLED; count]
}

/// Of event 0 in a table of these relations and a marking of these records.
fn hold_up_of_0(relations: &[Relation], records: &[Record], expected: HoldUpAnswer) {
    let now = marking(records);
    both_ways(&events(records.len()), relations, |table| {
        assert_eq!(hold_up(table, &now, 0), expected, "{relations:?}\n{now:?}");
        let free = matches!(expected, Enabled | EnabledUnless(_));
        assert_eq!(enabled(table, &now, 0).enabled, free);
    });
}

/// Time, the right event if it were included, and the margin: never, or by
/// how much.
const MARGINS: [(u32, Option<u32>, Option<i32>); 16] = [
    (5, None, None),
    (0, None, None),
    (LIMIT, None, None),
    (5, Some(3), Some(-2)),
    (5, Some(4), Some(-1)),
    (5, Some(5), Some(0)),
    (5, Some(6), Some(1)),
    (5, Some(9), Some(4)),
    (0, Some(0), Some(0)),
    (0, Some(7), Some(7)),
    (0, Some(LIMIT), Some(1_000_000_000)),
    (LIMIT, Some(0), Some(-1_000_000_000)),
    (LIMIT, Some(LIMIT - 1), Some(-1)),
    (LIMIT, Some(LIMIT), Some(0)),
    (1, Some(LIMIT), Some(999_999_999)),
    (65_536, Some(65_535), Some(-1)),
];

#[test]
fn an_ignored_margin_tells_what_an_included_one_would() {
    for (time, age, by) in MARGINS {
        let right = age.map_or(included(), happened);
        let (in_place, away) = match by {
            None => (Never, Ignored(Rest::Never)),
            Some(by) => (By(by), Ignored(Rest::By(by))),
        };
        both_ways(&events(2), &[condition(0, 1, time)], |table| {
            let asked = |right| margin(table, &marking(&[included(), right]), 0);
            assert_eq!(asked(right), in_place, "{time} {age:?}");
            assert_eq!(asked(excluded(right)), away, "{time} {age:?}");
        });
    }
}

/// What right is pending for, how often it happened, left and the other events
/// play no part.
#[test]
fn only_the_age_counts_for_what_is_ignored() {
    let right = Record {
        happened: true,
        age: 4,
        count: 17,
        ..pending(0)
    };
    both_ways(&events(3), &[condition(0, 1, 5)], |table| {
        for left in [included(), excluded(included()), happened(9), pending(0)] {
            for third in [included(), excluded(happened(2))] {
                let asked = |right| margin(table, &marking(&[left, right, third]), 0);
                assert_eq!(asked(right), By(-1));
                assert_eq!(asked(excluded(right)), Ignored(Rest::By(-1)));
                assert_eq!(asked(excluded(pending(0))), Ignored(Rest::Never));
            }
        }
    });
}

/// It is a condition or it is not, whatever is excluded.
#[test]
fn no_other_relation_has_anything_ignored() {
    let others = [
        response(0, 1, 5),
        eventually(0, 1),
        includes(0, 1),
        excludes(0, 1),
        milestone(0, 1),
    ];
    both_ways(&events(2), &others, |table| {
        for right in [included(), happened(3), pending(0)] {
            for now in [right, excluded(right)] {
                let now = marking(&[included(), now]);
                for relation in 0..others.len() {
                    assert_eq!(margin(table, &now, relation), NotACondition);
                }
                assert_eq!(margin(table, &now, 5), MarginAnswer::Refused(8));
            }
        }
    });
}

/// Ages grow for excluded events also, so that what is ignored comes nearer.
#[test]
fn the_rest_grows_by_1_with_each_tick() {
    both_ways(&events(2), &[condition(0, 1, 2)], |table| {
        let mut now = marking(&[included(), excluded(happened(0))]);
        for by in [-2, -1, 0, 1, 2] {
            assert_eq!(margin(table, &now, 0), Ignored(Rest::By(by)));
            let named = if by < 0 { EnabledUnless(0) } else { Enabled };
            assert_eq!(hold_up(table, &now, 0), named);
            now = plain_tick(table, &now).marking;
        }
    });
}

/// What would block event 0 if event 1 came back, and what would not.
#[test]
fn each_thing_to_wait_for() {
    for (relation, right, would_block) in [
        (condition(0, 1, 0), included(), true),
        (condition(0, 1, 5), included(), true),
        (condition(0, 1, 5), pending(0), true),
        (condition(0, 1, 5), happened(0), true),
        (condition(0, 1, 5), happened(4), true),
        (condition(0, 1, 5), happened(5), false),
        (condition(0, 1, 5), happened(6), false),
        (condition(0, 1, 0), happened(0), false),
        (condition(0, 1, LIMIT), happened(LIMIT - 1), true),
        (condition(0, 1, LIMIT), happened(LIMIT), false),
        (milestone(0, 1), pending(0), true),
        (milestone(0, 1), pending(LIMIT), true),
        (milestone(0, 1), pending_eventually(), true),
        (milestone(0, 1), included(), false),
        (milestone(0, 1), happened(0), false),
        (response(0, 1, 5), pending(0), false),
        (eventually(0, 1), pending(0), false),
        (includes(0, 1), pending(0), false),
        (excludes(0, 1), pending(0), false),
        // Of another event, and with event 0 as right.
        (condition(1, 0, 5), included(), false),
        (milestone(1, 1), pending(0), false),
        (condition(1, 1, 5), included(), false),
    ] {
        let (in_place, away) = match would_block {
            true => (Blocked(0), EnabledUnless(0)),
            false => (Enabled, Enabled),
        };
        hold_up_of_0(&[relation], &[included(), right], in_place);
        hold_up_of_0(&[relation], &[included(), excluded(right)], away);
    }
}

/// By table order, whatever the kind and the event.
#[test]
fn the_lowest_that_would_block_is_named() {
    let never = excluded(included());
    let waits = excluded(happened(4));
    let due = excluded(pending(0));
    let records = [included(), never, waits, due];
    let (on_1, on_2, on_3) = (condition(0, 1, 0), condition(0, 2, 5), milestone(0, 3));
    for relations in [
        [on_1, on_2, on_3],
        [on_2, on_1, on_3],
        [on_3, on_1, on_2],
        [on_3, on_2, on_1],
        [on_2, on_3, on_1],
        [on_1, on_3, on_2],
    ] {
        hold_up_of_0(&relations, &records, EnabledUnless(0));
        // Behind relations that would not block: the kinds that cannot, one with
        // nothing left to wait for, and those of another event.
        let lower = [
            response(0, 1, 1),
            includes(0, 1),
            excludes(0, 1),
            milestone(0, 1),
            condition(0, 2, 4),
            condition(2, 1, 0),
            milestone(2, 3),
        ];
        let all = [&lower[..], &relations].concat();
        hold_up_of_0(&all, &records, EnabledUnless(7));
    }
}

/// The number is the relation's place in the table, up to the last.
#[test]
fn the_number_is_the_place_in_the_table() {
    let mut records = vec![happened(9); 64];
    records[63] = excluded(pending_eventually());
    for place in [0, 1, 7, 63, 64, 127, 128, 254, 255] {
        let mut relations = vec![condition(0, 5, 9); 256];
        relations[place] = milestone(0, 63);
        hold_up_of_0(&relations, &records, EnabledUnless(place));
    }
    hold_up_of_0(&vec![condition(0, 5, 9); 256], &records, Enabled);
}

/// The same right event, and one relation of two that waits for it.
#[test]
fn two_relations_with_one_right_event() {
    let short = condition(0, 1, 2);
    let long = condition(0, 1, 7);
    let records = [included(), excluded(happened(4))];
    hold_up_of_0(&[short, long], &records, EnabledUnless(1));
    hold_up_of_0(&[long, short], &records, EnabledUnless(0));
    hold_up_of_0(&[short, milestone(0, 1)], &records, Enabled);
    let pending_too = Record {
        happened: true,
        age: 4,
        count: 1,
        ..pending(3)
    };
    let records = [included(), excluded(pending_too)];
    hold_up_of_0(&[short, milestone(0, 1)], &records, EnabledUnless(1));
}

/// A lower relation that is ignored is not named for a blocked event.
#[test]
fn a_blocked_event_is_told_what_blocks_it() {
    let away = excluded(included());
    let relations = [condition(0, 1, 0), condition(0, 2, 5), condition(0, 3, 0)];
    hold_up_of_0(
        &relations,
        &[included(), away, included(), away],
        Blocked(1),
    );
    hold_up_of_0(
        &relations,
        &[included(), away, happened(4), away],
        Blocked(1),
    );
    hold_up_of_0(
        &relations,
        &[included(), away, happened(5), away],
        EnabledUnless(0),
    );
    let at_last = [milestone(0, 1), milestone(0, 2)];
    let due = excluded(pending(0));
    hold_up_of_0(&at_last, &[included(), due, pending(0)], Blocked(1));
}

#[test]
fn an_excluded_event_is_told_only_that() {
    for relation in [
        condition(0, 1, 0),
        milestone(0, 1),
        condition(0, 0, 5),
        milestone(0, 0),
    ] {
        for right in [included(), pending(0), excluded(pending(0))] {
            let records = [excluded(pending(0)), right];
            hold_up_of_0(&[relation], &records, Excluded);
        }
    }
}

/// A relation whose right event is included has nothing more to say.
#[test]
fn what_is_included_is_not_named() {
    let relations = [condition(0, 1, 5), milestone(0, 2), condition(0, 3, 0)];
    let away = excluded(included());
    hold_up_of_0(
        &relations,
        &[included(), happened(5), included(), happened(0)],
        Enabled,
    );
    hold_up_of_0(
        &relations,
        &[included(), happened(5), included(), away],
        EnabledUnless(2),
    );
}

/// An enabled event is included, so a relation to itself is never ignored.
#[test]
fn a_relation_to_itself_is_not_named() {
    let away = excluded(included());
    let own = [condition(0, 0, 2), milestone(0, 0)];
    hold_up_of_0(&own, &[happened(2)], Enabled);
    hold_up_of_0(&own, &[happened(1)], Blocked(0));
    hold_up_of_0(&own, &[included()], Blocked(0));
    hold_up_of_0(&own, &[pending(0)], Blocked(0));
    hold_up_of_0(&own[1..], &[pending(0)], Blocked(0));
    let and_another = [own[0], own[1], condition(0, 1, 0)];
    hold_up_of_0(&and_another, &[happened(2), away], EnabledUnless(2));
    // The margin of an excluded event's condition on itself is ignored.
    both_ways(&events(1), &own, |table| {
        let asked = |record| margin(table, &marking(&[record]), 0);
        assert_eq!(asked(excluded(included())), Ignored(Rest::Never));
        assert_eq!(asked(excluded(happened(1))), Ignored(Rest::By(-1)));
        assert_eq!(asked(happened(1)), By(-1));
    });
}

/// Only the right event comes back: what blocks that one, or would, and what else
/// is excluded, does not count.
#[test]
fn nothing_further_down_is_looked_at() {
    let relations = [condition(1, 2, 0), condition(0, 1, 3), milestone(2, 1)];
    let away = excluded(included());
    let held = excluded(happened(3));
    hold_up_of_0(&relations, &[included(), held, included()], Enabled);
    hold_up_of_0(&relations, &[included(), held, away], Enabled);
    // Nor does it come back with an effect: event 1 would have to happen.
    let answers = [condition(0, 1, 3), excludes(1, 0), response(1, 0, 1)];
    hold_up_of_0(&answers, &[included(), held], Enabled);
}

/// One event at a time comes back. Were all to come back at once, the relation
/// that then blocks first would be the same, since each looks at its own right
/// event only; but the event would be blocked, and is not.
#[test]
fn one_at_a_time() {
    let relations = [condition(0, 1, 2), milestone(0, 2), condition(0, 3, 0)];
    for (rights, named) in [
        ([happened(2), pending(0), included()], Some(1)),
        ([happened(1), pending(0), included()], Some(0)),
        ([happened(2), included(), included()], Some(2)),
        ([happened(2), included(), happened(0)], None),
    ] {
        let all = [included(), rights[0], rights[1], rights[2]];
        let away = [
            included(),
            excluded(rights[0]),
            excluded(rights[1]),
            excluded(rights[2]),
        ];
        hold_up_of_0(&relations, &all, named.map_or(Enabled, Blocked));
        hold_up_of_0(&relations, &away, named.map_or(Enabled, EnabledUnless));
        // With the one that is named in its place, it blocks.
        if let Some(number) = named {
            let mut one = away;
            one[number + 1].included = true;
            hold_up_of_0(&relations, &one, Blocked(number));
        }
    }
}

/// Places past the counts are not looked at.
#[test]
fn unused_places_name_nothing() {
    let mut strange = table(&events(2), &[condition(0, 1, 0)]);
    strange.relations[1] = milestone(0, 1);
    strange.relations[2] = condition(0, 2, 5);
    let mut now = marking(&[included(), excluded(happened(0))]);
    now.records[2] = excluded(pending(0));
    assert_eq!(hold_up(&strange, &now, 0), Enabled);
    now.records[1] = excluded(pending(0));
    assert_eq!(hold_up(&strange, &now, 0), EnabledUnless(0));
    assert_eq!(margin(&strange, &now, 0), Ignored(Rest::Never));
    assert_eq!(margin(&strange, &now, 2), MarginAnswer::Refused(8));
}

/// What is named holds nothing up: not the event that happens, not the one that a
/// guarded tick causes or a list tries.
#[test]
fn what_is_named_changes_nothing_else() {
    let relations = [milestone(0, 1), condition(0, 2, 9)];
    let now = marking(&[pending(0), excluded(pending(0)), excluded(included())]);
    both_ways(&events(3), &relations, |table| {
        assert_eq!(hold_up(table, &now, 0), EnabledUnless(0));
        assert!(enabled(table, &now, 0).enabled);
        assert_eq!(marking_after(table, &now, 0).records[0], happened(0));
        assert_eq!(remedies(table, &now, &[0], &[]).length, 1);
        assert_eq!(due(table, &now).set, set(&[0]));
        // The check goes by inhibitors, excluded or not.
        assert_eq!(check(table, &now), rejected(3, 1));
    });
    // Event 2 would be needed if event 1 were.
    let chain = [milestone(0, 1), condition(1, 2, 0)];
    let in_place = marking(&[pending(0), excluded(pending(0)), included()]);
    both_ways(&events(3), &chain, |table| {
        assert_eq!(hold_up(table, &in_place, 0), EnabledUnless(0));
        let answer = guarded_tick(table, &in_place);
        assert_eq!((answer.number, caused(&answer)), (0, vec![0]));
    });
}

/// P, with isolate away: after leak the drain blocks, and then nothing does, but
/// isolate would.
#[test]
fn p_with_isolate_away() {
    for_p(|p| {
        let mut start = p_start();
        start.records[ISOLATE].included = false;
        assert_eq!(hold_up(p, &start, FLUSH), Excluded);
        assert_eq!(margin(p, &start, 1), Ignored(Rest::Never));
        let now = marking_after(p, &start, LEAK);
        assert_eq!(hold_up(p, &now, FLUSH), Blocked(4));
        let now = marking_after(p, &now, DRAIN);
        assert_eq!(hold_up(p, &now, FLUSH), EnabledUnless(1));
        assert_eq!(margin(p, &now, 1), Ignored(Rest::Never));
        // Were it back, it would block; had it happened, it would not.
        let mut back = now;
        back.records[ISOLATE].included = true;
        assert_eq!(hold_up(p, &back, FLUSH), Blocked(1));
        let mut done = now;
        done.records[ISOLATE] = excluded(happened(2));
        assert_eq!(hold_up(p, &done, FLUSH), Enabled);
        assert_eq!(margin(p, &done, 1), Ignored(Rest::By(2)));
        assert_eq!(happen(p, &now, FLUSH).number, 0);
    });
}

/// P as it is: nothing is named, since flush is right of no condition and of no
/// milestone.
#[test]
fn p_names_nothing() {
    for_p(|p| {
        let start = p_start();
        for event in [LEAK, ISOLATE, STANDBY, DRAIN] {
            assert_eq!(hold_up(p, &start, event), Enabled);
        }
        assert_eq!(hold_up(p, &start, FLUSH), Excluded);
        assert_eq!(margin(p, &start, 1), Never);
        for relation in [0, 2, 3, 4, 5] {
            assert_eq!(margin(p, &start, relation), NotACondition);
        }
    });
}

/// P and isolate condition flush 0: the flush that is away would hold isolate up
/// until it has happened.
#[test]
fn p_and_isolate_waits_for_flush() {
    for_p_and(condition(ISOLATE, FLUSH, 0), |table| {
        let now = p_start();
        assert_eq!(hold_up(table, &now, ISOLATE), EnabledUnless(6));
        assert_eq!(margin(table, &now, 6), Ignored(Rest::Never));
        let leaked = marking_after(table, &now, LEAK);
        assert_eq!(hold_up(table, &leaked, ISOLATE), Blocked(6));
        assert_eq!(margin(table, &leaked, 6), Never);
        let away = marking_after(table, &leaked, STANDBY);
        assert_eq!(hold_up(table, &away, ISOLATE), EnabledUnless(6));
        assert_eq!(happen(table, &away, ISOLATE).number, 0);
    });
}

/// P and isolate milestone flush: away, but still to be done.
#[test]
fn p_and_isolate_has_flush_as_milestone() {
    for_p_and(milestone(ISOLATE, FLUSH), |table| {
        assert_eq!(hold_up(table, &p_start(), ISOLATE), Enabled);
        let leaked = marking_after(table, &p_start(), LEAK);
        assert_eq!(hold_up(table, &leaked, ISOLATE), Blocked(6));
        let away = marking_after(table, &leaked, STANDBY);
        assert_eq!(away.records[FLUSH], excluded(pending(3)));
        assert_eq!(hold_up(table, &away, ISOLATE), EnabledUnless(6));
        let back = marking_after(table, &away, LEAK);
        assert_eq!(hold_up(table, &back, ISOLATE), Blocked(6));
    });
}

/// The margins of the paper's example, with the right event away.
#[test]
fn the_margins_of_the_paper_with_right_away() {
    both_ways(&events(2), &[condition(0, 1, 5)], |table| {
        for (age, by) in [(3, -2), (5, 0), (9, 4)] {
            let now = marking(&[included(), excluded(happened(age))]);
            assert_eq!(margin(table, &now, 0), Ignored(Rest::By(by)));
        }
    });
}

/// What is refused is refused as before, be the right event away or not.
#[test]
fn refusals_come_first() {
    let table = table(&events(2), &[condition(0, 1, 5)]);
    let now = marking(&[included(), excluded(included())]);
    assert_eq!(hold_up(&table, &now, 0), EnabledUnless(0));
    assert_eq!(hold_up(&table, &now, 2), HoldUpAnswer::Refused(8));
    assert_eq!(margin(&table, &now, 1), MarginAnswer::Refused(8));
    let wrong = Record {
        age: 1,
        ..excluded(included())
    };
    let wrong = marking(&[included(), wrong]);
    assert_eq!(hold_up(&table, &wrong, 0), HoldUpAnswer::Refused(7));
    assert_eq!(margin(&table, &wrong, 0), MarginAnswer::Refused(7));
    let late = crate::shop::table(&events(2), &[condition(0, 1, LIMIT + 1)]);
    assert_eq!(hold_up(&late, &now, 0), HoldUpAnswer::Refused(6));
    assert_eq!(margin(&late, &now, 0), MarginAnswer::Refused(6));
}
