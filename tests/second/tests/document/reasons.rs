//! The reasons of the static check, and the sets it works on.

use crate::shop::*;
use second::*;

fn outcome(table: &Table, marking: &Marking) -> CheckAnswer {
    let answer = check(table, marking);
    // The guarded tick is refused with the same words.
    let guarded = guarded_tick(table, marking);
    assert_eq!(
        (guarded.number, guarded.reason, guarded.place),
        (answer.number, answer.reason, answer.place)
    );
    if answer.number != 0 {
        assert_eq!(guarded.marking, *marking);
        assert_eq!((guarded.count, guarded.caused), (0, [0; 64]));
    }
    answer
}

#[test]
fn reason_1_an_uncontrollable_event_can_be_stopped() {
    let classes = [CONTROLLED, UNCONTROLLED, UNCONTROLLED];
    let start = fresh_marking(3);
    assert_eq!(outcome(&table(&classes, &[]), &start), ACCEPTED);

    let mut shut_out = start;
    shut_out.records[2].included = false;
    assert_eq!(outcome(&table(&classes, &[]), &shut_out), rejected(1, 2));

    for relation in [
        excludes(0, 1),
        condition(1, 0, 0),
        condition(1, 1, 0),
        milestone(1, 0),
    ] {
        assert_eq!(
            outcome(&table(&classes, &[relation]), &start),
            rejected(1, 1)
        );
        // The lowest event counts, not the first relation.
        let relations = [excludes(0, 2), relation];
        assert_eq!(
            outcome(&table(&classes, &relations), &start),
            rejected(1, 1)
        );
    }
    for relation in [includes(0, 1), response(1, 0, 1), condition(0, 1, 3)] {
        assert_eq!(outcome(&table(&classes, &[relation]), &start), ACCEPTED);
    }
}

#[test]
fn reason_2_a_closure_event_is_not_causable() {
    let classes = [CONTROLLED, CONTROLLABLE_ONLY, CONTROLLABLE_ONLY];
    let start = fresh_marking(3);
    assert_eq!(
        outcome(&table(&classes, &[condition(0, 2, 0)]), &start),
        ACCEPTED
    );
    assert_eq!(
        outcome(
            &table(&classes, &[condition(0, 2, 0), response(1, 0, 5)]),
            &start
        ),
        rejected(2, 2)
    );
    // "Eventually" makes nothing busy, in the table or in the marking.
    assert_eq!(
        outcome(&table(&classes, &[eventually(0, 1)]), &start),
        ACCEPTED
    );
    let open = marking(&[included(), pending_eventually(), included()]);
    assert_eq!(outcome(&table(&classes, &[]), &open), ACCEPTED);
    // An excluded event with a bounded deadline is busy.
    let shut_out = marking(&[included(), excluded(pending(7)), included()]);
    assert_eq!(outcome(&table(&classes, &[]), &shut_out), rejected(2, 1));
}

#[test]
fn reason_3_a_condition_in_the_closure_takes_time() {
    let classes = [CONTROLLED; 3];
    let relations = [
        condition(2, 1, 9),
        condition(0, 1, 0),
        condition(0, 1, 1),
        condition(0, 2, 1),
    ];
    assert_eq!(
        outcome(&table(&classes, &relations[..3]), &fresh_marking(3)),
        ACCEPTED
    );
    let busy = marking(&[pending(4), included(), included()]);
    assert_eq!(outcome(&table(&classes, &relations[..2]), &busy), ACCEPTED);
    assert_eq!(
        outcome(&table(&classes, &relations[..3]), &busy),
        rejected(3, 2)
    );
    // With event 2 in the closure too, relation 0 is the lowest.
    assert_eq!(outcome(&table(&classes, &relations), &busy), rejected(3, 0));
}

#[test]
fn reason_4_inhibition_has_a_cycle() {
    let classes = [CONTROLLED; 5];
    let cycle = [
        condition(4, 2, 0),
        milestone(2, 3),
        condition(3, 2, 0),
        milestone(1, 4),
    ];
    assert_eq!(
        outcome(&table(&classes, &cycle), &fresh_marking(5)),
        ACCEPTED
    );
    // Event 1 only leads to the cycle of 2 and 3.
    let mut busy = fresh_marking(5);
    busy.records[1] = pending(1);
    assert_eq!(outcome(&table(&classes, &cycle), &busy), rejected(4, 2));

    for itself in [condition(3, 3, 0), milestone(3, 3)] {
        let mut busy = fresh_marking(5);
        busy.records[3] = pending(1);
        assert_eq!(outcome(&table(&classes, &[itself]), &busy), rejected(4, 3));
    }
}

#[test]
fn reason_5_a_closure_event_has_a_milestone_as_response() {
    let classes = [CONTROLLED; 4];
    let busy = marking(&[pending(1), included(), included(), included()]);
    let relations = [milestone(0, 1), eventually(2, 1), response(0, 3, 1)];
    // Event 2 is outside the closure.
    assert_eq!(outcome(&table(&classes, &relations), &busy), ACCEPTED);
    for added in [eventually(3, 1), response(3, 1, 2), eventually(1, 1)] {
        let mut relations = relations.to_vec();
        relations.push(added);
        assert_eq!(outcome(&table(&classes, &relations), &busy), rejected(5, 3));
    }
    // A milestone of an event outside the closure does not count.
    let elsewhere = [milestone(2, 1), eventually(0, 1)];
    assert_eq!(outcome(&table(&classes, &elsewhere), &busy), ACCEPTED);
}

#[test]
fn reason_6_a_closure_event_includes_another() {
    let classes = [CONTROLLED; 3];
    let busy = marking(&[pending(1), excluded(pending(0)), included()]);
    let harmless = [includes(0, 0), includes(2, 1), includes(1, 2)];
    assert_eq!(outcome(&table(&classes, &harmless), &busy), ACCEPTED);
    let mut relations = harmless.to_vec();
    relations.push(includes(0, 1));
    assert_eq!(outcome(&table(&classes, &relations), &busy), rejected(6, 3));
}

/// Each reason is given although all later ones apply as well.
#[test]
fn the_lowest_reason_counts() {
    let classes = [UNCONTROLLED, CONTROLLED, CONTROLLABLE_ONLY, CONTROLLED];
    let busy = marking(&[included(), pending(5), included(), included()]);
    let one = excludes(1, 0);
    let two = response(1, 2, 1);
    let three = condition(1, 3, 1);
    let four = milestone(3, 3);
    let five = [milestone(1, 3), eventually(1, 3)];
    let six = includes(1, 3);
    let cases = [
        (vec![six, five[1], five[0], four, three, two, one], (1, 0)),
        (vec![six, five[1], five[0], four, three, two], (2, 2)),
        (vec![six, five[1], five[0], four, three], (3, 4)),
        (vec![six, five[1], five[0], four], (4, 3)),
        (vec![six, five[1], five[0]], (5, 1)),
        (vec![six, five[0]], (6, 0)),
    ];
    for (relations, (reason, place)) in cases {
        assert_eq!(
            outcome(&table(&classes, &relations), &busy),
            rejected(reason, place)
        );
    }
}

#[test]
fn needed_inhibitors_go_first_even_when_they_do_not_block() {
    // Both are due. Event 1 has happened, so it does not block event 0.
    let table = table(&[CONTROLLED; 2], &[condition(0, 1, 0)]);
    let event_1 = Record {
        happened: true,
        age: 8,
        count: 1,
        ..pending(0)
    };
    let answer = guarded_tick(&table, &marking(&[pending(0), event_1]));
    assert_eq!(caused(&answer), [1, 0]);
}

#[test]
fn excluded_or_satisfied_inhibitors_are_not_needed() {
    let table = table(
        &[CONTROLLED; 5],
        &[
            condition(0, 1, 0),
            condition(0, 2, 0),
            milestone(0, 3),
            milestone(0, 4),
        ],
    );
    let now = marking(&[
        pending(0),
        excluded(included()),
        happened(0),
        excluded(pending_eventually()),
        included(),
    ]);
    let answer = guarded_tick(&table, &now);
    assert_eq!(caused(&answer), [0]);
}

#[test]
fn a_chain_of_inhibitors_is_caused_from_its_end() {
    let table = table(
        &[CONTROLLED; 4],
        &[condition(0, 3, 0), milestone(3, 1), condition(1, 2, 0)],
    );
    let now = marking(&[pending(0), pending_eventually(), included(), included()]);
    let answer = guarded_tick(&table, &now);
    assert_eq!(caused(&answer), [2, 1, 3, 0]);
}
