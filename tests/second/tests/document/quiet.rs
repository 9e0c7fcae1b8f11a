//! Quiet ticks: how many guarded ticks can pass before one finds an event due. Each case
//! worked by hand.

use crate::shop::*;
use second::*;

const MILLION: u64 = 1_000_000;

fn events(count: usize) -> Vec<Class> {
    vec![CONTROLLED; count]
}

fn quiet_ticks(table: &Table, now: &Marking) -> u64 {
    let answer = quiet(table, now);
    assert_eq!(answer.number, 0);
    answer.ticks
}

/// In a table of these relations, firm or not, so many from these records.
fn is_quiet(relations: &[Relation], records: &[Record], ticks: u64) {
    let now = marking(records);
    let ask = |table: &Table| assert_eq!(quiet_ticks(table, &now), ticks, "{records:?}");
    both_ways(&events(records.len()), relations, ask);
    firm_both_ways(&events(records.len()), relations, ask);
}

/// A sleep that is done: how much it causes, and the marking then.
fn slept(table: &Table, now: &Marking, ticks: u64) -> (usize, Marking) {
    let answer = sleep(table, now, ticks, &mut [0; 500]);
    assert_eq!(answer.number, 0);
    (answer.count, answer.marking)
}

#[test]
fn p_after_leak_3() {
    for_p(|p| {
        let mut now = marking_after(p, &p_start(), LEAK);
        for left in [3, 2, 1] {
            assert_eq!(quiet_ticks(p, &now), left);
            now = quiet_guarded_ticks(p, &now, 1);
        }
        assert_eq!(quiet_ticks(p, &now), 0);
        let (caused, end) = slept(p, &now, 1);
        assert_eq!(caused, 3);
        assert_eq!(quiet_ticks(p, &end), MILLION);
    });
}

/// Before any leak no date runs; after standby that of flush does, which is excluded.
#[test]
fn p_at_the_start_and_after_standby() {
    for_p(|p| {
        assert_eq!(quiet_ticks(p, &p_start()), MILLION);
        let leaked = marking_after(p, &p_start(), LEAK);
        for now in [leaked, p_flush_due(p)] {
            let away = marking_after(p, &now, STANDBY);
            assert_eq!(quiet_ticks(p, &away), MILLION);
            let again = marking_after(p, &away, LEAK);
            assert_eq!(quiet_ticks(p, &again), 3);
        }
    });
}

/// "Before one finds an event due": the one after them does.
#[test]
fn one_event_and_its_deadline() {
    for deadline in [0, 1, 2, 3, 100, 65_535, 65_536, 999_998, 999_999] {
        is_quiet(&[], &[pending(deadline)], deadline.into());
    }
}

/// "1,000,000 where there are that many."
#[test]
fn a_date_beyond_the_longest_sleep() {
    for deadline in [1_000_000, 1_000_001, 2_000_000, 16_777_216, LIMIT] {
        is_quiet(&[], &[pending(deadline)], MILLION);
        is_quiet(&[], &[excluded(pending(0)), pending(deadline)], MILLION);
    }
}

/// "Or no deadline of an included event runs."
#[test]
fn nothing_to_fall_due() {
    let away = [excluded(pending(0)), excluded(pending(1))];
    for one in [included(), happened(5), pending_eventually(), away[0]] {
        is_quiet(&[], &[one], MILLION);
        for other in [included(), pending_eventually(), away[0], away[1]] {
            is_quiet(&[], &[one, other], MILLION);
        }
    }
}

/// "0 where an event is due now."
#[test]
fn due_now() {
    for other in [included(), pending(4), pending_eventually(), pending(0)] {
        is_quiet(&[], &[pending(0), other], 0);
        is_quiet(&[], &[other, pending(0)], 0);
    }
}

/// The first that falls due, wherever it stands.
#[test]
fn several_deadlines() {
    let records = [pending(7), pending(2), included(), pending(5)];
    for turn in 0..4 {
        let mut records = records;
        records.rotate_left(turn);
        is_quiet(&[], &records, 2);
    }
    is_quiet(
        &[],
        &[pending(LIMIT), pending(999_999), pending(LIMIT)],
        999_999,
    );
}

/// An excluded date does not count, be it sooner or later.
#[test]
fn excluded_dates() {
    for deadline in [0, 1, 4, 5, 6, LIMIT] {
        is_quiet(&[], &[excluded(pending(deadline)), pending(5)], 5);
        is_quiet(&[], &[pending(5), excluded(pending(deadline))], 5);
    }
}

/// Due is due, though something stands in the event's way; and what its date will lead
/// to does not matter.
#[test]
fn relations_do_not_matter() {
    let relations = [
        condition(0, 1, 0),
        milestone(0, 2),
        response(0, 0, 1),
        response(1, 0, 2),
        excludes(2, 0),
    ];
    let records = [pending(6), included(), pending_eventually()];
    is_quiet(&relations, &records, 6);
    is_quiet(
        &relations,
        &[pending(0), included(), pending_eventually()],
        0,
    );
    is_quiet(&relations, &[happened(1), included(), included()], MILLION);
}

/// The check is not asked: what it rejects is answered, too.
#[test]
fn the_check_is_not_asked() {
    for deadline in [0, 1, 9, LIMIT] {
        let now = marking(&[included(), pending(deadline)]);
        for table in [
            table(&[CONTROLLABLE_ONLY; 2], &[]),
            table(&events(2), &[condition(1, 0, 3)]),
            table(&events(2), &[condition(1, 0, 0), milestone(0, 1)]),
        ] {
            assert_eq!(check(&table, &now).number, 12);
            assert_eq!(quiet_ticks(&table, &now), MILLION.min(deadline.into()));
        }
    }
}

/// Its refusals are the reader's alone, the table's first.
#[test]
fn what_is_refused() {
    let refused = |table: &Table, now: &Marking, number| {
        assert_eq!(quiet(table, now), TicksAnswer { number, ticks: 0 });
    };
    let good = table(&events(2), &[]);
    let wrong = marking(&[pending(0), pending(LIMIT + 1)]);
    refused(&good, &wrong, 7);
    refused(&good, &fresh_marking(3), 1);
    for now in [wrong, fresh_marking(3), marking(&[pending(0), included()])] {
        refused(&NO_TABLE, &now, 3);
        refused(&table(&events(2), &[NO_RELATION]), &now, 4);
        refused(&table(&events(2), &[condition(0, 2, 0)]), &now, 5);
        refused(&table(&events(2), &[condition(0, 1, LIMIT + 1)]), &now, 6);
    }
}

#[test]
fn unused_places_are_not_looked_at() {
    let mut strange = table(&events(2), &[]);
    strange.relations[0] = response(0, 1, 1);
    let mut now = marking(&[pending(4), included()]);
    now.records[2] = pending(0);
    now.records[63] = pending(3);
    assert_eq!(quiet_ticks(&strange, &now), 4);
    now.records[0] = included();
    assert_eq!(quiet_ticks(&strange, &now), MILLION);
}

/// Tables that the check accepts and markings from which it is quiet for a while.
fn nights() -> Vec<(Table, Marking, u64)> {
    let relations = [
        response(0, 0, 4),
        condition(0, 1, 0),
        response(0, 2, 5),
        excludes(2, 3),
        response(3, 3, 1),
    ];
    let plain = table(&events(4), &relations);
    let mut nights = Vec::new();
    for (records, ticks) in [
        (
            [pending(6), excluded(pending(2)), included(), pending(9)],
            6,
        ),
        ([pending(0), included(), pending(40), pending(9)], 0),
        ([included(), included(), pending(40), pending(41)], 40),
        (
            [pending(1), pending(2), pending_eventually(), included()],
            1,
        ),
    ] {
        nights.push((plain, marking(&records), ticks));
        nights.push((firm(&plain), marking(&records), ticks));
    }
    nights
}

/// "Where the check accepts, sleeping any number of ticks up to it causes nothing."
#[test]
fn sleeping_so_many_ticks_causes_nothing() {
    for (table, now, ticks) in nights() {
        assert_eq!(check(&table, &now), ACCEPTED);
        assert_eq!(quiet_ticks(&table, &now), ticks);
        for less in 0..=ticks {
            let (caused, end) = slept(&table, &now, less);
            assert_eq!(caused, 0);
            // And so many are left.
            assert_eq!(quiet_ticks(&table, &end), ticks - less);
        }
    }
}

/// "Where it is below 1,000,000, an event is due after so many ticks", and the next one
/// is preceded by it.
#[test]
fn an_event_is_due_then() {
    for (table, now, ticks) in nights() {
        let (_, end) = slept(&table, &now, ticks);
        assert_ne!(due(&table, &end).set, 0);
        let (caused, _) = slept(&table, &now, ticks + 1);
        assert!(caused > 0);
        for less in 0..ticks {
            let (_, before) = slept(&table, &now, less);
            assert_eq!(due(&table, &before).set, 0);
        }
    }
}

/// As many plain ticks are granted, whatever the check says, and then there is an 11.
#[test]
fn so_many_plain_ticks() {
    let rejects = table(&[CONTROLLABLE_ONLY; 3], &[]);
    for deadline in [0, 1, 2, 60, 3000] {
        let records = [pending(deadline), excluded(pending(1)), pending(4000)];
        let mut now = marking(&records);
        for left in (1..=deadline).rev() {
            assert_eq!(quiet_ticks(&rejects, &now), left.into());
            let answer = plain_tick(&rejects, &now);
            assert_eq!(answer.number, 0);
            now = answer.marking;
        }
        assert_eq!(quiet_ticks(&rejects, &now), 0);
        assert_eq!(plain_tick(&rejects, &now).number, 11);
    }
}

/// A million single ticks, none of which finds an event due.
#[test]
fn a_million_ticks() {
    let table = table(&events(2), &[]);
    for deadline in [1_000_000, 1_000_001] {
        let now = marking(&[pending(deadline), excluded(pending(3))]);
        assert_eq!(quiet_ticks(&table, &now), MILLION);
        let (caused, end) = slept(&table, &now, MILLION);
        assert_eq!(caused, 0);
        assert_eq!(quiet_ticks(&table, &end), u64::from(deadline) - MILLION);
    }
}
