//! Closures worked by hand: the set and how many events it holds.

use crate::shop::*;
use second::*;

fn holds(events: &[usize]) -> ClosureAnswer {
    ClosureAnswer {
        number: 0,
        set: set(events),
        size: events.len() as u32,
    }
}

#[test]
fn nothing_busy_holds_nothing() {
    // "Eventually" makes no event busy, neither by response nor in the marking.
    let relations = [eventually(0, 1), condition(1, 0, 0), milestone(1, 2)];
    both_ways(&[CONTROLLED; 3], &relations, |table| {
        let now = marking(&[happened(5), pending_eventually(), included()]);
        assert_eq!(closure(table, &now), holds(&[]));
    });
}

#[test]
fn a_bounded_pending_event_is_busy_included_or_not() {
    both_ways(&[CONTROLLED; 3], &[condition(2, 0, 0)], |table| {
        for record in [pending(0), pending(LIMIT), excluded(pending(7))] {
            let now = marking(&[included(), included(), record]);
            assert_eq!(closure(table, &now), holds(&[0, 2]));
        }
    });
}

#[test]
fn an_event_reached_twice_is_counted_once() {
    // Busy by response, by the marking, and an inhibitor of two events, one of
    // them itself.
    let relations = [
        response(0, 1, 3),
        response(2, 1, 9),
        condition(1, 1, 0),
        condition(1, 3, 0),
        milestone(3, 1),
    ];
    both_ways(&[CONTROLLED; 4], &relations, |table| {
        let now = marking(&[included(), pending(2), included(), included()]);
        assert_eq!(closure(table, &now), holds(&[1, 3]));
    });
}

#[test]
fn a_chain_is_followed_to_its_end() {
    // 0 is busy; each event has the next one as inhibitor, against table order.
    let relations: Vec<Relation> = (0..63)
        .rev()
        .map(|event| condition(event, event + 1, 0))
        .collect();
    both_ways(&[CONTROLLED; 64], &relations, |table| {
        let mut now = fresh_marking(64);
        assert_eq!(closure(table, &now), holds(&[]));
        now.records[63] = pending(1);
        assert_eq!(closure(table, &now), holds(&[63]));
        now.records[40] = pending(1);
        assert_eq!(closure(table, &now).size, 24);
        now.records[0] = pending(1);
        assert_eq!(
            closure(table, &now),
            ClosureAnswer {
                number: 0,
                set: u64::MAX,
                size: 64,
            }
        );
    });
}

#[test]
fn p_holds_three_events_in_every_example_marking() {
    for_p(|p| {
        let leaked = marking_after(p, &p_start(), LEAK);
        for now in [p_start(), leaked, p_flush_due(p)] {
            assert_eq!(closure(p, &now), holds(&[FLUSH, ISOLATE, DRAIN]));
        }
        // Standby pending and bounded makes a fourth.
        let mut now = p_start();
        now.records[STANDBY] = pending(4);
        assert_eq!(closure(p, &now), holds(&[FLUSH, ISOLATE, STANDBY, DRAIN]));
    });
}
