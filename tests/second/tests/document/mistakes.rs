//! The mistakes that look reasonable, each on a table where the mistake would
//! give another answer.

use crate::shop::*;
use second::*;

/// The preferred list executes events 1 and 3 and discharges nothing. Were it
/// tried in the live marking and only event 3 put back, event 1 would still
/// count as happened and the fallback's lone 0 would discharge.
#[test]
fn trying_a_list_leaves_no_trace() {
    let table = table(&[CONTROLLED; 4], &[condition(0, 1, 0), condition(2, 0, 0)]);
    let now = marking(&[pending(0), included(), included(), included()]);
    let handed_in = now;
    // The second list also ends at an event that is not enabled.
    for preferred in [&[1, 3][..], &[1, 3, 2]] {
        assert_eq!(
            remedies(&table, &now, preferred, &[0]),
            RemedyAnswer {
                number: 13,
                from_fallback: false,
                length: 0,
            }
        );
        assert_eq!(now, handed_in);
        assert_eq!(
            remedies(&table, &now, preferred, &[1, 0]),
            RemedyAnswer {
                number: 0,
                from_fallback: true,
                length: 2,
            }
        );
    }
}

#[test]
fn an_excluded_event_counts_down_and_at_0_does_not_stop_time() {
    let table = table(&[CONTROLLED; 2], &[]);
    let mut now = marking(&[excluded(pending(2)), included()]);
    for deadline in [1, 0, 0, 0] {
        let answer = plain_tick(&table, &now);
        assert_eq!(answer.number, 0);
        assert_eq!(answer.marking.records[0], excluded(pending(deadline)));
        assert_eq!(due(&table, &answer.marking).set, 0);
        now = answer.marking;
    }
    // Nor does a guarded tick cause it.
    assert_eq!(caused(&guarded_tick(&table, &now)), []);
}

#[test]
fn a_response_to_itself_is_kept() {
    let table = table(&[CONTROLLED], &[response(0, 0, 4)]);
    let after = happen(&table, &fresh_marking(1), 0).marking;
    let expected = Record {
        happened: true,
        count: 1,
        ..pending(4)
    };
    assert_eq!(after.records[0], expected);
    // Also when the old duty is replaced by the new one.
    let after = happen(&table, &marking(&[pending(0)]), 0).marking;
    assert_eq!(after.records[0], expected);
}

/// Of tables that are not firm: in a firm one the smaller is kept.
#[test]
fn a_new_deadline_replaces_a_smaller_one() {
    let classes = [CONTROLLED; 2];
    let now = marking(&[included(), pending(2)]);
    let later = table(&classes, &[response(0, 1, 9)]);
    assert_eq!(happen(&later, &now, 0).marking.records[1], pending(9));
    let open = table(&classes, &[eventually(0, 1)]);
    let after = marking_after(&open, &now, 0);
    assert_eq!(after.records[1], pending_eventually());
    // Among the new ones the smallest counts, "eventually" being largest.
    let several = table(
        &classes,
        &[eventually(0, 1), response(0, 1, 9), response(0, 1, 7)],
    );
    assert_eq!(happen(&several, &now, 0).marking.records[1], pending(7));
}

#[test]
fn a_needed_event_that_an_earlier_one_excluded_is_skipped() {
    let table = table(&[CONTROLLED; 2], &[excludes(0, 1), excludes(1, 0)]);
    let now = marking(&[pending(0), pending(0)]);
    let answer = guarded_tick(&table, &now);
    assert_eq!(answer.number, 0);
    assert_eq!(caused(&answer), [0]);
    assert_eq!(answer.marking.records[0], happened(1));
    assert_eq!(answer.marking.records[1], excluded(pending(0)));
}
