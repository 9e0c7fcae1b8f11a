//! How often each event was executed: what adds to a count, what does not, and
//! the hold.

use crate::shop::*;
use second::*;

const HOLD: u32 = 4_294_967_295;

/// The counts of a marking's events.
fn counts(marking: &Marking) -> Vec<u32> {
    let records = &marking.records[..marking.events];
    records.iter().map(|record| record.count).collect()
}

/// A count before an execution, and after it.
const BY_ONE: [(u32, u32); 7] = [
    (0, 1),
    (1, 2),
    (255, 256),
    (65_535, 65_536),
    (2_147_483_647, 2_147_483_648),
    (HOLD - 1, HOLD),
    (HOLD, HOLD),
];

/// Included, with this count and so happened or not.
fn counted(count: u32) -> Record {
    match count {
        0 => included(),
        _ => happened_often(7, count),
    }
}

#[test]
fn a_fresh_marking_counts_nothing() {
    for events in 1..=64 {
        assert_eq!(counts(&fresh_marking(events)), vec![0; events]);
    }
}

#[test]
fn what_happens_adds_one_up_to_the_hold() {
    let table = table(&[CONTROLLED, UNCONTROLLED], &[]);
    for (before, after) in BY_ONE {
        let now = marking(&[counted(before); 2]);
        for (event, other) in [(0, 1), (1, 0)] {
            let records = marking_after(&table, &now, event).records;
            assert_eq!(records[event], happened_often(0, after));
            assert_eq!(records[other], now.records[other]);
        }
    }
}

#[test]
fn a_guarded_tick_adds_one_for_what_it_causes_up_to_the_hold() {
    let table = table(&[CONTROLLED; 3], &[condition(0, 1, 0)]);
    for (before, after) in BY_ONE {
        let due = Record {
            count: before,
            happened: before > 0,
            ..pending(0)
        };
        let now = marking(&[due, due, counted(before)]);
        let answer = guarded_tick(&table, &now);
        assert_eq!(caused(&answer), [1, 0]);
        assert_eq!(counts(&answer.marking), [after, after, before]);
    }
}

#[test]
fn a_needed_event_that_is_skipped_is_not_counted() {
    let table = table(&[CONTROLLED; 2], &[excludes(0, 1), excludes(1, 0)]);
    let answer = guarded_tick(&table, &marking(&[pending(0), pending(0)]));
    assert_eq!(caused(&answer), [0]);
    assert_eq!(counts(&answer.marking), [1, 0]);
}

#[test]
fn the_targets_of_an_effect_keep_their_counts() {
    let all = [includes(0, 1), excludes(0, 2), response(0, 3, 5)];
    let table = table(&[CONTROLLED; 4], &all);
    let others = [excluded(counted(4)), counted(5), counted(6)];
    let now = marking(&[counted(3), others[0], others[1], others[2]]);
    let after = happen(&table, &now, 0).marking;
    assert_eq!(counts(&after), [4, 4, 5, 6]);
    // A response to itself keeps the count, too.
    let itself = response(0, 0, 5);
    let table = crate::shop::table(&[CONTROLLED], &[itself]);
    let after = happen(&table, &marking(&[counted(3)]), 0).marking;
    assert_eq!(
        (after.records[0].count, after.records[0].pending),
        (4, true)
    );
}

#[test]
fn ticks_and_refusals_count_nothing() {
    let table = table(&[CONTROLLED, UNCONTROLLED], &[condition(0, 0, 9)]);
    let now = marking(&[counted(3), counted(HOLD)]);
    assert_eq!(counts(&plain_tick(&table, &now).marking), [3, HOLD]);
    assert_eq!(counts(&guarded_tick(&table, &now).marking), [3, HOLD]);
    for refused in [happen(&table, &now, 0), happen(&table, &now, 2)] {
        assert_ne!(refused.number, 0);
        assert_eq!(refused.marking, now);
    }
}

/// A list that was only tried would show in the counts of a later run.
#[test]
fn tried_lists_count_nothing() {
    for_p(|p| {
        let now = p_flush_due(p);
        let tried = now;
        assert_eq!(remedies(p, &now, &[1, 2, 4], &[4, 2, 1, 2]).number, 0);
        assert_eq!(now, tried);
        assert_eq!(counts(&guarded_tick(p, &now).marking), [1, 1, 1, 0, 1]);
    });
}

#[test]
fn the_counts_of_p_over_a_trace() {
    for_p(|p| {
        // Leak, three quiet ticks, one that causes 2, 4 and 1; leak again, and
        // flush after isolate and drain, once refused.
        let steps = [
            (1, LEAK),
            (3, 0),
            (3, 0),
            (3, 0),
            (3, 0),
            (1, LEAK),
            (0, FLUSH),
            (0, ISOLATE),
            (0, DRAIN),
            (0, FLUSH),
            (2, 0),
        ]
        .map(|(kind, event)| Step {
            kind,
            event: event as u8,
        });
        let mut answers = [9; 11];
        let end = run(p, &p_start(), &steps, &mut answers);
        assert_eq!(answers, [0, 0, 0, 0, 0, 0, 10, 0, 0, 0, 0]);
        assert_eq!(counts(&end.marking), [2, 2, 2, 0, 2]);
    });
}

#[test]
fn a_count_stands_at_the_end_of_its_record() {
    let now = marking(&[happened_often(0, 0x0102_0304), included()]);
    let mut image = [0xAA; 25];
    assert_eq!(write_marking(&now, &mut image), 0);
    let expected = [
        [0x80, 0, 0, 1, 0, 0, 0, 0, 1, 2, 3, 4],
        [0, 0, 0, 1, 0, 0, 0, 0, 0, 0, 0, 0],
    ];
    assert_eq!(image[..24], expected.concat());
    assert_eq!(image[24], 0xAA);
    assert_eq!(read_marking(2, &image[..24]).marking, now);
}

/// Each bit of a count alone disagrees with an event that has not happened.
#[test]
fn any_count_of_an_event_that_has_not_happened_is_refused() {
    for bit in 0..32 {
        let record = Record {
            count: 2u32.pow(bit),
            ..included()
        };
        assert_eq!(judge_marking(1, &marking(&[record])), 7, "bit {bit}");
        assert_eq!(read_marking(1, &record_image(&record)).number, 7);
        let right = happened_often(0, 2u32.pow(bit));
        assert_eq!(read_marking(1, &record_image(&right)).number, 0);
    }
}

#[test]
fn the_longest_images() {
    let now = fresh_marking(64);
    let mut image = [1; 768];
    assert_eq!(write_marking(&now, &mut image[..767]), 14);
    assert_eq!(image, [1; 768]);
    assert_eq!(write_marking(&now, &mut image), 0);
    assert_eq!(read_marking(64, &image).marking, now);

    let mut input = table_image(&[CONTROLLED; 64], &vec![includes(0, 0); 256]);
    input.extend(image);
    input.extend([0, 63].repeat(4096));
    assert_eq!(input.len(), 10_564);
    let output = station(&input);
    assert_eq!(output.len(), 4_864);
    let end = read_marking(64, &output[4096..]).marking;
    assert_eq!(end.records[63], happened_often(0, 4096));
}
