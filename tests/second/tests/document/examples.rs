//! The shop examples. Those marked (P) in the rules' paper start with `p_`.

use crate::shop::*;
use second::*;

#[test]
fn p_the_image_and_the_decoded_value_are_the_same_table() {
    let image = table_image(&P_CLASSES, &p_relations());
    assert_eq!(image.len(), 4 + 5 + 6 * 6);
    assert_eq!(
        read_table(&image),
        ReadTable {
            number: 0,
            table: table(&P_CLASSES, &p_relations()),
        }
    );
}

#[test]
fn p_is_accepted_with_closure_1_2_4() {
    for_p(|p| {
        assert_eq!(check(p, &p_start()), ACCEPTED);
        assert_eq!(
            closure(p, &p_start()),
            ClosureAnswer {
                number: 0,
                set: set(&[1, 2, 4]),
                size: 3,
            }
        );
        assert_eq!(size(closure(p, &p_start()).set), 3);
        assert_eq!(lowest(closure(p, &p_start()).set), 1);
    });
}

/// A report of it was answered 9 when there were two calls.
#[test]
fn p_before_leak_flush_gives_10_to_the_call_and_to_either_kind() {
    for_p(|p| {
        assert_eq!(happen(p, &p_start(), FLUSH).number, 10);
        let mut answers = [77; 2];
        let end = run_bytes(p, &p_start(), &[0, 1, 1, 1], &mut answers);
        assert_eq!((end.marking, answers), (p_start(), [10, 10]));
    });
}

#[test]
fn p_after_leak_flush_gives_10_and_is_held_up_by_relation_1() {
    for_p(|p| {
        let after = marking_after(p, &p_start(), LEAK);
        let answer = happen(p, &after, FLUSH);
        assert_eq!((answer.number, answer.marking), (10, after));
        assert_eq!(hold_up(p, &after, FLUSH), HoldUpAnswer::Blocked(1));
        assert!(!enabled(p, &after, FLUSH).enabled);
    });
}

#[test]
fn p_leak_and_three_guarded_ticks_make_flush_due() {
    for_p(|p| {
        let now = p_flush_due(p);
        assert!(now.records[FLUSH].pending && now.records[FLUSH].bounded);
        assert_eq!(now.records[FLUSH].deadline, 0);
        assert_eq!(due(p, &now).set, set(&[FLUSH]));
    });
}

#[test]
fn p_there_a_plain_tick_is_refused_with_11() {
    for_p(|p| {
        let now = p_flush_due(p);
        assert_eq!(
            plain_tick(p, &now),
            MarkingAnswer {
                number: 11,
                marking: now,
            }
        );
    });
}

#[test]
fn p_there_a_guarded_tick_causes_2_4_1() {
    for_p(|p| {
        let answer = guarded_tick(p, &p_flush_due(p));
        assert_eq!(answer.number, 0);
        assert_eq!(caused(&answer), [2, 4, 1]);
        assert_eq!(answer.caused[3..], [0; 61]);
        for event in [FLUSH, ISOLATE, DRAIN] {
            assert_eq!(answer.marking.records[event], happened(1));
        }
        assert_eq!(answer.marking.records[LEAK], happened(4));
    });
}

#[test]
fn p_there_the_first_three_of_the_fallback_discharge() {
    for_p(|p| {
        assert_eq!(
            remedies(p, &p_flush_due(p), &[1, 2, 4], &[4, 2, 1, 2]),
            RemedyAnswer {
                number: 0,
                from_fallback: true,
                length: 3,
            }
        );
    });
}

#[test]
fn p_there_two_lists_of_only_4_give_13() {
    for_p(|p| {
        assert_eq!(
            remedies(p, &p_flush_due(p), &[4], &[4]),
            RemedyAnswer {
                number: 13,
                from_fallback: false,
                length: 0,
            }
        );
    });
}

#[test]
fn p_after_standby_the_excluded_flush_counts_down_and_stops_nothing() {
    for_p(|p| {
        let now = marking_after(p, &p_start(), LEAK);
        let now = quiet_guarded_ticks(p, &now, 1);
        let now = marking_after(p, &now, STANDBY);
        let now = quiet_guarded_ticks(p, &now, 5);
        assert_eq!(now.records[FLUSH], excluded(pending(0)));
        let now = marking_after(p, &now, LEAK);
        assert_eq!(now.records[FLUSH], pending(3));
    });
}

#[test]
fn p_isolate_not_causable_is_reason_2_at_event_2() {
    let mut classes = P_CLASSES;
    classes[ISOLATE] = CONTROLLABLE_ONLY;
    both_ways(&classes, &p_relations(), |table| {
        assert_eq!(check(table, &p_start()), rejected(2, 2));
    });
}

#[test]
fn p_relation_1_with_time_1_is_reason_3_at_relation_1() {
    let mut relations = p_relations();
    relations[1].time = 1;
    both_ways(&P_CLASSES, &relations, |table| {
        assert_eq!(check(table, &p_start()), rejected(3, 1));
    });
}

#[test]
fn p_and_isolate_condition_flush_is_reason_4_at_event_1() {
    for_p_and(condition(ISOLATE, FLUSH, 0), |table| {
        assert_eq!(check(table, &p_start()), rejected(4, 1));
    });
}

#[test]
fn p_and_isolate_response_drain_is_reason_5_at_relation_6() {
    // The example does not say how soon, and it makes no difference.
    for added in [response(ISOLATE, DRAIN, 1), eventually(ISOLATE, DRAIN)] {
        for_p_and(added, |table| {
            assert_eq!(check(table, &p_start()), rejected(5, 6));
        });
    }
}

#[test]
fn p_and_isolate_includes_flush_is_reason_6_at_relation_6() {
    for_p_and(includes(ISOLATE, FLUSH), |table| {
        assert_eq!(check(table, &p_start()), rejected(6, 6));
    });
}

#[test]
fn p_and_standby_excludes_leak_is_reason_1_at_event_0() {
    for_p_and(excludes(STANDBY, LEAK), |table| {
        assert_eq!(check(table, &p_start()), rejected(1, 0));
    });
}

#[test]
fn p_and_flush_includes_flush_is_accepted() {
    for_p_and(includes(FLUSH, FLUSH), |table| {
        assert_eq!(check(table, &p_start()), ACCEPTED);
    });
}

#[test]
fn p_margins_below_at_and_above_zero() {
    both_ways(&[CONTROLLED; 2], &[condition(0, 1, 5)], |table| {
        for (age, by) in [(3, -2), (5, 0), (9, 4)] {
            let now = marking(&[included(), happened(age)]);
            assert_eq!(margin(table, &now, 0), MarginAnswer::By(by));
        }
    });
}

const HEX_TABLE: [u8; 12] = [
    0x04, 0x01, 0x00, 0x00, 0x40, 0x80, 0x40, 0x01, 0x00, 0x00, 0x00, 0x04,
];
const HEX_MARKING: [u8; 24] = [
    0x00, 0x00, 0x00, 0x01, 0xC0, 0x00, 0x00, 0x00, 0x00, 0x00, 0x00, 0x00, 0, 0, 0, 0, 0, 0, 0, 0,
    0, 0, 0, 0,
];
const HEX_AFTER: [u8; 24] = [
    0x80, 0x00, 0x00, 0x03, 0xC0, 0x00, 0x00, 0x00, 0x00, 0x00, 0x00, 0x01, 0, 0, 0, 0, 0, 0, 0, 0,
    0, 0, 0, 0,
];

#[test]
fn p_the_hex_table_causes_0() {
    let read = read_table(&HEX_TABLE);
    assert_eq!(read.number, 0);
    assert_eq!(
        read.table,
        table(&[CAUSABLE_ONLY, CONTROLLABLE_ONLY], &[response(0, 0, 1)])
    );
    let start = read_marking(2, &HEX_MARKING);
    assert_eq!(start.number, 0);
    assert_eq!(start.marking, marking(&[pending(0), NO_RECORD]));

    let answer = guarded_tick(&read.table, &start.marking);
    assert_eq!(answer.number, 0);
    assert_eq!(caused(&answer), [0]);

    let mut image = [0; 24];
    assert_eq!(write_marking(&answer.marking, &mut image), 0);
    assert_eq!(image, HEX_AFTER);
}

#[test]
fn the_station_writes_25_bytes() {
    let mut input = HEX_TABLE.to_vec();
    input.extend(HEX_MARKING);
    input.extend([0x03, 0x00]);
    let output = station(&input);
    assert_eq!(output.len(), 25);
    assert_eq!(output[0], 0);
    assert_eq!(output[1..], HEX_AFTER);
}

#[test]
fn time_1_000_000_000_is_read_and_one_more_refused_with_6() {
    for read_as in [condition, response] {
        let at = read_table(&table_image(&[CONTROLLED], &[read_as(0, 0, LIMIT)]));
        assert_eq!(at.number, 0);
        assert_eq!(at.table.relations[0].time, LIMIT);
        let above = [read_as(0, 0, LIMIT + 1)];
        assert_eq!(read_table(&table_image(&[CONTROLLED], &above)).number, 6);
        assert_eq!(judge_table(&table(&[CONTROLLED], &above)), 6);
    }
}

#[test]
fn events_64_are_read_and_65_refused() {
    let most = read_table(&table_image(&[CONTROLLED; 64], &[eventually(63, 0)]));
    assert_eq!(most.number, 0);
    assert_eq!(most.table.events, 64);
    assert_eq!(most.table.controllable, u64::MAX);
    assert_eq!(read_table(&table_image(&[CONTROLLED; 65], &[])).number, 3);
    let mut decoded = most.table;
    decoded.events = 65;
    assert_eq!(judge_table(&decoded), 3);
    assert_eq!(fresh(64).number, 0);
    assert_eq!(fresh(65).number, 3);
}

#[test]
fn relations_256_are_read_and_257_refused() {
    let most = vec![includes(0, 0); 256];
    let read = read_table(&table_image(&[CONTROLLED], &most));
    assert_eq!(read.number, 0);
    assert_eq!(read.table.count, 256);
    assert_eq!(read.table.relations[255], includes(0, 0));
    let too_many = vec![includes(0, 0); 257];
    assert_eq!(read_table(&table_image(&[CONTROLLED], &too_many)).number, 3);
    let mut decoded = read.table;
    decoded.count = 257;
    assert_eq!(judge_table(&decoded), 3);
}
