//! Two faults at once: which number is given.

use crate::shop::*;
use second::*;

const KIND_9: Relation = Relation {
    kind: 9,
    left: 0,
    right: 0,
    bounded: false,
    time: 0,
};

#[test]
fn under_4_bytes_before_the_header() {
    // Spare bits set and no events, but only three bytes.
    assert_eq!(read_table(&[0, 0, 255]).number, 1);
}

#[test]
fn on_the_header_2_before_3_and_both_before_the_length() {
    assert_eq!(read_table(&[0, 0, 0, 1]).number, 2);
    assert_eq!(read_table(&[0, 0, 0, 0]).number, 3);
    // Firm is no fault, neither alone nor next to one.
    assert_eq!(read_table(&[0, 0, 128, 1]).number, 2);
    assert_eq!(read_table(&[0, 0, 128, 0]).number, 3);
    let mut image = table_image(&[CONTROLLED], &[]);
    image.push(0);
    assert_eq!(read_table(&image).number, 1);
    image[2] = 128;
    assert_eq!(read_table(&image).number, 1);
    image[2] = 64;
    assert_eq!(read_table(&image).number, 2);
    assert_eq!(read_table(&header(65, 0)).number, 3);
    assert_eq!(read_table(&header(64, 0)).number, 1);
}

#[test]
fn the_length_before_the_classes_and_relations() {
    let mut image = table_image(&[CONTROLLED], &[includes(0, 0)]);
    image[4] += 1;
    assert_eq!(read_table(&image).number, 2);
    image.pop();
    assert_eq!(read_table(&image).number, 1);
    let mut image = table_image(&[CONTROLLED], &[includes(5, 0)]);
    image.push(0);
    assert_eq!(read_table(&image).number, 1);
}

#[test]
fn the_classes_before_the_relations() {
    let unknown = Relation { kind: 7, ..KIND_9 };
    let mut image = table_image(&[CONTROLLED; 2], &[unknown]);
    assert_eq!(read_table(&image).number, 4);
    image[5] += 32;
    assert_eq!(read_table(&image).number, 2);
}

#[test]
fn within_a_relation_2_4_5_6() {
    let all_wrong = Relation {
        kind: 6,
        left: 9,
        right: 9,
        bounded: true,
        time: LIMIT + 1,
    };
    let mut image = table_image(&[CONTROLLED], &[all_wrong]);
    assert_eq!(read_table(&image).number, 4);
    *image.last_mut().unwrap() += 1;
    assert_eq!(read_table(&image).number, 2);
    assert_eq!(judge_table(&table(&[CONTROLLED], &[all_wrong])), 4);

    let kind_right = Relation {
        kind: 3,
        ..all_wrong
    };
    let image = table_image(&[CONTROLLED], &[kind_right]);
    assert_eq!(read_table(&image).number, 5);
    assert_eq!(judge_table(&table(&[CONTROLLED], &[kind_right])), 5);
}

#[test]
fn an_earlier_relation_before_a_later_one() {
    let late_in_order = includes(0, 0);
    let wrong_time = Relation {
        time: 1,
        ..late_in_order
    };
    let unknown = Relation {
        kind: 0,
        ..late_in_order
    };
    let mut image = table_image(&[CONTROLLED], &[wrong_time, unknown]);
    assert_eq!(read_table(&image).number, 6);
    *image.last_mut().unwrap() += 1;
    assert_eq!(read_table(&image).number, 6);
    assert_eq!(
        judge_table(&table(&[CONTROLLED], &[wrong_time, unknown])),
        6
    );
    assert_eq!(
        judge_table(&table(&[CONTROLLED], &[unknown, wrong_time])),
        4
    );
}

#[test]
fn decoded_counts_before_relations() {
    let mut wrong = table(&[CONTROLLED], &[KIND_9]);
    assert_eq!(judge_table(&wrong), 4);
    wrong.count = 257;
    assert_eq!(judge_table(&wrong), 3);
    wrong.count = 1;
    wrong.events = 0;
    assert_eq!(judge_table(&wrong), 3);
}

#[test]
fn the_table_before_the_marking() {
    let wrong = table(&[CONTROLLED], &[KIND_9]);
    let other_count = fresh_marking(2);
    let bad_record = marking(&[pending(LIMIT + 1)]);
    assert_eq!(due(&wrong, &other_count).number, 4);
    assert_eq!(due(&wrong, &bad_record).number, 4);
    let right = table(&[CONTROLLED], &[]);
    assert_eq!(due(&right, &other_count).number, 1);
    assert_eq!(due(&right, &bad_record).number, 7);
}

#[test]
fn for_a_marking_3_before_1_before_7() {
    assert_eq!(read_marking(0, &[1, 2, 3]).number, 3);
    assert_eq!(read_marking(65, &[0; 65 * 12]).number, 3);
    // Twelve bytes of ones break the rules of a record.
    assert_eq!(read_marking(1, &[255; 12]).number, 7);
    assert_eq!(read_marking(1, &[255; 13]).number, 1);
    let bad_record = marking(&[pending(LIMIT + 1)]);
    assert_eq!(judge_marking(0, &bad_record), 3);
    assert_eq!(judge_marking(2, &bad_record), 1);
    assert_eq!(judge_marking(1, &bad_record), 7);
}

#[test]
fn a_marking_is_judged_before_its_buffer() {
    let bad_record = marking(&[pending(LIMIT + 1)]);
    assert_eq!(write_marking(&bad_record, &mut []), 7);
    assert_eq!(write_marking(&NO_MARKING, &mut []), 3);
    assert_eq!(write_marking(&fresh_marking(1), &mut []), 14);
}

#[test]
fn table_and_marking_before_lists_and_traces() {
    let right = table(&[CONTROLLED], &[]);
    let bad_record = marking(&[pending(LIMIT + 1)]);
    let long = [0; 256];
    assert_eq!(remedies(&right, &bad_record, &long, &long).number, 7);
    let tick = Step { kind: 2, event: 0 };
    assert_eq!(run(&right, &bad_record, &[tick], &mut []).number, 7);
    assert_eq!(run_bytes(&right, &bad_record, &[2], &mut []).number, 7);
}

#[test]
fn a_list_too_long_before_13() {
    let right = table(&[CONTROLLED], &[]);
    let now = marking(&[pending(0)]);
    assert_eq!(remedies(&right, &now, &[], &[]).number, 13);
    assert_eq!(remedies(&right, &now, &[], &[9; 256]).number, 14);
    // Even where the preferred list would do.
    assert_eq!(remedies(&right, &now, &[0], &[9; 256]).number, 14);
}

#[test]
fn an_odd_byte_before_14() {
    let right = table(&[CONTROLLED], &[]);
    let now = fresh_marking(1);
    let bytes = vec![0; 2 * 4097 + 1];
    let mut answers = vec![0; 5000];
    assert_eq!(run_bytes(&right, &now, &bytes, &mut answers).number, 1);
    assert_eq!(
        run_bytes(&right, &now, &bytes[1..], &mut answers).number,
        14
    );
    assert_eq!(run_bytes(&right, &now, &[0, 0, 0], &mut []).number, 1);
    assert_eq!(run_bytes(&right, &now, &[0, 0], &mut []).number, 14);
}

#[test]
fn a_trace_too_long_before_its_steps() {
    let right = table(&[CONTROLLED], &[]);
    let no_step = Step {
        kind: 200,
        event: 200,
    };
    let mut answers = vec![1; 4097];
    let end = run(&right, &fresh_marking(1), &[no_step; 4097], &mut answers);
    assert_eq!(end.number, 14);
    assert_eq!(answers, [1; 4097]);
}

#[test]
fn per_step_15_8_10_and_per_call_8_10() {
    let shut_out = marking(&[excluded(included()), pending(0)]);
    let table = table(&[CONTROLLED, UNCONTROLLED], &[condition(1, 1, 0)]);
    let steps = [
        (7, 200, 15),
        (0, 200, 8),
        (1, 200, 8),
        (0, 0, 10),
        (1, 0, 10),
        (0, 1, 10),
        (1, 1, 10),
        // A tick that is no step, while event 1 is due and the check rejects.
        (2, 1, 15),
        (3, 1, 15),
        (2, 0, 11),
        (3, 0, 12),
    ];
    let trace: Vec<Step> = steps
        .iter()
        .map(|&(kind, event, _)| Step { kind, event })
        .collect();
    let mut answers = vec![0; steps.len()];
    let end = run(&table, &shut_out, &trace, &mut answers);
    assert_eq!((end.number, end.marking), (0, shut_out));
    let expected: Vec<u8> = steps.iter().map(|&(_, _, number)| number).collect();
    assert_eq!(answers, expected);

    assert_eq!(happen(&table, &shut_out, 200).number, 8);
    assert_eq!(happen(&table, &shut_out, 0).number, 10);
    assert_eq!(happen(&table, &shut_out, 1).number, 10);
}

#[test]
fn the_guarded_tick_knows_no_11() {
    // Due, and the check rejects: 12, not 11.
    let table = table(&[CONTROLLABLE_ONLY], &[]);
    let answer = guarded_tick(&table, &marking(&[pending(0)]));
    assert_eq!((answer.number, answer.reason, answer.place), (12, 2, 0));
}

#[test]
fn the_station_refuses_in_the_order_of_its_input() {
    let image = table_image(&[CONTROLLED], &[includes(0, 0)]);
    let wrong_image = table_image(&[CONTROLLED], &[includes(0, 1)]);
    let input = |parts: &[&[u8]]| parts.concat();

    // Nothing, and less than a header.
    assert_eq!(station(&[]), [1]);
    assert_eq!(station(&image[..3]), [1]);
    // The header's own faults, whatever follows.
    assert_eq!(station(&[2, 0, 0, 1]), [2]);
    assert_eq!(station(&[2, 0, 128, 1]), [2]);
    assert_eq!(station(&[0, 0, 0, 0]), [3]);
    assert_eq!(station(&[0, 0, 128, 0]), [3]);
    assert_eq!(station(&header(65, 0)), [3]);
    // Less than the header says.
    assert_eq!(station(&wrong_image[..10]), [1]);
    // The table, before the marking that is missing.
    assert_eq!(station(&wrong_image), [5]);
    assert_eq!(station(&image), [1]);
    assert_eq!(station(&input(&[&image, &[0; 11]])), [1]);
    assert_eq!(station(&input(&[&image, &[255; 12]])), [7]);
    // The marking, before the odd byte; the odd byte before the length.
    assert_eq!(station(&input(&[&image, &[255; 12], &[2]])), [7]);
    assert_eq!(station(&input(&[&image, &[0; 12], &[2]])), [1]);
    assert_eq!(station(&input(&[&image, &[0; 12], &[2; 8193]])), [1]);
    assert_eq!(station(&input(&[&image, &[0; 12], &[2; 8194]])), [14]);
    // No steps: the marking alone.
    assert_eq!(station(&input(&[&image, &[0; 12]])), [0; 12]);
    // Refused steps are answers, not refusals of the whole.
    assert_eq!(
        station(&input(&[&image, &[0; 12], &[9, 9, 0, 0, 1, 0, 0, 1]])),
        [15, 10, 10, 8, 0, 0, 0, 0, 0, 0, 0, 0, 0, 0, 0, 0]
    );
}
