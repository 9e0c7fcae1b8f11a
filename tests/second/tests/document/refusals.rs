//! One test for each refusal number, with what stands in the rest of the
//! answer.

use crate::shop::*;
use second::*;

fn one_event(relations: &[Relation]) -> Table {
    table(&[CONTROLLED], relations)
}

/// Every call that takes a table and marking gives this number for them and
/// nothing else.
fn every_call_refuses(table: &Table, now: &Marking, number: u8) {
    let handed_back = MarkingAnswer {
        number,
        marking: *now,
    };
    assert_eq!(
        enabled(table, now, 0),
        EnabledAnswer {
            number,
            enabled: false,
        }
    );
    assert_eq!(due(table, now), SetAnswer { number, set: 0 });
    assert_eq!(happen(table, now, 0), handed_back);
    assert_eq!(plain_tick(table, now), handed_back);
    assert_eq!(margin(table, now, 0), MarginAnswer::Refused(number));
    assert_eq!(hold_up(table, now, 0), HoldUpAnswer::Refused(number));
    let mut list = [77; 256];
    let nothing = ChainAnswer { number, count: 0 };
    assert_eq!(chain(table, now, 0, &mut list), nothing);
    assert_eq!(chain(table, now, usize::MAX, &mut list[..255]), nothing);
    assert_eq!(list, [77; 256]);
    assert_eq!(
        closure(table, now),
        ClosureAnswer {
            number,
            set: 0,
            size: 0,
        }
    );
    assert_eq!(
        check(table, now),
        CheckAnswer {
            number,
            reason: 0,
            place: 0,
        }
    );
    assert_eq!(
        guarded_tick(table, now),
        GuardedAnswer {
            number,
            reason: 0,
            place: 0,
            caused: [0; 64],
            count: 0,
            marking: *now,
        }
    );
    let mut list = [77; 2];
    for ticks in [0, 1, 1_000_001, u64::MAX] {
        assert_eq!(
            sleep(table, now, ticks, &mut list),
            SleepAnswer {
                number,
                reason: 0,
                place: 0,
                count: 0,
                marking: *now,
            }
        );
    }
    assert_eq!(list, [77; 2]);
    assert_eq!(quiet(table, now), TicksAnswer { number, ticks: 0 });
    assert_eq!(
        remedies(table, now, &[0], &[0]),
        RemedyAnswer {
            number,
            from_fallback: false,
            length: 0,
        }
    );
    let mut answers = [77; 2];
    let steps = [Step { kind: 2, event: 0 }];
    assert_eq!(run(table, now, &steps, &mut answers), handed_back);
    assert_eq!(run_bytes(table, now, &[2, 0], &mut answers), handed_back);
    assert_eq!(answers, [77; 2]);
}

#[test]
fn number_1_a_length_is_wrong() {
    let good = table_image(&[CONTROLLED; 2], &[includes(0, 1)]);
    for length in 0..good.len() {
        assert_eq!(read_table(&good[..length]).number, 1, "length {length}");
    }
    let mut long = good.clone();
    long.push(0);
    assert_eq!(
        read_table(&long),
        ReadTable {
            number: 1,
            table: NO_TABLE,
        }
    );

    let image = marking_image(&fresh_marking(2));
    assert_eq!(read_marking(2, &image[..23]).number, 1);
    assert_eq!(read_marking(1, &image).number, 1);
    assert_eq!(
        read_marking(3, &image),
        ReadMarking {
            number: 1,
            marking: NO_MARKING,
        }
    );

    assert_eq!(judge_marking(3, &fresh_marking(2)), 1);
    every_call_refuses(&one_event(&[]), &fresh_marking(2), 1);
    // Next to a table, a count no marking can have is only another count.
    for events in [0, 65, usize::MAX] {
        let mut strange = fresh_marking(1);
        strange.events = events;
        every_call_refuses(&one_event(&[]), &strange, 1);
    }

    let mut answers = [9; 2];
    let now = fresh_marking(1);
    assert_eq!(
        run_bytes(&one_event(&[]), &now, &[2, 0, 2], &mut answers),
        MarkingAnswer {
            number: 1,
            marking: now,
        }
    );
    assert_eq!(answers, [9; 2]);
}

#[test]
fn number_2_a_spare_bit_is_set() {
    let good = table_image(&[CONTROLLED; 2], &[includes(0, 1)]);
    assert_eq!(read_table(&good).number, 0);
    // The first bit behind the counts is firm, and no spare one.
    let header = (2..4).flat_map(|byte| (0..8).map(move |bit| (byte, bit)));
    let header = header.filter(|&place| place != (2, 7));
    let classes = (4..6).flat_map(|byte| (0..6).map(move |bit| (byte, bit)));
    let relation = (0..2).map(|bit| (11, bit));
    for (byte, bit) in header.chain(classes).chain(relation) {
        for mut image in [good.clone(), firm_image(&good)] {
            image[byte] += 2u8.pow(bit);
            assert_eq!(
                read_table(&image),
                ReadTable {
                    number: 2,
                    table: NO_TABLE,
                },
                "byte {byte}, bit {bit}"
            );
        }
    }
}

#[test]
fn number_3_counts_are_out_of_range() {
    assert_eq!(read_table(&header(0, 0)).number, 3);
    assert_eq!(read_table(&table_image(&[CONTROLLED; 127], &[])).number, 3);
    assert_eq!(read_table(&header(1, 511)).number, 3);

    for events in [0, 65, 70, 128, usize::MAX] {
        let mut table = one_event(&[]);
        table.events = events;
        assert_eq!(judge_table(&table), 3);
        every_call_refuses(&table, &fresh_marking(1), 3);

        assert_eq!(
            fresh(events),
            ReadMarking {
                number: 3,
                marking: NO_MARKING,
            }
        );
        assert_eq!(read_marking(events, &[]).number, 3);
        let mut marking = fresh_marking(1);
        marking.events = events;
        assert_eq!(judge_marking(events, &marking), 3);
        let mut buffer = [5; 12];
        assert_eq!(write_marking(&marking, &mut buffer), 3);
        assert_eq!(buffer, [5; 12]);
    }
    for count in [257, 300, 512, usize::MAX] {
        let mut table = one_event(&[]);
        table.count = count;
        assert_eq!(judge_table(&table), 3);
        every_call_refuses(&table, &fresh_marking(1), 3);
    }
}

#[test]
fn number_4_a_kind_is_unknown() {
    for kind in [0, 6, 7] {
        let relation = Relation {
            kind,
            ..includes(0, 0)
        };
        let image = table_image(&[CONTROLLED], &[relation]);
        assert_eq!(read_table(&image).number, 4);
    }
    for kind in [0, 6, 7, 8, 9, 255] {
        let table = one_event(&[Relation {
            kind,
            ..includes(0, 0)
        }]);
        assert_eq!(judge_table(&table), 4);
        every_call_refuses(&table, &fresh_marking(1), 4);
    }
}

#[test]
fn number_5_left_or_right_does_not_exist() {
    for relation in [includes(2, 0), includes(0, 2), includes(63, 63)] {
        let image = table_image(&[CONTROLLED; 2], &[relation]);
        assert_eq!(read_table(&image).number, 5);
    }
    for relation in [includes(1, 0), includes(0, 64), includes(200, 255)] {
        every_call_refuses(&one_event(&[relation]), &fresh_marking(1), 5);
    }
    // With 64 events every number an image can hold exists, but a decoded
    // value can hold more.
    let relations = [includes(64, 0)];
    assert_eq!(judge_table(&table(&[CONTROLLED; 64], &relations)), 5);
}

#[test]
fn number_6_bounded_and_time_do_not_fit_the_kind() {
    let fits = |kind: u8, bounded: bool, time: u32| match kind {
        1 => bounded && time <= LIMIT,
        2 => (bounded && (1..=LIMIT).contains(&time)) || (!bounded && time == 0),
        _ => !bounded && time == 0,
    };
    for kind in 1..=5 {
        for bounded in [false, true] {
            for time in [0, 1, LIMIT, LIMIT + 1, 1_073_741_823] {
                let relation = Relation {
                    kind,
                    left: 0,
                    right: 0,
                    bounded,
                    time,
                };
                let expected = if fits(kind, bounded, time) { 0 } else { 6 };
                let image = table_image(&[CONTROLLED], &[relation]);
                assert_eq!(read_table(&image).number, expected, "{relation:?}");
                assert_eq!(judge_table(&one_event(&[relation])), expected);
            }
        }
    }
    for time in [1_073_741_824, 2_147_483_648, u32::MAX] {
        every_call_refuses(&one_event(&[condition(0, 0, time)]), &fresh_marking(1), 6);
    }
}

#[test]
fn number_7_a_record_breaks_its_rules() {
    let wrong = [
        Record {
            age: 1,
            ..included()
        },
        happened(LIMIT + 1),
        Record {
            bounded: true,
            ..included()
        },
        Record {
            deadline: 5,
            ..included()
        },
        Record {
            deadline: 1,
            ..pending_eventually()
        },
        pending(LIMIT + 1),
        // A count that disagrees with happened.
        happened_often(0, 0),
        happened_often(LIMIT, 0),
        Record {
            count: 1,
            ..included()
        },
        Record {
            count: u32::MAX,
            ..pending(3)
        },
    ];
    for record in wrong {
        let now = marking(&[record]);
        assert_eq!(
            read_marking(1, &record_image(&record)),
            ReadMarking {
                number: 7,
                marking: NO_MARKING,
            }
        );
        assert_eq!(judge_marking(1, &now), 7);
        let mut buffer = [5; 12];
        assert_eq!(write_marking(&now, &mut buffer), 7);
        assert_eq!(buffer, [5; 12]);
        every_call_refuses(&one_event(&[]), &now, 7);
    }
    // Values wider than their 30 bits, which no image can hold.
    for record in [happened(1_073_741_824), pending(u32::MAX)] {
        every_call_refuses(&one_event(&[]), &marking(&[record]), 7);
    }
    let right = [
        NO_RECORD,
        happened(LIMIT),
        happened_often(0, u32::MAX),
        pending(LIMIT),
        pending_eventually(),
    ];
    for record in right {
        assert_eq!(read_marking(1, &record_image(&record)).number, 0);
    }
}

#[test]
fn number_8_an_event_or_relation_does_not_exist() {
    let table = one_event(&[includes(0, 0)]);
    let now = fresh_marking(1);
    for missing in [1, 63, 64, 255, 256, usize::MAX] {
        assert_eq!(enabled(&table, &now, missing).number, 8);
        let handed_back = MarkingAnswer {
            number: 8,
            marking: now,
        };
        assert_eq!(happen(&table, &now, missing), handed_back);
        assert_eq!(hold_up(&table, &now, missing), HoldUpAnswer::Refused(8));
        assert_eq!(margin(&table, &now, missing), MarginAnswer::Refused(8));
        assert_eq!(chain(&table, &now, missing, &mut [0; 256]).number, 8);
    }
    assert_eq!(margin(&table, &now, 0), MarginAnswer::NotACondition);
}

/// It was for an event of the other class. The class decides nothing any more, be
/// it asked of the call or of a step of either kind.
#[test]
fn number_9_is_never_given() {
    let table = table(&[CONTROLLED, UNCONTROLLED], &[]);
    let away = excluded(included());
    for (event, kind) in [(0, 0), (0, 1), (1, 0), (1, 1)] {
        for (before, number, after) in [(included(), 0, happened(0)), (away, 10, away)] {
            let now = marking(&[before; 2]);
            let mut expected = now;
            expected.records[usize::from(event)] = after;
            let answer = happen(&table, &now, event.into());
            assert_eq!((answer.number, answer.marking), (number, expected));
            let mut answers = [77];
            let end = run(&table, &now, &[Step { kind, event }], &mut answers);
            assert_eq!((answers, end.marking), ([number], expected));
        }
    }
}

#[test]
fn number_10_the_event_is_not_enabled() {
    let table = table(
        &[CONTROLLED, UNCONTROLLED],
        &[milestone(0, 1), condition(1, 0, 2)],
    );
    let now = marking(&[happened(1), pending_eventually()]);
    assert_eq!(happen(&table, &now, 0).number, 10);
    assert_eq!(happen(&table, &now, 1).number, 10);
    assert_eq!(happen(&table, &now, 1).marking, now);
    let later = plain_tick(&table, &now).marking;
    assert_eq!(happen(&table, &later, 1).number, 0);
    let shut_out = marking(&[excluded(included()), included()]);
    assert_eq!(happen(&table, &shut_out, 0).number, 10);
    assert_eq!(hold_up(&table, &shut_out, 0), HoldUpAnswer::Excluded);
}

#[test]
fn an_excluded_right_event_does_not_block() {
    let table = table(
        &[CONTROLLED; 3],
        &[condition(0, 1, 5), milestone(0, 2), response(0, 1, 1)],
    );
    for (right, number) in [
        ([excluded(included()), excluded(pending(0))], 0),
        ([excluded(happened(4)), excluded(pending_eventually())], 0),
        ([included(), excluded(pending(1))], 10),
        ([happened(4), excluded(pending(1))], 10),
        ([happened(5), excluded(pending(1))], 0),
        ([excluded(included()), pending(1)], 10),
        ([excluded(included()), included()], 0),
    ] {
        let now = marking(&[included(), right[0], right[1]]);
        assert_eq!(happen(&table, &now, 0).number, number, "{right:?}");
    }
}

#[test]
fn number_11_a_plain_tick_while_an_event_is_due() {
    let table = one_event(&[]);
    let now = marking(&[pending(0)]);
    assert_eq!(
        plain_tick(&table, &now),
        MarkingAnswer {
            number: 11,
            marking: now,
        }
    );
    for record in [pending(1), pending_eventually(), excluded(pending(0))] {
        assert_eq!(plain_tick(&table, &marking(&[record])).number, 0);
    }
}

#[test]
fn number_12_the_check_rejects() {
    let table = table(&[CONTROLLED, UNCONTROLLED], &[excludes(0, 1)]);
    let now = fresh_marking(2);
    assert_eq!(check(&table, &now), rejected(1, 1));
    assert_eq!(
        guarded_tick(&table, &now),
        GuardedAnswer {
            number: 12,
            reason: 1,
            place: 1,
            caused: [0; 64],
            count: 0,
            marking: now,
        }
    );
    for ticks in [0, 1, 1_000_000] {
        assert_eq!(
            sleep(&table, &now, ticks, &mut []),
            SleepAnswer {
                number: 12,
                reason: 1,
                place: 1,
                count: 0,
                marking: now,
            }
        );
    }
}

#[test]
fn number_13_no_start_discharges() {
    // Event 1 is not causable; event 2 does not exist.
    let table = table(&[CONTROLLED, CONTROLLABLE_ONLY], &[]);
    let now = marking(&[pending(0), included()]);
    for list in [&[][..], &[1, 0], &[2, 0], &[255, 0]] {
        assert_eq!(
            remedies(&table, &now, list, list),
            RemedyAnswer {
                number: 13,
                from_fallback: false,
                length: 0,
            }
        );
    }
    // What comes after the shortest start does not matter.
    let answer = remedies(&table, &now, &[0, 1, 2], &[]);
    assert_eq!((answer.number, answer.length), (0, 1));
    // Nothing due: the empty start of the preferred list.
    assert_eq!(
        remedies(&table, &fresh_marking(2), &[1], &[0]),
        RemedyAnswer {
            number: 0,
            from_fallback: false,
            length: 0,
        }
    );
}

#[test]
fn number_14_too_long_or_too_short() {
    let table = one_event(&[]);
    let now = fresh_marking(1);

    for short in [0, 8, 11] {
        let mut buffer = [5; 11];
        assert_eq!(write_marking(&now, &mut buffer[..short]), 14);
        assert_eq!(buffer, [5; 11]);
    }

    assert_eq!(remedies(&table, &now, &[0; 255], &[0; 255]).number, 0);
    assert_eq!(remedies(&table, &now, &[0; 256], &[]).number, 14);
    assert_eq!(remedies(&table, &now, &[], &[0; 256]).number, 14);

    let mut list = [5; 256];
    assert_eq!(chain(&table, &now, 0, &mut list).number, 0);
    let refused = chain(&table, &now, 0, &mut list[..255]);
    assert_eq!((refused.number, refused.count), (14, 0));
    assert_eq!(list, [5; 256]);

    let due = marking(&[pending(0)]);
    let mut places = [5; 1];
    for (ticks, room) in [(1_000_001, 1), (1, 0)] {
        let refused = sleep(&table, &due, ticks, &mut places[..room]);
        assert_eq!((refused.number, refused.count), (14, 0));
        assert_eq!((refused.marking, places), (due, [5]));
    }
    assert_eq!(sleep(&table, &due, 1, &mut places).number, 0);

    let tick = Step { kind: 2, event: 0 };
    let mut answers = vec![5; 4097];
    let end = run(&table, &now, &[tick; 4096], &mut answers);
    assert_eq!(end.number, 0);
    assert_eq!(answers[..4096], [0; 4096]);
    assert_eq!(answers[4096], 5);

    let mut answers = vec![5; 4097];
    let end = run(&table, &now, &[tick; 4097], &mut answers);
    assert_eq!((end.number, end.marking), (14, now));
    let end = run(&table, &now, &[tick; 2], &mut answers[..1]);
    assert_eq!((end.number, end.marking), (14, now));
    assert_eq!(answers, [5; 4097]);
}

#[test]
fn number_15_a_step_is_no_step() {
    let table = table(&[CONTROLLED, UNCONTROLLED], &[]);
    let steps = [
        Step { kind: 4, event: 0 },
        Step {
            kind: 255,
            event: 255,
        },
        Step { kind: 2, event: 1 },
        Step {
            kind: 3,
            event: 255,
        },
        Step { kind: 0, event: 0 },
        Step { kind: 1, event: 1 },
        Step { kind: 2, event: 0 },
        Step { kind: 3, event: 0 },
    ];
    let mut answers = [9; 8];
    let end = run(&table, &fresh_marking(2), &steps, &mut answers);
    assert_eq!(end.number, 0);
    assert_eq!(answers, [15, 15, 15, 15, 0, 0, 0, 0]);
    // The run went on after each refusal.
    assert_eq!(end.marking, marking(&[happened(2), happened(2)]));
}

#[test]
fn unused_places_are_not_looked_at_and_are_kept() {
    let mut table = table(&[CONTROLLED; 2], &[response(0, 1, 3)]);
    table.relations[1] = Relation {
        kind: 9,
        left: 200,
        right: 200,
        bounded: true,
        time: u32::MAX,
    };
    table.controllable += set(&[2, 63]);
    table.causable += set(&[5, 40]);
    let mut now = fresh_marking(2);
    now.records[2] = Record {
        age: u32::MAX,
        deadline: 7,
        happened: false,
        included: true,
        pending: true,
        bounded: true,
        count: 9,
    };
    now.records[63] = pending(0);
    assert_eq!(judge_table(&table), 0);
    assert_eq!(judge_marking(2, &now), 0);
    assert_eq!(closure(&table, &now).set, set(&[1]));
    assert_eq!(closure(&table, &now).size, 1);
    assert_eq!(due(&table, &now).set, 0);
    let answers = [
        happen(&table, &now, 0).marking,
        plain_tick(&table, &now).marking,
        guarded_tick(&table, &now).marking,
        sleep(&table, &now, 1, &mut []).marking,
        run(&table, &now, &[Step { kind: 2, event: 0 }], &mut [0]).marking,
    ];
    for answer in answers {
        assert_ne!(answer.records[..2], NO_MARKING.records[..2]);
        assert_eq!(answer.records[2..], now.records[2..]);
    }
}

#[test]
fn age_is_held_and_deadline_stops_at_0() {
    let table = table(&[CONTROLLED; 2], &[]);
    let now = marking(&[happened(LIMIT), excluded(pending(0))]);
    let after = plain_tick(&table, &now);
    assert_eq!((after.number, after.marking), (0, now));
}

#[test]
fn inclusion_wins_over_exclusion() {
    for relations in [
        [includes(0, 1), excludes(0, 1)],
        [excludes(0, 1), includes(0, 1)],
    ] {
        let table = table(&[CONTROLLED; 2], &relations);
        for before in [included(), excluded(included())] {
            let after = happen(&table, &marking(&[included(), before]), 0);
            assert!(after.marking.records[1].included);
        }
    }
}

#[test]
fn margins_of_every_sort() {
    let table = table(&[CONTROLLED; 2], &[milestone(0, 1), condition(0, 1, LIMIT)]);
    let asked = |record, relation| margin(&table, &marking(&[included(), record]), relation);
    assert_eq!(asked(included(), 0), MarginAnswer::NotACondition);
    assert_eq!(
        asked(excluded(happened(3)), 1),
        MarginAnswer::Ignored(Rest::By(-999_999_997))
    );
    assert_eq!(
        asked(excluded(included()), 1),
        MarginAnswer::Ignored(Rest::Never)
    );
    assert_eq!(asked(included(), 1), MarginAnswer::Never);
    assert_eq!(asked(happened(0), 1), MarginAnswer::By(-1_000_000_000));
    assert_eq!(asked(happened(LIMIT), 1), MarginAnswer::By(0));
}

#[test]
fn a_relation_of_an_event_to_itself_reads_its_own_state() {
    let needs_itself = one_event(&[condition(0, 0, 2)]);
    assert!(!enabled(&needs_itself, &marking(&[included()]), 0).enabled);
    assert!(!enabled(&needs_itself, &marking(&[happened(1)]), 0).enabled);
    assert!(enabled(&needs_itself, &marking(&[happened(2)]), 0).enabled);
    let own_milestone = one_event(&[milestone(0, 0)]);
    assert!(enabled(&own_milestone, &marking(&[included()]), 0).enabled);
    assert!(!enabled(&own_milestone, &marking(&[pending_eventually()]), 0).enabled);
}

#[test]
fn sets_are_counted_and_their_lowest_named() {
    assert_eq!((size(0), lowest(0)), (0, 64));
    assert_eq!((size(u64::MAX), lowest(u64::MAX)), (64, 0));
    for event in 0..64 {
        assert_eq!(
            (size(set(&[event])), lowest(set(&[event]))),
            (1, event as u8)
        );
    }
    assert_eq!((size(set(&[5, 63])), lowest(set(&[5, 63]))), (2, 5));
}
