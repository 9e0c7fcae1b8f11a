//! Firm tables: a repeat never moves a date out. Each case worked by hand, in a
//! firm table and in one that is not.

use crate::shop::*;
use second::*;

/// Leak and two guarded ticks: flush has one minute left.
fn p_flush_in_one(p: &Table) -> Marking {
    let after = marking_after(p, &p_start(), LEAK);
    let now = quiet_guarded_ticks(p, &after, 2);
    assert_eq!(now.records[FLUSH], pending(1));
    now
}

#[test]
fn a_repeated_leak_buys_no_time() {
    for_firm_p(|p| {
        let now = marking_after(p, &p_flush_in_one(p), LEAK);
        assert_eq!(now.records[FLUSH], pending(1));
        assert_eq!(now.records[DRAIN], pending_eventually());
        // One quiet tick more, and the next one causes what is due.
        let now = quiet_guarded_ticks(p, &now, 1);
        assert_eq!(caused(&guarded_tick(p, &now)), [2, 4, 1]);
    });
    for_p(|p| {
        let now = marking_after(p, &p_flush_in_one(p), LEAK);
        assert_eq!(now.records[FLUSH], pending(3));
        assert_eq!(now.records[DRAIN], pending_eventually());
        quiet_guarded_ticks(p, &now, 3);
    });
}

/// With an alarm in each minute, the flush is never caused unless P is firm.
#[test]
fn an_alarm_in_each_minute() {
    let caused_after = |p: &Table| {
        let mut now = p_start();
        (0..20).find(|_| {
            let answer = guarded_tick(p, &marking_after(p, &now, LEAK));
            assert_eq!(answer.number, 0);
            now = answer.marking;
            caused(&answer) == [2, 4, 1]
        })
    };
    for_firm_p(|p| assert_eq!(caused_after(p), Some(3)));
    for_p(|p| assert_eq!(caused_after(p), None));
}

/// Leak, one guarded tick, standby, five guarded ticks, leak again.
#[test]
fn an_excluded_flush_comes_back_with_the_date_it_had() {
    let leak_again = |p: &Table| {
        let now = marking_after(p, &p_start(), LEAK);
        let now = quiet_guarded_ticks(p, &now, 1);
        let now = marking_after(p, &now, STANDBY);
        let now = quiet_guarded_ticks(p, &now, 5);
        assert_eq!(now.records[FLUSH], excluded(pending(0)));
        marking_after(p, &now, LEAK)
    };
    for_firm_p(|p| {
        let now = leak_again(p);
        assert_eq!(now.records[FLUSH], pending(0));
        assert_eq!(due(p, &now).set, set(&[FLUSH]));
        assert_eq!(plain_tick(p, &now).number, 11);
        assert_eq!(caused(&guarded_tick(p, &now)), [2, 4, 1]);
    });
    for_p(|p| assert_eq!(leak_again(p).records[FLUSH], pending(3)));
}

/// What the target of event 0 has afterwards, be the table decoded or read: in a
/// firm table, and in one that is not.
fn met(target: Record, responses: &[Relation], in_firm: Record, in_other: Record) {
    let now = marking(&[included(), target]);
    let asked = |expected: Record| {
        move |table: &Table| {
            let records = marking_after(table, &now, 0).records;
            assert_eq!(records[0], happened(0));
            assert_eq!(records[1], expected, "{target:?}");
        }
    };
    firm_both_ways(&[CONTROLLED; 2], responses, asked(in_firm));
    both_ways(&[CONTROLLED; 2], responses, asked(in_other));
}

/// The same of an excluded target: inclusion plays no part.
fn met_included_or_not(had: Record, responses: &[Relation], in_firm: Record, in_other: Record) {
    met(had, responses, in_firm, in_other);
    met(
        excluded(had),
        responses,
        excluded(in_firm),
        excluded(in_other),
    );
}

#[test]
fn a_deadline_meets_a_deadline() {
    for (had, new, in_firm) in [
        (2, 3, 2),
        (3, 3, 3),
        (4, 3, 3),
        (1, LIMIT, 1),
        (LIMIT, 1, 1),
        (LIMIT - 1, LIMIT, LIMIT - 1),
        (LIMIT, LIMIT - 1, LIMIT - 1),
        (LIMIT, LIMIT, LIMIT),
        // Where a comparison of too few bits would go wrong.
        (255, 256, 255),
        (256, 255, 255),
        (65_535, 65_536, 65_535),
        (65_536, 65_535, 65_535),
    ] {
        let responses = [response(0, 1, new)];
        met_included_or_not(pending(had), &responses, pending(in_firm), pending(new));
    }
}

#[test]
fn a_due_event_stays_due() {
    for new in [1, 3, LIMIT] {
        let responses = [response(0, 1, new)];
        met_included_or_not(pending(0), &responses, pending(0), pending(new));
    }
    let responses = [eventually(0, 1)];
    met_included_or_not(pending(0), &responses, pending(0), pending_eventually());
}

#[test]
fn eventually_is_the_largest() {
    for bound in [1, 3, LIMIT] {
        // Pending eventually meets a bound; a bound meets eventually.
        let responses = [response(0, 1, bound)];
        let had = pending_eventually();
        met_included_or_not(had, &responses, pending(bound), pending(bound));
        let responses = [eventually(0, 1)];
        let had = pending(bound);
        met_included_or_not(had, &responses, had, pending_eventually());
    }
    let had = pending_eventually();
    met_included_or_not(had, &[eventually(0, 1)], had, had);
}

#[test]
fn a_target_that_is_not_pending_gets_the_new_one() {
    for new in [1, 3, LIMIT] {
        let responses = [response(0, 1, new)];
        met_included_or_not(included(), &responses, pending(new), pending(new));
    }
    let new = pending_eventually();
    met_included_or_not(included(), &[eventually(0, 1)], new, new);
    // Age and count of the target stay.
    let had = happened_often(7, 5);
    let new = Record {
        pending: true,
        bounded: true,
        deadline: 3,
        ..had
    };
    met_included_or_not(had, &[response(0, 1, 3)], new, new);
}

#[test]
fn of_several_responses_the_smallest_meets_what_the_target_had() {
    let responses = [eventually(0, 1), response(0, 1, 9), response(0, 1, 7)];
    for (had, in_firm) in [
        (included(), 7),
        (pending_eventually(), 7),
        (pending(0), 0),
        (pending(6), 6),
        (pending(7), 7),
        (pending(8), 7),
        (pending(20), 7),
    ] {
        met_included_or_not(had, &responses, pending(in_firm), pending(7));
        let turned = [responses[2], responses[1], responses[0]];
        met_included_or_not(had, &turned, pending(in_firm), pending(7));
    }
}

/// Included or excluded by the same event that responds.
#[test]
fn the_date_is_kept_whatever_becomes_of_the_inclusion() {
    for had in [pending(1), excluded(pending(1))] {
        let responses = [response(0, 1, 3), includes(0, 1)];
        met(had, &responses, pending(1), pending(3));
        let responses = [response(0, 1, 3), excludes(0, 1)];
        met(had, &responses, excluded(pending(1)), excluded(pending(3)));
    }
}

/// Only the left event's own responses count, and only for their targets.
#[test]
fn an_event_without_a_response_leaves_the_dates() {
    for other in [
        response(1, 1, 3),
        response(1, 0, 3),
        condition(1, 0, 3),
        milestone(1, 0),
        includes(0, 1),
    ] {
        for had in [pending(0), pending(5), pending_eventually(), included()] {
            met(had, &[other], had, had);
        }
    }
}

/// The event is cleared first, so that in a firm table, too, its own response
/// meets nothing.
#[test]
fn a_response_to_itself_gives_the_new_deadline() {
    let own = [
        (vec![response(0, 0, 4)], pending(4)),
        (vec![eventually(0, 0)], pending_eventually()),
        (vec![eventually(0, 0), response(0, 0, 4)], pending(4)),
    ];
    for (responses, given) in own {
        for had in [
            included(),
            pending(0),
            pending(1),
            pending(4),
            pending(9),
            pending_eventually(),
        ] {
            let asked = |table: &Table| {
                let answer = happen(table, &marking(&[had]), 0);
                let expected = Record {
                    happened: true,
                    count: 1,
                    ..given
                };
                assert_eq!((answer.number, answer.marking.records[0]), (0, expected));
            };
            firm_both_ways(&[CONTROLLED], &responses, asked);
            both_ways(&[CONTROLLED], &responses, asked);
        }
    }
}

#[test]
fn a_caused_event_responds_as_any_that_happens() {
    // Event 0 is due and responds to itself, to 1 with less time left, and to
    // 2 with more.
    let responses = [response(0, 0, 5), response(0, 1, 5), response(0, 2, 5)];
    let now = marking(&[pending(0), pending(2), pending(9)]);
    let left = |table: &Table| {
        let answer = guarded_tick(table, &now);
        assert_eq!((answer.number, caused(&answer)), (0, vec![0]));
        answer.marking.records.map(|record| record.deadline)
    };
    firm_both_ways(&[CONTROLLED; 3], &responses, |table| {
        assert_eq!(left(table)[..3], [4, 1, 4]);
    });
    both_ways(&[CONTROLLED; 3], &responses, |table| {
        assert_eq!(left(table)[..3], [4, 4, 4]);
    });
}

/// What is needed is settled at the start, so both are caused in either table.
/// The first is cleared by then, and gets the new deadline of the second.
#[test]
fn two_due_events_that_respond_to_each_other() {
    let responses = [response(0, 1, 5), response(1, 0, 5)];
    let now = marking(&[pending(0), pending(0)]);
    let asked = |table: &Table| {
        let answer = guarded_tick(table, &now);
        assert_eq!((answer.number, caused(&answer)), (0, vec![0, 1]));
        let expected = Record {
            happened: true,
            age: 1,
            count: 1,
            ..pending(4)
        };
        assert_eq!(answer.marking.records[0], expected);
        assert_eq!(answer.marking.records[1], happened(1));
    };
    firm_both_ways(&[CONTROLLED; 2], &responses, asked);
    both_ways(&[CONTROLLED; 2], &responses, asked);
}

/// Event 1 puts event 0 off, but not in a firm table.
#[test]
fn a_remedy_that_only_buys_time() {
    let relations = [response(1, 0, 3)];
    let now = marking(&[pending(0), included()]);
    let remedy = |number, from_fallback, length| RemedyAnswer {
        number,
        from_fallback,
        length,
    };
    firm_both_ways(&[CONTROLLED; 2], &relations, |table| {
        assert_eq!(remedies(table, &now, &[1], &[1, 1]), remedy(13, false, 0));
        assert_eq!(remedies(table, &now, &[1], &[1, 0]), remedy(0, true, 2));
    });
    both_ways(&[CONTROLLED; 2], &relations, |table| {
        assert_eq!(remedies(table, &now, &[1], &[1, 0]), remedy(0, false, 1));
    });
}

/// Leak, two ticks, leak, tick, tick: only the firm station has the flush done.
#[test]
fn the_runner_and_the_station() {
    let steps = [1, 0, 3, 0, 3, 0, 1, 0, 3, 0, 3, 0];
    let ended = |p: &Table, image: &[u8]| {
        let mut answers = [9; 6];
        let end = run_bytes(p, &p_start(), &steps, &mut answers);
        assert_eq!((end.number, answers), (0, [0; 6]));
        let start = marking_image(&p_start());
        let output = station(&[image, &start, &steps].concat());
        assert_eq!(output[..6], [0; 6]);
        assert_eq!(output[6..], marking_image(&end.marking));
        end.marking.records[FLUSH]
    };
    let image = table_image(&P_CLASSES, &p_relations());
    for_firm_p(|p| assert_eq!(ended(p, &firm_image(&image)), happened(1)));
    for_p(|p| assert_eq!(ended(p, &image), pending(1)));
}

/// What is not about deadlines that meet: the check and its sets, enabled,
/// hold-up, margin, due and ticks.
#[test]
fn everything_else_is_as_in_other_tables() {
    for_p(|p| {
        let firm = firm(p);
        for now in [p_start(), p_flush_in_one(p), p_flush_due(p)] {
            assert_eq!(check(&firm, &now), check(p, &now));
            assert_eq!(closure(&firm, &now), closure(p, &now));
            assert_eq!(due(&firm, &now), due(p, &now));
            assert_eq!(plain_tick(&firm, &now), plain_tick(p, &now));
            assert_eq!(guarded_tick(&firm, &now), guarded_tick(p, &now));
            for event in 0..6 {
                assert_eq!(enabled(&firm, &now, event), enabled(p, &now, event));
                assert_eq!(hold_up(&firm, &now, event), hold_up(p, &now, event));
            }
            for relation in 0..7 {
                assert_eq!(margin(&firm, &now, relation), margin(p, &now, relation));
            }
        }
    });
}

/// Bit 16 is firm; each of the other 15 is spare, next to firm or not.
#[test]
fn each_of_the_headers_last_16_bits() {
    let plain = table_image(&[CONTROLLED; 2], &[includes(0, 1)]);
    let decoded = table(&[CONTROLLED; 2], &[includes(0, 1)]);
    for bit in 16..32 {
        let mut image = plain.clone();
        image[bit / 8] |= 0x80 >> (bit % 8);
        let expected = match bit {
            16 => (0, firm(&decoded)),
            _ => (2, NO_TABLE),
        };
        let read = read_table(&image);
        assert_eq!((read.number, read.table), expected, "bit {bit}");
        image[2] |= 0x80;
        let read = read_table(&image);
        assert_eq!((read.number, read.table), expected, "bit {bit} and firm");
    }
}

/// A refused read gives the empty table, which is not firm.
#[test]
fn a_firm_image_that_is_refused_reads_as_empty() {
    for (image, number) in refused_tables() {
        if image.len() > 2 {
            let read = read_table(&firm_image(&image));
            assert_eq!((read.number, read.table), (number, NO_TABLE));
        }
        let read = read_table(&image);
        assert_eq!((read.number, read.table), (number, NO_TABLE));
    }
    // Three bytes with the bit in them are too few for a header.
    let read = read_table(&[2, 0, 0x80]);
    assert_eq!((read.number, read.table), (1, NO_TABLE));
}

/// Firm is judged by no number, in a table that is right or wrong.
#[test]
fn no_number_judges_firm() {
    for (relation, number) in [
        (includes(0, 0), 0),
        (
            Relation {
                kind: 0,
                ..includes(0, 0)
            },
            4,
        ),
        (includes(0, 1), 5),
        (condition(0, 0, LIMIT + 1), 6),
    ] {
        let decoded = table(&[CONTROLLED], &[relation]);
        assert_eq!(judge_table(&decoded), number);
        assert_eq!(judge_table(&firm(&decoded)), number);
    }
    assert_eq!(judge_table(&firm(&NO_TABLE)), 3);
}
