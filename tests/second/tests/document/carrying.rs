//! Markings of the old form carried over, worked by hand, and the refusals.

use crate::shop::*;
use second::generate;
use second::rng::Rng;
use second::*;

/// What stands in a lent buffer before a call.
const LENT: u8 = 0xAA;

/// Refused with this number, and nothing written.
fn refused(events: usize, old: &[u8], room: usize, number: u8) {
    let mut buffer = vec![LENT; room];
    assert_eq!(carry_marking(events, old, &mut buffer), number);
    assert_eq!(buffer, vec![LENT; room]);
}

/// The image of today, from a call that is done and leaves later bytes.
fn carried(events: usize, old: &[u8]) -> Vec<u8> {
    let mut buffer = vec![LENT; 12 * events + 5];
    assert_eq!(carry_marking(events, old, &mut buffer), 0);
    assert_eq!(buffer.split_off(12 * events), [LENT; 5]);
    buffer
}

#[test]
fn the_hex_records_of_the_shop() {
    let before = [0, 0, 0, 1, 0xC0, 0, 0, 0, 0, 0, 0, 0, 0, 0, 0, 0];
    let after = [0x80, 0, 0, 3, 0xC0, 0, 0, 0, 0, 0, 0, 0, 0, 0, 0, 0];
    let mut expected = [0; 24];
    expected[..12].copy_from_slice(&[0, 0, 0, 1, 0xC0, 0, 0, 0, 0, 0, 0, 0]);
    assert_eq!(carried(2, &before), expected);
    expected[..12].copy_from_slice(&[0x80, 0, 0, 3, 0xC0, 0, 0, 0, 0, 0, 0, 1]);
    assert_eq!(carried(2, &after), expected);
}

/// Each field at its limit, and the last of 64 events.
#[test]
fn fields_are_kept() {
    for record in [
        NO_RECORD,
        included(),
        excluded(happened(0)),
        happened(LIMIT),
        pending(0),
        pending(LIMIT),
        pending_eventually(),
        excluded(pending_eventually()),
        Record {
            happened: true,
            age: LIMIT,
            count: 1,
            ..pending(LIMIT)
        },
    ] {
        assert_eq!(
            carried(1, &old_record_image(&record)),
            record_image(&record)
        );
        let mut all = fresh_marking(64);
        all.records[63] = record;
        let image = carried(64, &old_marking_image(&all));
        assert_eq!(image, marking_image(&all));
        assert_eq!(read_marking(64, &image).marking, all);
    }
}

#[test]
fn a_fresh_marking_stays_fresh() {
    for events in 1..=64 {
        let image = carried(events, &[0, 0, 0, 1, 0, 0, 0, 0].repeat(events));
        assert_eq!(read_marking(events, &image), fresh(events));
    }
}

#[test]
fn first_3() {
    for events in [0, 65, 66, 127, 128, 256, usize::MAX / 8 + 2, usize::MAX] {
        for old in [vec![], vec![0; 8], vec![255; 8], vec![0; 520]] {
            for room in [0, 12, 780] {
                refused(events, &old, room, 3);
            }
        }
    }
}

#[test]
fn then_1() {
    for events in [1, 2, 3, 63, 64] {
        for length in [
            0,
            8 * events - 8,
            8 * events - 1,
            8 * events + 1,
            12 * events,
        ] {
            if length != 8 * events {
                // Whatever else is wrong: the records, the room.
                refused(events, &vec![255; length], 0, 1);
                refused(events, &vec![0; length], 12 * events, 1);
            }
        }
    }
}

#[test]
fn then_7() {
    let not_bounded = Record {
        deadline: 1,
        ..pending_eventually()
    };
    let wrong = [
        Record {
            age: 1,
            ..included()
        },
        happened(LIMIT + 1),
        happened(1_073_741_823),
        Record {
            bounded: true,
            ..included()
        },
        Record {
            deadline: 1,
            ..included()
        },
        not_bounded,
        pending(LIMIT + 1),
        pending(1_073_741_823),
    ];
    for record in wrong {
        for place in [0, 1, 2] {
            let mut now = fresh_marking(3);
            now.records[place] = record;
            for room in [0, 35, 36, 40] {
                refused(3, &old_marking_image(&now), room, 7);
            }
        }
    }
}

#[test]
fn last_14() {
    for events in [1, 2, 63, 64] {
        let old = [0, 0, 0, 1, 0, 0, 0, 0].repeat(events);
        for room in [0, 8 * events, 12 * events - 1] {
            refused(events, &old, room, 14);
        }
        assert_eq!(carry_marking(events, &old, &mut vec![LENT; 12 * events]), 0);
    }
}

/// Twelve bytes of two events are eight of three: the length alone does not say
/// which form an image has, and its records are judged as old ones.
#[test]
fn an_image_of_today_may_be_as_long_as_an_old_one() {
    let image = marking_image(&marking(&[happened_often(0, 5), included()]));
    assert_eq!(image.len(), 24);
    refused(2, &image, 24, 1);
    // The five stands where the age, the included bit and so on of event 1 are.
    refused(3, &image, 36, 7);
}

#[test]
fn a_carried_marking_reads_as_the_old_one_with_counts_of_one() {
    let mut rng = Rng::new(19);
    for _ in 0..300 {
        let mut now = generate::sound_pair(&mut rng).marking;
        let old = generate::old_marking_image(&now);
        assert_eq!(old, old_marking_image(&now));
        let read = read_marking(now.events, &carried(now.events, &old));
        assert_eq!(read.number, 0);
        for record in &mut now.records[..now.events] {
            record.count = u32::from(record.happened);
        }
        assert_eq!(
            read.marking.records[..now.events],
            now.records[..now.events]
        );
    }
}
