//! One event's record from the images, worked by hand, and its refusals.

use crate::shop::*;
use second::generate;
use second::rng::Rng;
use second::*;

/// What stands in lent places before a call.
const LENT: u32 = 0xDEAD_BEEF;

/// The seven fields, from a call that is done.
fn fields(table: &[u8], marking: &[u8], event: usize) -> [u32; 7] {
    let mut fields = [LENT; 7];
    assert_eq!(record(table, marking, event, &mut fields), 0);
    fields
}

/// The call is refused with this number and writes nothing, however many
/// places it is lent.
fn refused(table: &[u8], marking: &[u8], event: usize, number: u8) {
    for places in [0, 1, 6, 7, 8, 20] {
        let mut fields = vec![LENT; places];
        assert_eq!(record(table, marking, event, &mut fields), number);
        assert_eq!(fields, vec![LENT; places]);
    }
}

fn events_alone(events: usize) -> Vec<u8> {
    table_image(&vec![CONTROLLED; events], &[])
}

#[test]
fn the_hex_records_of_the_shop() {
    // 80 00 00 03 is 1, then 30 bits worth 1, then 1; C0 00 00 00 is 1, 1 and
    // 30 bits of 0; the last four bytes are the count.
    let table = [4, 1, 0, 0, 0x40, 0x80, 0x40, 1, 0, 0, 0, 4];
    let mut before = [0; 24];
    before[..12].copy_from_slice(&[0, 0, 0, 1, 0xC0, 0, 0, 0, 0, 0, 0, 0]);
    let mut after = [0; 24];
    after[..12].copy_from_slice(&[0x80, 0, 0, 3, 0xC0, 0, 0, 0, 0, 0, 0, 1]);
    assert_eq!(fields(&table, &before, 0), [0, 0, 1, 1, 1, 0, 0]);
    assert_eq!(fields(&table, &before, 1), [0; 7]);
    assert_eq!(fields(&table, &after, 0), [1, 1, 1, 1, 1, 0, 1]);
    assert_eq!(fields(&table, &after, 1), [0; 7]);
}

#[test]
fn each_field_alone() {
    let table = events_alone(1);
    for (image, count, expected) in [
        // Happened has a count with it.
        ([0x80, 0, 0, 0, 0, 0, 0, 0], 1, [1, 0, 0, 0, 0, 0, 1]),
        ([0x80, 0, 0, 2, 0, 0, 0, 0], 1, [1, 1, 0, 0, 0, 0, 1]),
        ([0, 0, 0, 1, 0, 0, 0, 0], 0, [0, 0, 1, 0, 0, 0, 0]),
        ([0, 0, 0, 0, 0x80, 0, 0, 0], 0, [0, 0, 0, 1, 0, 0, 0]),
        ([0, 0, 0, 0, 0xC0, 0, 0, 0], 0, [0, 0, 0, 1, 1, 0, 0]),
        ([0, 0, 0, 0, 0xC0, 0, 0, 1], 0, [0, 0, 0, 1, 1, 1, 0]),
    ] {
        let image = [&image[..], &[0, 0, 0, count]].concat();
        assert_eq!(fields(&table, &image, 0), expected);
    }
    for bit in 0..32 {
        let count = 2u32.pow(bit);
        let image = [&[0x80, 0, 0, 0, 0, 0, 0, 0][..], &count.to_be_bytes()].concat();
        assert_eq!(fields(&table, &image, 0), [1, 0, 0, 0, 0, 0, count]);
    }
}

#[test]
fn the_limit_is_read_in_full() {
    // 1,000,000,000 is 3B 9A CA 00. As an age it stands one bit to the left
    // (77 35 94 00) with happened before it; as a deadline pending and bounded
    // go before it. The count has no limit but its 32 bits.
    let image = [
        0xF7, 0x35, 0x94, 0x01, 0xFB, 0x9A, 0xCA, 0x00, 0xFF, 0xFF, 0xFF, 0xFF,
    ];
    let expected = [1, LIMIT, 1, 1, 1, LIMIT, u32::MAX];
    assert_eq!(fields(&events_alone(1), &image, 0), expected);
}

#[test]
fn p_with_flush_due() {
    let table = table_image(&P_CLASSES, &p_relations());
    for_p(|p| {
        let image = marking_image(&p_flush_due(p));
        for (event, expected) in [
            (LEAK, [1, 3, 1, 0, 0, 0, 1]),
            (FLUSH, [0, 0, 1, 1, 1, 0, 0]),
            (ISOLATE, [0, 0, 1, 0, 0, 0, 0]),
            (STANDBY, [0, 0, 1, 0, 0, 0, 0]),
            (DRAIN, [0, 0, 1, 1, 0, 0, 0]),
        ] {
            assert_eq!(fields(&table, &image, event), expected, "event {event}");
        }
    });
}

#[test]
fn later_places_stay() {
    let table = events_alone(2);
    let image = marking_image(&marking(&[happened(9), pending(7)]));
    for places in [7, 8, 20] {
        let mut fields = vec![LENT; places];
        assert_eq!(record(&table, &image, 1, &mut fields), 0);
        assert_eq!(fields[..7], [0, 0, 1, 1, 1, 7, 0]);
        assert_eq!(fields[7..], vec![LENT; places - 7]);
    }
}

#[test]
fn the_last_of_64_events() {
    let table = events_alone(64);
    let mut now = fresh_marking(64);
    now.records[63] = happened_often(5, 300);
    let image = marking_image(&now);
    assert_eq!(fields(&table, &image, 62), [0, 0, 1, 0, 0, 0, 0]);
    assert_eq!(fields(&table, &image, 63), [1, 5, 1, 0, 0, 0, 300]);
    refused(&table, &image, 64, 8);
}

#[test]
fn the_table_is_refused_as_its_reader_refuses_it() {
    for (table, number) in refused_tables() {
        assert_eq!(read_table(&table).number, number);
        // Whatever else is wrong: the marking's length or record, the event.
        for marking in [&[0; 12][..], &[255; 12], &[0; 11], &[]] {
            for event in [0, 1, usize::MAX] {
                refused(&table, marking, event, number);
            }
        }
    }
}

#[test]
fn then_the_marking_as_its_reader_refuses_it() {
    let table = events_alone(2);
    for event in [0, 1, 2, usize::MAX] {
        for length in [0, 12, 16, 23, 25, 36] {
            refused(&table, &vec![255; length], event, 1);
        }
        // A fault in any record, not only in the one asked about.
        for wrong in [0, 1] {
            for (place, byte) in [(3, 2), (0, 0x80), (11, 1)] {
                let mut image = [0; 24];
                image[12 * wrong + place] = byte;
                refused(&table, &image, event, 7);
            }
        }
    }
}

#[test]
fn then_8_and_last_14() {
    let table = events_alone(2);
    let image = marking_image(&fresh_marking(2));
    for missing in [2, 3, 63, 64, 256, usize::MAX] {
        refused(&table, &image, missing, 8);
    }
    for places in 0..7 {
        let mut fields = vec![LENT; places];
        assert_eq!(record(&table, &image, 1, &mut fields), 14);
        assert_eq!(fields, vec![LENT; places]);
    }
}

#[test]
fn every_record_of_a_drawn_marking() {
    let mut rng = Rng::new(14);
    for _ in 0..200 {
        let pair = generate::sound_pair(&mut rng);
        let table = generate::table_image(&pair.table);
        let image = marking_image(&pair.marking);
        for (event, bytes) in image.chunks(12).enumerate() {
            let value = u64::from_be_bytes(bytes[..8].try_into().unwrap());
            let count = u32::from_be_bytes(bytes[8..].try_into().unwrap());
            let width = 1_073_741_824;
            let expected = [
                value / 2u64.pow(63),
                value / 2u64.pow(33) % width,
                value / 2u64.pow(32) % 2,
                value / 2u64.pow(31) % 2,
                value / 2u64.pow(30) % 2,
                value % width,
                u64::from(count),
            ];
            let fields = fields(&table, &image, event).map(u64::from);
            assert_eq!(fields, expected);
        }
        refused(&table, &image, pair.marking.events, 8);
    }
}
