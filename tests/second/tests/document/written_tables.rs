//! A table's image from the decoded table: worked by hand, its refusals and
//! their order.

use crate::shop::*;
use second::*;

/// What stands in a lent buffer before a call.
const LENT: u8 = 0xA5;

/// The image, from a call that is done. Bytes after it stay.
fn written(table: &Table) -> Vec<u8> {
    let length = 4 + table.events + 6 * table.count;
    for more in [0, 1, 20] {
        let mut buffer = vec![LENT; length + more];
        assert_eq!(write_table(table, &mut buffer), 0);
        assert_eq!(buffer[length..], vec![LENT; more]);
    }
    let mut image = vec![LENT; length];
    assert_eq!(write_table(table, &mut image), 0);
    image
}

/// The call is refused with this number and writes nothing, however long the
/// buffer is, and be the table firm or not.
fn refused(table: &Table, number: u8) {
    for table in [*table, firm(table)] {
        for length in [0, 1, 4, 5, 10, 11, 12, 2000] {
            let mut buffer = vec![LENT; length];
            assert_eq!(write_table(&table, &mut buffer), number, "room {length}");
            assert_eq!(buffer, vec![LENT; length]);
        }
    }
}

#[test]
fn the_hex_table_of_the_shop() {
    let expected = [4, 1, 0, 0, 0x40, 0x80, 0x40, 1, 0, 0, 0, 4];
    let table = table(&[CAUSABLE_ONLY, CONTROLLABLE_ONLY], &[response(0, 0, 1)]);
    assert_eq!(written(&table), expected);
    let expected = [4, 1, 0x80, 0, 0x40, 0x80, 0x40, 1, 0, 0, 0, 4];
    assert_eq!(written(&firm(&table)), expected);
}

#[test]
fn each_field_alone() {
    // Kind 3, left 6, right 6, bounded 1, time 30, spare 2.
    for (relation, expected) in [
        (includes(0, 0), [0x60, 0, 0, 0, 0, 0]),
        (excludes(0, 0), [0x80, 0, 0, 0, 0, 0]),
        (milestone(0, 0), [0xA0, 0, 0, 0, 0, 0]),
        (eventually(0, 0), [0x40, 0, 0, 0, 0, 0]),
        (includes(63, 0), [0x7F, 0x80, 0, 0, 0, 0]),
        (includes(32, 0), [0x70, 0, 0, 0, 0, 0]),
        (includes(1, 0), [0x60, 0x80, 0, 0, 0, 0]),
        (includes(0, 63), [0x60, 0x7E, 0, 0, 0, 0]),
        (includes(0, 1), [0x60, 0x02, 0, 0, 0, 0]),
        (condition(0, 0, 0), [0x20, 0x01, 0, 0, 0, 0]),
        (condition(0, 0, 1), [0x20, 0x01, 0, 0, 0, 4]),
        // 1,000,000,000 is 3B 9A CA 00; two bits to the left, EE 6B 28 00.
        (condition(0, 0, LIMIT), [0x20, 0x01, 0xEE, 0x6B, 0x28, 0]),
    ] {
        let image = written(&table(&[CONTROLLED; 64], &[relation]));
        assert_eq!(image[..4], [0x80, 1, 0, 0]);
        assert_eq!(image[4..68], [0xC0; 64]);
        assert_eq!(image[68..], expected, "{relation:?}");
    }
}

#[test]
fn each_class_at_its_place() {
    for event in 0..64 {
        let mut classes = [CAUSABLE_ONLY; 64];
        classes[event] = CONTROLLABLE_ONLY;
        let mut expected = [0x40; 64];
        expected[event] = 0x80;
        assert_eq!(written(&table(&classes, &[]))[4..], expected);
    }
}

#[test]
fn the_smallest_and_the_largest() {
    assert_eq!(written(&table(&[UNCONTROLLED], &[])), [2, 0, 0, 0, 0]);
    let relations: Vec<Relation> = (0..256)
        .map(|number| condition(number % 64, number / 4, number as u32))
        .collect();
    let image = written(&table(&[CONTROLLED; 64], &relations));
    assert_eq!(image.len(), 1604);
    assert_eq!(image, table_image(&[CONTROLLED; 64], &relations));
    let firm = firm(&table(&[CONTROLLED; 64], &relations));
    assert_eq!(written(&firm), firm_image(&image));
}

#[test]
fn p_as_it_is_put_together_by_hand() {
    let image = table_image(&P_CLASSES, &p_relations());
    for_p(|p| assert_eq!(written(p), image));
    for_firm_p(|p| assert_eq!(written(p), firm_image(&image)));
}

#[test]
fn counts_out_of_range_are_refused_with_3() {
    for events in [0, 65, 66, 127, 128, 129, 256, usize::MAX] {
        let mut table = table(&[CONTROLLED], &[includes(0, 0)]);
        table.events = events;
        refused(&table, 3);
    }
    for count in [257, 258, 300, 511, 512, 513, usize::MAX] {
        let mut table = table(&[CONTROLLED], &[includes(0, 0)]);
        table.count = count;
        refused(&table, 3);
        // Before the fault of a relation.
        table.relations[0].kind = 9;
        refused(&table, 3);
    }
}

#[test]
fn a_relation_is_refused_with_4_5_or_6() {
    let fault = |change: fn(&mut Relation), number: u8| {
        let mut relation = condition(1, 0, 7);
        change(&mut relation);
        // Alone, and behind a relation that is right.
        refused(&table(&[CONTROLLED; 2], &[relation]), number);
        refused(
            &table(&[CONTROLLED; 2], &[milestone(0, 1), relation]),
            number,
        );
    };
    fault(|relation| relation.kind = 0, 4);
    fault(|relation| relation.kind = 6, 4);
    fault(|relation| relation.left = 2, 5);
    fault(|relation| relation.right = 2, 5);
    fault(|relation| relation.right = 63, 5);
    fault(|relation| relation.bounded = false, 6);
    fault(|relation| relation.time = LIMIT + 1, 6);
    fault(|relation| *relation = response(0, 1, 0), 6);
    fault(
        |relation| {
            *relation = Relation {
                time: 1,
                ..eventually(0, 1)
            }
        },
        6,
    );
    fault(
        |relation| {
            *relation = Relation {
                time: 1,
                ..includes(0, 1)
            }
        },
        6,
    );
    fault(
        |relation| {
            *relation = Relation {
                bounded: true,
                ..milestone(0, 1)
            }
        },
        6,
    );
    // What no image can hold. Cut down to their fields these would be right.
    fault(|relation| relation.kind = 9, 4);
    fault(|relation| relation.kind = 129, 4);
    fault(|relation| relation.left = 65, 5);
    fault(|relation| relation.left = 200, 5);
    fault(|relation| relation.right = 64, 5);
    fault(|relation| relation.time = 1_073_741_824, 6);
    fault(|relation| relation.time = 2_147_483_648, 6);
    fault(|relation| relation.time = u32::MAX, 6);
}

#[test]
fn within_a_relation_4_before_5_before_6_and_the_first_relation_first() {
    let all_wrong = Relation {
        kind: 9,
        left: 200,
        right: 200,
        bounded: true,
        time: 2_147_483_648,
    };
    let kind_right = Relation {
        kind: 3,
        ..all_wrong
    };
    let ends_right = Relation {
        left: 0,
        right: 0,
        ..kind_right
    };
    refused(&table(&[CONTROLLED], &[all_wrong]), 4);
    refused(&table(&[CONTROLLED], &[kind_right]), 5);
    refused(&table(&[CONTROLLED], &[ends_right]), 6);
    refused(&table(&[CONTROLLED], &[ends_right, all_wrong]), 6);
    refused(
        &table(&[CONTROLLED], &[kind_right, ends_right, all_wrong]),
        5,
    );
}

#[test]
fn last_14_for_a_short_buffer() {
    for (events, count) in [(1, 0), (1, 1), (2, 3), (64, 0), (64, 256)] {
        let classes = vec![CONTROLLED; events];
        let table = table(&classes, &vec![includes(0, 0); count]);
        let length = 4 + events + 6 * count;
        for short in [0, 3, 4, length.saturating_sub(6), length - 1] {
            let mut buffer = vec![LENT; short];
            assert_eq!(write_table(&table, &mut buffer), 14, "{short} of {length}");
            assert_eq!(buffer, vec![LENT; short]);
        }
        assert_eq!(written(&table).len(), length);
    }
}

#[test]
fn spare_bits_are_0_whatever_the_buffer_held() {
    for before in [0, 0xFF] {
        let mut buffer = [before; 11];
        let table = table(&[UNCONTROLLED], &[includes(0, 0)]);
        assert_eq!(write_table(&table, &mut buffer), 0);
        assert_eq!(buffer, [2, 1, 0, 0, 0, 0x60, 0, 0, 0, 0, 0]);
        buffer.fill(before);
        assert_eq!(write_table(&firm(&table), &mut buffer), 0);
        assert_eq!(buffer, [2, 1, 0x80, 0, 0, 0x60, 0, 0, 0, 0, 0]);
    }
}

#[test]
fn unused_places_are_not_looked_at() {
    let clean = table(&[CONTROLLED, UNCONTROLLED], &[response(0, 1, 3)]);
    let mut full = clean;
    full.controllable += u64::MAX - 3;
    full.causable += u64::MAX - 3;
    for relation in &mut full.relations[1..] {
        *relation = Relation {
            kind: 255,
            left: 255,
            right: 255,
            bounded: true,
            time: u32::MAX,
        };
    }
    assert_eq!(written(&full), written(&clean));
}
