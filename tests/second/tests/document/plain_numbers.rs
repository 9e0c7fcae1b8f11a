//! A table built from plain numbers and told back in them: worked by hand,
//! refusals and their order.

use crate::shop::*;
use second::*;

/// What stands in lent places before a call.
const LENT: u8 = 0xA5;
const LENT_NUMBER: u32 = 0xDEAD_BEEF;

/// The image of the table that is not firm. The firm one has one bit more.
fn built(events: usize, classes: &[u8], relations: &[u32]) -> Vec<u8> {
    let length = 4 + events + 6 * (relations.len() / 5);
    let [image, firm] = [0, 1].map(|firm| {
        let mut buffer = vec![LENT; length + 3];
        let given = build_table(events, firm, classes, relations, &mut buffer);
        assert_eq!(given, 0);
        assert_eq!(buffer.split_off(length), [LENT; 3]);
        buffer
    });
    assert_eq!(firm, firm_image(&image));
    image
}

/// The call is refused with this number for one such firm, and writes nothing,
/// however long the buffer is.
fn refused_with(firm: u32, (events, classes, relations): (usize, &[u8], &[u32]), number: u8) {
    for length in [0, 1, 4, 5, 10, 11, 2000] {
        let mut buffer = vec![LENT; length];
        let given = build_table(events, firm, classes, relations, &mut buffer);
        assert_eq!(given, number, "firm {firm}, room {length}");
        assert_eq!(buffer, vec![LENT; length]);
    }
}

/// The call is refused with this number for firm tables and others.
fn refused(events: usize, classes: &[u8], relations: &[u32], number: u8) {
    for firm in [0, 1] {
        refused_with(firm, (events, classes, relations), number);
    }
}

fn numbers_of(relations: &[Relation]) -> Vec<u32> {
    relations
        .iter()
        .flat_map(|relation| {
            let ends = [relation.left, relation.right].map(u32::from);
            let bounded = u32::from(relation.bounded);
            [
                relation.kind.into(),
                ends[0],
                ends[1],
                bounded,
                relation.time,
            ]
        })
        .collect()
}

#[test]
fn the_hex_table_of_the_shop() {
    let image = built(2, &[0x40, 0x80], &[2, 0, 0, 1, 1]);
    assert_eq!(image, [4, 1, 0, 0, 0x40, 0x80, 0x40, 1, 0, 0, 0, 4]);
    let mut places = [LENT_NUMBER; 5];
    assert_eq!(tell_relation(&image, 0, &mut places), 0);
    assert_eq!(places, [2, 0, 0, 1, 1]);
    for (event, expected) in [(0, 0x40), (1, 0x80)] {
        let mut place = LENT;
        assert_eq!(tell_class(&image, event, &mut place), 0);
        assert_eq!(place, expected);
    }
}

#[test]
fn p_from_its_numbers() {
    let classes = P_CLASSES.map(class_image);
    let image = built(5, &classes, &numbers_of(&p_relations()));
    assert_eq!(image, table_image(&P_CLASSES, &p_relations()));
}

#[test]
fn the_smallest_and_the_largest() {
    assert_eq!(built(1, &[0], &[]), [2, 0, 0, 0, 0]);
    let relations = [1, 63, 63, 1, LIMIT].repeat(256);
    let image = built(64, &[0xC0; 64], &relations);
    assert_eq!(image.len(), 1604);
    assert_eq!(image[..4], [0x81, 0, 0, 0]);
    assert_eq!(image[1598..], [0x3F, 0xFF, 0xEE, 0x6B, 0x28, 0]);
}

/// Neither 0 nor 1; some would be right again in 1, 8, 16 or 31 bits.
const NO_FIRM: [u32; 9] = [2, 3, 128, 255, 256, 257, 65_537, 2_147_483_648, u32::MAX];

#[test]
fn first_2_for_a_firm_that_is_neither_0_nor_1() {
    let right = [3, 0, 0, 0, 0];
    for firm in NO_FIRM {
        // Whatever else is wrong: counts, lengths, class bytes, relations.
        for events in [0, 1, 65, usize::MAX] {
            for classes in [&[][..], &[0], &[0xFF]] {
                for relations in [&[][..], &right, &right[..4], &[9; 5]] {
                    refused_with(firm, (events, classes, relations), 2);
                }
            }
        }
        refused_with(firm, (1, &[0], &right.repeat(257)), 2);
    }
}

#[test]
fn then_3_for_the_counts() {
    let right = [3, 0, 0, 0, 0];
    for events in [0, 65, 128, 129, 256, 257, usize::MAX] {
        // Whatever else is wrong: lengths, class bytes, relations.
        for classes in [&[][..], &[0], &[0xFF; 65]] {
            for relations in [&[][..], &right, &right[..4], &[9; 5]] {
                refused(events, classes, relations, 3);
            }
        }
    }
    for count in [257, 300, 512, 513] {
        let relations = right.repeat(count);
        refused(1, &[0], &relations, 3);
        refused(1, &[1, 1], &relations, 3);
        refused(1, &[0], &[9; 5].repeat(count), 3);
    }
    // 256 and a bit are not yet 257.
    let mut numbers = right.repeat(256);
    numbers.extend([3, 0, 0, 0]);
    refused(1, &[0], &numbers, 1);
    numbers.push(0);
    refused(1, &[0], &numbers, 3);
}

#[test]
fn then_1_for_the_lengths() {
    for classes in [&[][..], &[1], &[0xFF; 3]] {
        for relations in [&[][..], &[9, 0, 0, 0, 0], &[9, 0, 0]] {
            refused(2, classes, relations, 1);
        }
    }
    for length in [1, 2, 3, 4, 6, 9, 11] {
        refused(2, &[1, 1], &vec![9; length], 1);
    }
}

#[test]
fn then_2_for_another_bit_of_a_class_byte() {
    for bit in [1, 2, 4, 8, 16, 32] {
        for relations in [&[][..], &[9, 0, 0, 0, 0]] {
            refused(2, &[bit, 0xC0], relations, 2);
            refused(2, &[0xC0, 0x80 + bit], relations, 2);
        }
    }
}

#[test]
fn then_each_relation_4_5_6() {
    let fault = |numbers: [u32; 5], number: u8| {
        refused(2, &[0xC0, 0], &numbers, number);
        let behind = [[5, 0, 1, 0, 0], numbers].concat();
        refused(2, &[0xC0, 0], &behind, number);
        let before = [numbers, [0, 9, 9, 9, 9]].concat();
        refused(2, &[0xC0, 0], &before, number);
    };
    for kind in [
        0,
        6,
        7,
        8,
        9,
        11,
        255,
        256,
        257,
        259,
        65_537,
        1 << 31,
        u32::MAX,
    ] {
        fault([kind, 0, 1, 1, 7], 4);
        // Before a fault of its other numbers.
        fault([kind, 256, 0, 1, 7], 4);
        fault([kind, 0, 0, 2, 7], 4);
        fault([kind, u32::MAX, u32::MAX, u32::MAX, u32::MAX], 4);
    }
    for missing in [2, 63, 64, 65, 255, 256, 257, 65_536, 1 << 31, u32::MAX] {
        for kind in 1..=5 {
            fault([kind, missing, 0, u32::from(kind == 1), 0], 5);
            fault([kind, 0, missing, u32::from(kind == 1), 0], 5);
            fault([kind, missing, missing, 2, u32::MAX], 5);
        }
    }
    for bounded in [2, 3, 4, 255, 256, 257, 1 << 31, (1 << 31) + 1, u32::MAX] {
        for kind in 1..=5 {
            for time in [0, 1, LIMIT, u32::MAX] {
                fault([kind, 1, 0, bounded, time], 6);
            }
        }
    }
    for time in [
        LIMIT + 1,
        (1 << 30) - 1,
        1 << 30,
        (1 << 30) + 1,
        1 << 31,
        u32::MAX,
    ] {
        for kind in 1..=5 {
            fault([kind, 1, 0, 0, time], 6);
            fault([kind, 1, 0, 1, time], 6);
        }
    }
}

#[test]
fn bounded_and_time_by_kind() {
    for kind in 1..=5 {
        for bounded in [0, 1] {
            for time in [0, 1, LIMIT] {
                let right = match kind {
                    1 => bounded == 1,
                    2 => (bounded == 1) == (time > 0),
                    _ => bounded == 0 && time == 0,
                };
                let mut buffer = [LENT; 11];
                let numbers = [kind, 0, 0, bounded, time];
                for firm in [0, 1] {
                    let given = build_table(1, firm, &[0], &numbers, &mut buffer);
                    assert_eq!(given, if right { 0 } else { 6 }, "{numbers:?}");
                }
            }
        }
    }
}

#[test]
fn last_14_for_a_short_buffer() {
    let numbers = [3, 0, 0, 0, 0];
    for firm in [0, 1] {
        for length in 0..11 {
            let mut buffer = vec![LENT; length];
            assert_eq!(build_table(1, firm, &[0], &numbers, &mut buffer), 14);
            assert_eq!(buffer, vec![LENT; length]);
        }
        assert_eq!(build_table(1, firm, &[0], &numbers, &mut [LENT; 11]), 0);
    }
}

/// Neither a relation nor a class is told, and nothing is written.
fn not_told(image: &[u8], asked: usize, number: u8) {
    for length in [0, 4, 5, 6, 20] {
        let mut places = vec![LENT_NUMBER; length];
        assert_eq!(tell_relation(image, asked, &mut places), number);
        assert_eq!(places, vec![LENT_NUMBER; length]);
    }
    let mut place = LENT;
    assert_eq!(tell_class(image, asked, &mut place), number);
    assert_eq!(place, LENT);
}

/// Nor is firm, and its place stays.
fn firm_not_told(image: &[u8], number: u8) {
    for before in [0, 1, LENT_NUMBER] {
        let mut place = before;
        assert_eq!(tell_firm(image, &mut place), number);
        assert_eq!(place, before);
    }
}

#[test]
fn nothing_is_told_of_a_table_that_is_refused() {
    for (image, number) in refused_tables() {
        for asked in [0, 1, 64, usize::MAX] {
            not_told(&image, asked, number);
        }
        firm_not_told(&image, number);
        if image.len() > 2 {
            firm_not_told(&firm_image(&image), number);
        }
    }
}

#[test]
fn whether_a_table_is_firm_is_told() {
    let all = vec![includes(0, 0); 256];
    for image in [
        table_image(&[UNCONTROLLED], &[]),
        table_image(&P_CLASSES, &p_relations()),
        table_image(&[CONTROLLED; 64], &all),
    ] {
        for before in [0, 1, LENT_NUMBER] {
            let mut place = before;
            assert_eq!(tell_firm(&image, &mut place), 0);
            assert_eq!(place, 0);
            place = before;
            assert_eq!(tell_firm(&firm_image(&image), &mut place), 0);
            assert_eq!(place, 1);
        }
    }
}

/// What is told of relations and classes does not depend on firm.
#[test]
fn a_firm_table_is_told_as_any_other() {
    let image = table_image(&P_CLASSES, &p_relations());
    let firm = firm_image(&image);
    for relation in 0..7 {
        let mut places = [[LENT_NUMBER; 5]; 2];
        assert_eq!(
            tell_relation(&image, relation, &mut places[0]),
            tell_relation(&firm, relation, &mut places[1])
        );
        assert_eq!(places[0], places[1]);
    }
    for event in 0..6 {
        let mut places = [LENT; 2];
        assert_eq!(
            tell_class(&image, event, &mut places[0]),
            tell_class(&firm, event, &mut places[1])
        );
        assert_eq!(places[0], places[1]);
    }
}

#[test]
fn then_8_and_last_14() {
    let image = table_image(&[CONTROLLED; 2], &[includes(0, 1), milestone(1, 0)]);
    for missing in [2, 3, 63, 64, 255, 256, usize::MAX] {
        not_told(&image, missing, 8);
    }
    for length in 0..5 {
        let mut places = vec![LENT_NUMBER; length];
        assert_eq!(tell_relation(&image, 1, &mut places), 14);
        assert_eq!(places, vec![LENT_NUMBER; length]);
    }
    for length in [5, 6, 20] {
        let mut places = vec![LENT_NUMBER; length];
        assert_eq!(tell_relation(&image, 1, &mut places), 0);
        assert_eq!(places[..5], [5, 1, 0, 0, 0]);
        assert_eq!(places[5..], vec![LENT_NUMBER; length - 5]);
    }
}

#[test]
fn classes_of_every_sort() {
    let classes = [UNCONTROLLED, CAUSABLE_ONLY, CONTROLLABLE_ONLY, CONTROLLED];
    let image = table_image(&classes, &[]);
    for (event, expected) in [0, 0x40, 0x80, 0xC0].into_iter().enumerate() {
        let mut place = LENT;
        assert_eq!(tell_class(&image, event, &mut place), 0);
        assert_eq!(place, expected);
    }
}
