//! What is promised of a marking of the old form that is carried over, worded on
//! the two words of 32 bits that an old record is.

use super::{holds, Promise, RECORD};

/// The bytes of a record before there were counts.
const OLD_RECORD: usize = 8;

const LIMIT: u32 = 1_000_000_000;

fn words_of(record: &[u8]) -> [u32; 2] {
    [0, 4].map(|at| {
        let bytes = &record[at..at + 4];
        u32::from_be_bytes(bytes.try_into().expect("a word has four bytes"))
    })
}

fn has_happened(record: &[u8]) -> bool {
    record[0] >= 128
}

/// Whether an old record breaks the rules that it had.
fn is_broken(record: &[u8]) -> bool {
    let [first, second] = words_of(record);
    let age = first % 2_147_483_648 / 2;
    let deadline = second % 1_073_741_824;
    let (pending, bounded) = (second / 2_147_483_648 == 1, second / 1_073_741_824 % 2 == 1);
    (age > 0 && !has_happened(record))
        || (bounded && !pending)
        || (deadline > 0 && !bounded)
        || age > LIMIT
        || deadline > LIMIT
}

fn expected_number(events: usize, old: &[u8], room: usize) -> u8 {
    if events == 0 || events > 64 {
        3
    } else if old.len() != OLD_RECORD * events {
        1
    } else if old.chunks(OLD_RECORD).any(is_broken) {
        7
    } else if room < RECORD * events {
        14
    } else {
        0
    }
}

pub fn carry_marking_promise(
    events: usize,
    old: &[u8],
    before: &[u8],
    number: u8,
    after: &[u8],
) -> Promise {
    holds(
        number == expected_number(events, old, before.len()),
        "a marking is carried over or refused without cause",
    )?;
    if number != 0 {
        return holds(after == before, "a refused carry-over left something");
    }
    let mut expected = Vec::new();
    for record in old.chunks(OLD_RECORD) {
        expected.extend(record);
        expected.extend([0, 0, 0, u8::from(has_happened(record))]);
    }
    expected.extend(&before[RECORD * events..]);
    holds(after == expected, "a marking is carried over wrongly")
}
