//! The answers of bad carriers put to the promises.

use super::{all_noticed, written};
use second::case::{Answer, Case};
use second::{OLD_RECORD_BYTES, RECORD_BYTES};

/// An image of the old form with the counts that this gives, over as much of a
/// buffer as there is.
fn carried_over(old: &[u8], buffer: &[u8], count: impl Fn(&[u8]) -> Vec<u8>) -> Vec<u8> {
    let mut buffer = buffer.to_vec();
    let image = old
        .chunks(OLD_RECORD_BYTES)
        .flat_map(|record| [record.to_vec(), count(record)].concat());
    for (place, byte) in buffer.iter_mut().zip(image) {
        *place = byte;
    }
    buffer
}

/// Answers of bad carriers. None where the answer happens to be right.
fn bad_carried(
    old: &[u8],
    before: &[u8],
    number: u8,
    after: &[u8],
) -> Vec<(&'static str, u8, Vec<u8>)> {
    let right = |record: &[u8]| vec![0, 0, 0, record[0] / 128];
    let mut bad = vec![
        ("refuses everything", 14, before.to_vec()),
        ("does nothing", 0, before.to_vec()),
        ("gives a constant answer", 0, vec![0; before.len()]),
    ];
    if number != 0 {
        let over = carried_over(old, before, right);
        bad.push(("writes on a refusal", number, over.clone()));
        bad.push(("writes what it should refuse", 0, over));
    } else {
        let counts = |count: u8| carried_over(old, before, |_| vec![0, 0, 0, count]);
        bad.push(("counts nothing", 0, counts(0)));
        bad.push(("counts all", 0, counts(1)));
        let low_first = |record: &[u8]| vec![record[0] / 128, 0, 0, 0];
        let swapped = carried_over(old, before, low_first);
        bad.push(("has the low byte first", 0, swapped));
        let copied = carried_over(old, before, |_| Vec::new());
        bad.push(("copies the old image", 0, copied));
        let mut zeroed = carried_over(old, before, right);
        let length = RECORD_BYTES * (old.len() / OLD_RECORD_BYTES);
        zeroed[length..].fill(0);
        bad.push(("zeroes later bytes", 0, zeroed));
    }
    bad.retain(|(_, bad_number, buffer)| (*bad_number, buffer.as_slice()) != (number, after));
    bad
}

#[test]
fn bad_carriers_are_noticed() {
    all_noticed(10, |case, answer| match (case, answer) {
        (
            Case::CarryMarking {
                old,
                buffer: before,
                ..
            },
            Answer::Written { number, buffer },
        ) => written(bad_carried(old, before, *number, buffer)),
        _ => Vec::new(),
    });
}
