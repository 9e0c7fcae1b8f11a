//! Whole inputs of the station program.

use crate::edges::happening;
use crate::shop;
use second::case::{Case, Pair};
use second::generate::{marking_image, old_marking_image, station_case, table_image};
use second::rng::Rng;
use second::{fresh, station, Marking, Record, Relation, Step, Table, RECORD_BYTES};
use std::collections::BTreeSet;

/// What the station can refuse an input with.
pub const REFUSALS: [u8; 8] = [1, 2, 3, 4, 5, 6, 7, 14];

/// What it can answer to a step.
pub const ANSWERS: [u8; 6] = [0, 8, 10, 11, 12, 15];

const LONGEST_TRACE: usize = 4096;

/// What an input shows: its refusal, or the answers to its steps.
#[derive(Clone, Copy, PartialEq, Eq, PartialOrd, Ord, Debug)]
pub enum Shown {
    Refusal(u8),
    Answer(u8),
}

/// All that can be shown.
pub fn wanted() -> BTreeSet<Shown> {
    let refusals = REFUSALS.into_iter().map(Shown::Refusal);
    refusals
        .chain(ANSWERS.into_iter().map(Shown::Answer))
        .collect()
}

/// A single byte is a refusal: a record is longer, and there is one at least. Else the end marking, of as many events as the first 7 bits of the input say,
/// follows on the answers.
pub fn shown(input: &[u8], output: &[u8]) -> BTreeSet<Shown> {
    if let [number] = output {
        return [Shown::Refusal(*number)].into();
    }
    let records = RECORD_BYTES * usize::from(input[0] / 2);
    let answers = &output[..output.len() - records];
    answers.iter().copied().map(Shown::Answer).collect()
}

pub fn random(rng: &mut Rng) -> Vec<u8> {
    match station_case(rng) {
        Case::Station { input } => input,
        _ => unreachable!("the case is the station's"),
    }
}

/// A few inputs that together show all that can be shown.
fn one_of_each() -> Vec<Vec<u8>> {
    let mut rng = Rng::new(0);
    let mut missing = wanted();
    let mut inputs = Vec::new();
    while !missing.is_empty() {
        let input = random(&mut rng);
        let shown = shown(&input, &station(&input));
        if !missing.is_disjoint(&shown) {
            missing = &missing - &shown;
            inputs.push(input);
        }
    }
    inputs
}

/// The images of a table of so many relations, which are condition, response,
/// includes and excludes in turn, and of its fresh marking.
fn images(events: usize, count: usize) -> Vec<u8> {
    let mut table = Table::EMPTY;
    (table.events, table.count, table.causable) = (events, count, u64::MAX);
    for (number, relation) in table.relations.iter_mut().take(count).enumerate() {
        let kind = 1 + (number % 4) as u8;
        *relation = Relation {
            kind,
            left: (number % events) as u8,
            right: (number / 4 % events) as u8,
            bounded: kind == 1,
            time: 0,
        };
    }
    [table_image(&table), marking_image(&fresh(events).marking)].concat()
}

/// One event that was executed so often, and a table without relations.
fn counted(count: u32) -> (Vec<u8>, Marking) {
    let mut table = Table::EMPTY;
    table.events = 1;
    let mut marking = fresh(1).marking;
    marking.records[0] = Record {
        happened: count > 0,
        count,
        ..marking.records[0]
    };
    (table_image(&table), marking)
}

/// The event three times at the first counts and about the hold; and a marking of
/// the old form, before no steps and before as many as make its length up.
fn counted_inputs() -> Vec<Vec<u8>> {
    let steps = vec![1, 0, 0, 0, 1, 0];
    let of = |count: u32| {
        let (table, marking) = counted(count);
        [table, marking_image(&marking), steps.clone()].concat()
    };
    let counts = [0, 1, u32::MAX - 4, u32::MAX - 2, u32::MAX - 1, u32::MAX];
    let mut inputs: Vec<Vec<u8>> = counts.into_iter().map(of).collect();
    let (table, marking) = counted(1);
    let old = [table, old_marking_image(&marking)].concat();
    inputs.push(old.clone());
    inputs.push([old, steps].concat());
    inputs
}

fn played((pair, steps): (Pair, Vec<Step>)) -> Vec<u8> {
    let mut input = [table_image(&pair.table), marking_image(&pair.marking)].concat();
    input.extend(steps.iter().flat_map(|step| [step.kind, step.event]));
    input
}

/// The shop, its table firm and not, where a leak comes again; and a minute more.
fn firm_inputs() -> Vec<Vec<u8>> {
    let mut inputs = Vec::new();
    for firm in [false, true] {
        for mut steps in [shop::repeated(), shop::brought_back()] {
            steps.push(Step { kind: 3, event: 0 });
            inputs.push(played((shop::pair(firm), steps)));
        }
    }
    inputs
}

/// The images and steps of so many bytes: events by either kind, and a tick now and
/// then.
fn with_steps(images: &[u8], bytes: usize) -> Vec<u8> {
    let steps = (0..bytes).map(|place| match place / 2 % 5 {
        4 => [2, 0][place % 2],
        step => [step as u8 / 2, step as u8][place % 2],
    });
    images.iter().copied().chain(steps).collect()
}

/// Inputs at the limits, the same in every run.
pub fn edges() -> Vec<Vec<u8>> {
    let mut inputs = one_of_each();
    inputs.extend(counted_inputs());
    inputs.extend(firm_inputs());
    inputs.extend(happening::traces().into_iter().map(played));
    for (events, count) in [(1, 0), (5, 20), (64, 256)] {
        let images = images(events, count);
        // Every end within the header, and around the ends of table and marking.
        let table = images.len() - RECORD_BYTES * events;
        let ends = [table - 1, table, table + 1, images.len() - 1, images.len()];
        inputs.extend(ends.map(|end| images[..end].to_vec()));
        inputs.extend((0..4).map(|end| images[..end].to_vec()));
        for steps in [1, LONGEST_TRACE - 1, LONGEST_TRACE, LONGEST_TRACE + 1] {
            inputs.extend([2 * steps, 2 * steps + 1].map(|bytes| with_steps(&images, bytes)));
        }
        // Far past what is kept, even and odd.
        inputs.extend([5_000_000, 5_000_001].map(|bytes| with_steps(&images, bytes)));
    }
    inputs.push(vec![255; 3_000_000]);
    inputs
}

#[cfg(test)]
mod tests {
    use super::*;

    #[test]
    fn the_edges_show_all_that_can_be_shown() {
        let all = edges();
        let seen: BTreeSet<Shown> = all
            .iter()
            .flat_map(|input| shown(input, &station(input)))
            .collect();
        assert_eq!(seen, wanted());
        assert!(all.contains(&Vec::new()), "the empty input");
    }

    #[test]
    fn a_count_is_held_over_the_steps_of_an_input() {
        let ends: Vec<Vec<u8>> = counted_inputs().iter().map(|i| station(i)).collect();
        let counts = [3, 4, u32::MAX - 1, u32::MAX, u32::MAX, u32::MAX];
        for (end, count) in ends.iter().zip(counts) {
            let record = [[0x80, 0, 0, 1], [0; 4], count.to_be_bytes()].concat();
            assert_eq!(*end, [&[0; 3][..], &record].concat());
        }
        // Too short; then the steps stand where a count would.
        assert_eq!(ends[6], [1]);
        assert_eq!(ends[7][0], 0);
        assert_eq!(ends[7][9..], [1, 0, 0, 1]);
    }

    #[test]
    fn a_second_leak_puts_the_flush_off_only_where_the_table_is_not_firm() {
        let ends: Vec<Vec<u8>> = firm_inputs().iter().map(|i| station(i)).collect();
        // The flush's record behind the answers, which are all 0, and the leak's.
        let flush = |end: &Vec<u8>| end[end.len() - 4 * RECORD_BYTES..][..8].to_vec();
        let waiting = |deadline: u8| vec![0, 0, 0, 1, 0xC0, 0, 0, deadline];
        assert_eq!(flush(&ends[0]), waiting(2));
        assert_eq!(flush(&ends[1]), waiting(2));
        assert_eq!(flush(&ends[2]), waiting(0));
        // It was due at once, and the minute has caused it.
        assert_eq!(flush(&ends[3]), [0x80, 0, 0, 3, 0, 0, 0, 0]);
    }

    #[test]
    fn a_full_input_is_granted_and_one_step_more_is_not() {
        let images = images(64, 256);
        let full = with_steps(&images, 2 * LONGEST_TRACE);
        assert_eq!(full.len(), 10_564);
        assert_eq!(station(&full).len(), 4_864);
        assert_eq!(station(&[&full[..], &[0, 0]].concat()), [14]);
        assert_eq!(station(&[&full[..], &[0]].concat()), [1]);
    }
}
