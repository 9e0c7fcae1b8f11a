//! The sorts of chains, by what comes up on the way down.

use crate::returning::sorts::{inhibitions, right_of, would_block};
use second::case::{Answer, Case, Pair};
use second::{judge_marking, judge_table};

pub const SORTS: [&str; 36] = [
    "nothing, as the event is enabled",
    "nothing, as what would block is ignored",
    "nothing, as the event is excluded",
    "nothing, as the event that is blocked is excluded",
    "one relation",
    "many relations",
    "256 relations",
    "256 relations of one event",
    "depth 1",
    "depth 5 or more",
    "depth 62 or more",
    "up by one level",
    "up by several levels",
    "a relation to itself",
    "back to the asked event",
    "back to an event on the way down",
    "to an event opened elsewhere",
    "two relations with the same ends",
    "an event first visited by the longer way",
    "not by number",
    "a condition that never happened",
    "a condition that waits",
    "a condition that waits for 1 tick more",
    "a milestone with a deadline",
    "a milestone pending eventually",
    "an event of the chain ignores one",
    "an event of the chain has one that is settled",
    "an event off the chain is blocked",
    "a right event that is enabled",
    "in a firm table",
    "room for 256",
    "room for 257",
    "room for more",
    "no room",
    "room for 255",
    "no such event, and no room",
];

/// Those of the event's relations whose right event is included and waited for.
pub fn waiting(pair: &Pair, event: usize) -> Vec<usize> {
    let mut numbers = inhibitions(&pair.table, event);
    numbers.retain(|&number| right_of(pair, number).included && would_block(pair, number));
    numbers
}

/// The relations that block the event. An excluded one has none.
pub fn blocking(pair: &Pair, event: usize) -> Vec<usize> {
    match pair.marking.records[event].included {
        true => waiting(pair, event),
        false => Vec::new(),
    }
}

/// A place of the list, with the ends of its relation.
#[derive(Clone, Copy)]
struct Entry {
    number: usize,
    depth: usize,
    left: usize,
    right: usize,
}

fn entries(pair: &Pair, places: &[u16]) -> Vec<Entry> {
    let entry = |place: &u16| {
        let number = usize::from(place / 256);
        let relation = &pair.table.relations[number];
        Entry {
            number,
            depth: usize::from(place % 256),
            left: relation.left.into(),
            right: relation.right.into(),
        }
    };
    places.iter().map(entry).collect()
}

/// The facts that are true.
pub fn true_ones<const N: usize>(facts: [(bool, &'static str); N]) -> Vec<&'static str> {
    let found = facts.into_iter().filter(|(fact, _)| *fact);
    found.map(|(_, sort)| sort).collect()
}

fn of_nothing(pair: &Pair, event: usize) -> &'static str {
    let ignored = inhibitions(&pair.table, event);
    match (
        pair.marking.records[event].included,
        waiting(pair, event).is_empty(),
    ) {
        (false, true) => "nothing, as the event is excluded",
        (false, false) => "nothing, as the event that is blocked is excluded",
        (true, _) if ignored.iter().any(|&number| would_block(pair, number)) => {
            "nothing, as what would block is ignored"
        }
        (true, _) => "nothing, as the event is enabled",
    }
}

fn of_size(entries: &[Entry]) -> Vec<&'static str> {
    let deepest = entries.iter().map(|entry| entry.depth).max().unwrap_or(0);
    let one_event = entries.iter().all(|entry| entry.depth == 0);
    true_ones([
        (entries.len() == 1, "one relation"),
        (entries.len() > 20, "many relations"),
        (entries.len() == 256, "256 relations"),
        (
            entries.len() == 256 && one_event,
            "256 relations of one event",
        ),
        (deepest == 1, "depth 1"),
        (deepest >= 5, "depth 5 or more"),
        (deepest >= 62, "depth 62 or more"),
    ])
}

/// The events on the way down to an entry, the asked one first.
fn way_down(entries: &[Entry], place: usize) -> Vec<usize> {
    let mut way = vec![entries[place].left];
    let mut depth = entries[place].depth;
    for above in entries[..place].iter().rev() {
        if above.depth + 1 == depth {
            way.insert(0, above.left);
            depth = above.depth;
        }
    }
    way
}

/// Of an entry that opens nothing, or opens an event by a longer way than there is.
fn of_way(entries: &[Entry], place: usize) -> Vec<&'static str> {
    let entry = &entries[place];
    let way = way_down(entries, place);
    let earlier = entries[..place].iter();
    let later = &entries[place + 1..];
    let opened_before = earlier.clone().any(|other| other.right == entry.right);
    let on_the_way = way[..way.len() - 1].contains(&entry.right);
    let itself = entry.left == entry.right;
    let asked = way[0] == entry.right;
    true_ones([
        (itself, "a relation to itself"),
        (asked && !itself, "back to the asked event"),
        (
            on_the_way && !asked && !itself,
            "back to an event on the way down",
        ),
        (
            opened_before && !on_the_way && !itself,
            "to an event opened elsewhere",
        ),
        (
            later
                .iter()
                .any(|other| (other.left, other.right) == (entry.left, entry.right)),
            "two relations with the same ends",
        ),
        (
            !opened_before
                && !asked
                && later
                    .iter()
                    .any(|other| other.right == entry.right && other.depth < entry.depth),
            "an event first visited by the longer way",
        ),
    ])
}

fn of_steps(entries: &[Entry]) -> Vec<&'static str> {
    let ups = |up: usize| {
        entries
            .windows(2)
            .any(|two| two[0].depth.saturating_sub(two[1].depth).min(2) == up)
    };
    true_ones([
        (ups(1), "up by one level"),
        (ups(2), "up by several levels"),
        (
            entries.windows(2).any(|two| two[0].number > two[1].number),
            "not by number",
        ),
    ])
}

fn of_kind(pair: &Pair, number: usize) -> Vec<&'static str> {
    let relation = &pair.table.relations[number];
    let right = right_of(pair, number);
    let condition = relation.kind == 1;
    true_ones([
        (
            condition && !right.happened,
            "a condition that never happened",
        ),
        (condition && right.happened, "a condition that waits"),
        (
            condition && right.happened && right.age + 1 == relation.time,
            "a condition that waits for 1 tick more",
        ),
        (!condition && right.bounded, "a milestone with a deadline"),
        (
            !condition && !right.bounded,
            "a milestone pending eventually",
        ),
    ])
}

/// What there is besides the listed relations.
fn of_others(pair: &Pair, entries: &[Entry]) -> Vec<&'static str> {
    let on_chain = |event: usize| entries.iter().any(|entry| entry.left == event);
    let lefts = || (0..pair.table.events).filter(|&event| on_chain(event));
    let any_of = |fits: &dyn Fn(usize) -> bool| {
        lefts().any(|event| inhibitions(&pair.table, event).into_iter().any(fits))
    };
    let ignored = |number| !right_of(pair, number).included && would_block(pair, number);
    let settled = |number| !would_block(pair, number);
    let blocked_elsewhere = |event: usize| !on_chain(event) && !blocking(pair, event).is_empty();
    true_ones([
        (any_of(&ignored), "an event of the chain ignores one"),
        (
            any_of(&settled),
            "an event of the chain has one that is settled",
        ),
        (
            (0..pair.table.events).any(blocked_elsewhere),
            "an event off the chain is blocked",
        ),
        (
            entries.iter().any(|entry| !on_chain(entry.right)),
            "a right event that is enabled",
        ),
        (pair.table.firm, "in a firm table"),
    ])
}

fn of_done(pair: &Pair, event: usize, places: &[u16]) -> Vec<&'static str> {
    let entries = entries(pair, places);
    if entries.is_empty() {
        return vec![of_nothing(pair, event)];
    }
    let mut sorts = of_size(&entries);
    sorts.extend(of_steps(&entries));
    sorts.extend(of_others(pair, &entries));
    for (place, entry) in entries.iter().enumerate() {
        sorts.extend(of_way(&entries, place));
        sorts.extend(of_kind(pair, entry.number));
    }
    sorts
}

/// Of the lent list, where table and marking are not refused.
fn of_room(number: u8, room: usize) -> Vec<&'static str> {
    match (number, room) {
        (0, 256) => vec!["room for 256"],
        (0, 257) => vec!["room for 257"],
        (0, _) => vec!["room for more"],
        (14, 0) => vec!["no room"],
        (14, 255) => vec!["room for 255"],
        (8, 0..=255) => vec!["no such event, and no room"],
        _ => Vec::new(),
    }
}

/// Each sort once.
pub fn sorts_of(case: &Case, answer: &Answer) -> Vec<&'static str> {
    let (
        Case::Chain { pair, event, .. },
        Answer::Chain {
            number,
            count,
            list,
        },
    ) = (case, answer)
    else {
        return Vec::new();
    };
    if judge_table(&pair.table) != 0 || judge_marking(pair.table.events, &pair.marking) != 0 {
        return Vec::new();
    }
    let mut sorts = of_room(*number, list.len());
    if *number == 0 {
        sorts.extend(of_done(pair, *event, &list[..*count]));
    }
    sorts.sort();
    sorts.dedup();
    sorts
}
