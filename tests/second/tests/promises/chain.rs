//! What is promised of chains. Together these leave one answer only: the entries
//! below a relation stand right behind it, so what is left out there could not be
//! made up for later.

use super::returning::waits;
use super::{holds, judged, Promise};
use second::case::Pair;
use second::*;
use std::collections::BTreeSet;

/// The fewest places that a list may have.
const PLACES: usize = 256;

/// A place of the list, taken apart, and the relation that it names.
struct Entry {
    number: usize,
    depth: usize,
    left: usize,
    right: usize,
}

fn expected_number(pair: &Pair, event: usize, places: usize) -> u8 {
    match judged(pair) {
        0 if event >= pair.table.events => 8,
        0 if places < PLACES => 14,
        number => number,
    }
}

fn entries(table: &Table, places: &[u16]) -> Result<Vec<Entry>, String> {
    let mut entries = Vec::new();
    for place in places {
        let number = usize::from(place / 256);
        holds(number < table.count, "no such relation is listed")?;
        let relation = &table.relations[number];
        entries.push(Entry {
            number,
            depth: usize::from(place % 256),
            left: relation.left.into(),
            right: relation.right.into(),
        });
    }
    Ok(entries)
}

/// The events that are opened, found by passing over all relations until nothing
/// is added.
fn opened(pair: &Pair, asked: usize) -> BTreeSet<usize> {
    let Pair { table, marking } = pair;
    let mut opened = BTreeSet::new();
    if marking.records[asked].included {
        opened.insert(asked);
    }
    loop {
        let before = opened.len();
        for relation in &table.relations[..table.count] {
            if opened.contains(&relation.left.into()) && waits(relation, marking) {
                opened.insert(relation.right.into());
            }
        }
        if opened.len() == before {
            return opened;
        }
    }
}

/// Listed are the blocking relations of the opened events, each once.
fn listed_promise(pair: &Pair, asked: usize, entries: &[Entry]) -> Promise {
    let opened = opened(pair, asked);
    for (number, relation) in pair.table.relations[..pair.table.count].iter().enumerate() {
        let stands_in_the_way =
            opened.contains(&relation.left.into()) && waits(relation, &pair.marking);
        let times = entries
            .iter()
            .filter(|entry| entry.number == number)
            .count();
        holds(times <= 1, "a relation is listed twice")?;
        holds(
            times == usize::from(stands_in_the_way),
            "listed are not the relations that stand in the way",
        )?;
    }
    Ok(())
}

/// The first entry is what holds the event up; without one, nothing does.
fn hold_up_promise(pair: &Pair, asked: usize, entries: &[Entry]) -> Promise {
    let held_up = match hold_up(&pair.table, &pair.marking, asked) {
        HoldUpAnswer::Blocked(number) => Some((number, 0)),
        _ => None,
    };
    let first = entries.first().map(|entry| (entry.number, entry.depth));
    holds(first == held_up, "the chain does not start at the hold-up")
}

/// Depth 0 is the asked event's own. Any other entry hangs on the last one before
/// it that is one less deep, whose right event is its left one.
fn depth_promise(asked: usize, entries: &[Entry]) -> Promise {
    for (place, entry) in entries.iter().enumerate() {
        holds(
            (entry.depth == 0) == (entry.left == asked),
            "depth 0 is not the asked event's own",
        )?;
        if entry.depth == 0 {
            continue;
        }
        let mut before = entries[..place].iter().rev();
        let above = before.find(|other| other.depth + 1 == entry.depth);
        holds(
            above.is_some_and(|above| above.right == entry.left),
            "an entry hangs on no relation to its event",
        )?;
    }
    Ok(())
}

/// The relations of one event are in table order.
fn table_order_promise(entries: &[Entry]) -> Promise {
    for (place, entry) in entries.iter().enumerate() {
        let later = &entries[place + 1..];
        let own = later.iter().filter(|other| other.left == entry.left);
        for other in own {
            holds(entry.number < other.number, "not in table order")?;
            holds(entry.depth == other.depth, "one event at two depths")?;
        }
    }
    Ok(())
}

/// What is below a relation stands right behind it, and something is below it
/// exactly where it is the first to lead to its event and that one is blocked.
fn visit_promise(asked: usize, entries: &[Entry]) -> Promise {
    for (place, entry) in entries.iter().enumerate() {
        let first_visit = entry.right != asked
            && entries[..place]
                .iter()
                .all(|before| before.right != entry.right);
        let blocked = entries.iter().any(|other| other.left == entry.right);
        let depth_behind = entries.get(place + 1).map(|next| next.depth);
        let expected = entry.depth + 1;
        if first_visit && blocked {
            holds(
                depth_behind == Some(expected),
                "an event is not opened at its first visit",
            )?;
        } else {
            holds(
                depth_behind.is_none_or(|depth| depth < expected),
                "an event is opened again, or nothing is",
            )?;
        }
    }
    Ok(())
}

pub fn chain_promise(
    pair: &Pair,
    asked: usize,
    before: &[u16],
    answer: &ChainAnswer,
    after: &[u16],
) -> Promise {
    holds(
        answer.number == expected_number(pair, asked, before.len()),
        "the wrong number",
    )?;
    if answer.number != 0 {
        return holds(
            answer.count == 0 && after == before,
            "a refusal lists something",
        );
    }
    holds(
        after.len() == before.len() && answer.count <= after.len(),
        "more is counted than there is room for",
    )?;
    holds(
        after[answer.count..] == before[answer.count..],
        "places past the count are changed",
    )?;
    let entries = entries(&pair.table, &after[..answer.count])?;
    listed_promise(pair, asked, &entries)?;
    hold_up_promise(pair, asked, &entries)?;
    depth_promise(asked, &entries)?;
    table_order_promise(&entries)?;
    visit_promise(asked, &entries)
}
