//! What is promised of tables that are written, built from plain numbers and
//! told back in them. The images here are put together by plain arithmetic, so
//! that they do not lean on the library's own writer.

use super::{first_fault, holds, judge_table_promise, member, Promise, EMPTY_RELATION};
use second::*;

/// Kind, left, right, bounded, time.
type Five = [u32; 5];

fn five(relation: &Relation) -> Five {
    [
        u32::from(relation.kind),
        u32::from(relation.left),
        u32::from(relation.right),
        u32::from(relation.bounded),
        relation.time,
    ]
}

fn class(table: &Table, event: usize) -> u8 {
    let controllable = u8::from(member(table.controllable, event));
    let causable = u8::from(member(table.causable, event));
    128 * controllable + 64 * causable
}

/// There are as many events as class bytes.
fn image(firm: bool, classes: &[u8], relations: &[Five]) -> Vec<u8> {
    let counts = (512 * classes.len() + relations.len()) as u16;
    let [high, low] = counts.to_be_bytes();
    let mut image = vec![high, low, 128 * u8::from(firm), 0];
    image.extend(classes);
    for numbers in relations {
        let [kind, left, right, bounded, time] = numbers.map(u64::from);
        let ends = (kind * 64 + left) * 64 + right;
        let value = ((ends * 2 + bounded) * 1_073_741_824 + time) * 4;
        image.extend(&value.to_be_bytes()[2..]);
    }
    image
}

/// Of a call that writes an image: the number, and the buffer afterwards.
fn written(image: Result<Vec<u8>, u8>, before: &[u8], number: u8, after: &[u8]) -> Promise {
    let expected = match &image {
        Err(fault) => *fault,
        Ok(image) if before.len() < image.len() => 14,
        Ok(_) => 0,
    };
    holds(number == expected, "a table is written or refused wrongly")?;
    let image = match image {
        Ok(image) if number == 0 => image,
        _ => return holds(after == before, "a refused write left something"),
    };
    holds(
        after.len() == before.len() && after[image.len()..] == before[image.len()..],
        "later bytes are changed",
    )?;
    holds(after[..image.len()] == image, "the image is wrong")
}

fn unused_places_empty(table: &Table) -> Table {
    let mut table = *table;
    table.relations[table.count..].fill(EMPTY_RELATION);
    for event in table.events..64 {
        table.controllable &= !2u64.pow(event as u32);
        table.causable &= !2u64.pow(event as u32);
    }
    table
}

pub fn write_table_promise(table: &Table, before: &[u8], number: u8, after: &[u8]) -> Promise {
    let expected = match first_fault(table) {
        0 => {
            let classes: Vec<u8> = (0..table.events).map(|event| class(table, event)).collect();
            let fives: Vec<Five> = table.relations[..table.count].iter().map(five).collect();
            Ok(image(table.firm, &classes, &fives))
        }
        fault => Err(fault),
    };
    written(expected, before, number, after)?;
    if ![0, 14].contains(&number) {
        // The number that the reader gives for the image, where there is one.
        return judge_table_promise(table, number);
    }
    if number == 14 {
        return judge_table_promise(table, 0);
    }
    let length = 4 + table.events + 6 * table.count;
    let read = read_table(&after[..length]);
    holds(
        read.number == 0 && read.table == unused_places_empty(table),
        "a written table does not read back",
    )?;
    let mut again = vec![0xFF; length];
    holds(
        write_table(&read.table, &mut again) == 0 && again == after[..length],
        "writing what was read gives other bytes",
    )
}

/// The number that the relation's own rules give, 0 for none.
fn fault_of(events: usize, numbers: &Five) -> u8 {
    let &[kind, left, right, bounded, time] = numbers;
    if kind == 0 || kind > 5 {
        return 4;
    }
    if left as usize >= events || right as usize >= events {
        return 5;
    }
    let fits = match bounded {
        0 => kind != 1 && time == 0,
        1 => kind == 1 && time <= 1_000_000_000 || kind == 2 && (1..=1_000_000_000).contains(&time),
        _ => false,
    };
    if fits {
        0
    } else {
        6
    }
}

/// Events, firm, class bytes, and five numbers for each relation.
type Numbers<'a> = (usize, u32, &'a [u8], &'a [u32]);

fn image_of_numbers((events, firm, classes, relations): Numbers) -> Result<Vec<u8>, u8> {
    if firm > 1 {
        return Err(2);
    }
    if events == 0 || events > 64 || relations.len() / 5 > 256 {
        return Err(3);
    }
    if classes.len() != events || !relations.len().is_multiple_of(5) {
        return Err(1);
    }
    if classes.iter().any(|class| class % 64 != 0) {
        return Err(2);
    }
    let fives: Vec<Five> = relations
        .chunks(5)
        .map(|five| five.try_into().expect("five numbers"))
        .collect();
    match fives
        .iter()
        .map(|five| fault_of(events, five))
        .find(|&fault| fault != 0)
    {
        Some(fault) => Err(fault),
        None => Ok(image(firm == 1, classes, &fives)),
    }
}

pub fn build_table_promise(numbers: Numbers, before: &[u8], number: u8, after: &[u8]) -> Promise {
    written(image_of_numbers(numbers), before, number, after)?;
    if number != 0 {
        return Ok(());
    }
    let (_, firm, classes, relations) = numbers;
    let image = &after[..4 + classes.len() + 6 * (relations.len() / 5)];
    let mut place = !firm;
    holds(
        tell_firm(image, &mut place) == 0 && place == firm,
        "firm is not told as it was given",
    )?;
    for (event, class) in classes.iter().enumerate() {
        let mut place = !class;
        holds(
            tell_class(image, event, &mut place) == 0 && place == *class,
            "a class is not told as it was given",
        )?;
    }
    for (relation, numbers) in relations.chunks(5).enumerate() {
        let mut places = [7; 5];
        holds(
            tell_relation(image, relation, &mut places) == 0 && places == numbers,
            "a relation is not told as it was given",
        )?;
    }
    Ok(())
}

pub fn tell_relation_promise(
    image: &[u8],
    relation: usize,
    before: &[u32],
    number: u8,
    after: &[u32],
) -> Promise {
    let read = read_table(image);
    let expected = match read.number {
        0 if relation >= read.table.count => 8,
        0 if before.len() < 5 => 14,
        number => number,
    };
    holds(number == expected, "a relation is told or refused wrongly")?;
    if number != 0 {
        return holds(
            after == before,
            "a relation that is not told left something",
        );
    }
    holds(
        after[..5] == five(&read.table.relations[relation]) && after[5..] == before[5..],
        "the numbers told are wrong",
    )
}

pub fn tell_class_promise(
    image: &[u8],
    event: usize,
    before: u8,
    number: u8,
    after: u8,
) -> Promise {
    let read = read_table(image);
    let expected = match read.number {
        0 if event < read.table.events => (0, class(&read.table, event)),
        0 => (8, before),
        number => (number, before),
    };
    holds((number, after) == expected, "the class told is wrong")
}
