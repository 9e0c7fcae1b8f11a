//! Tables and markings for the tests. The images are put together here by
//! plain arithmetic, so that they do not lean on the library's own writer.

use second::*;

pub const LEAK: usize = 0;
pub const FLUSH: usize = 1;
pub const ISOLATE: usize = 2;
pub const STANDBY: usize = 3;
pub const DRAIN: usize = 4;

pub const LIMIT: u32 = 1_000_000_000;

/// Controllable, causable.
pub type Class = (bool, bool);
pub const CONTROLLED: Class = (true, true);
pub const UNCONTROLLED: Class = (false, false);
pub const CAUSABLE_ONLY: Class = (false, true);
pub const CONTROLLABLE_ONLY: Class = (true, false);

fn relation(kind: u8, left: usize, right: usize, bounded: bool, time: u32) -> Relation {
    Relation {
        kind,
        left: left as u8,
        right: right as u8,
        bounded,
        time,
    }
}

pub fn condition(left: usize, right: usize, time: u32) -> Relation {
    relation(1, left, right, true, time)
}

pub fn response(left: usize, right: usize, time: u32) -> Relation {
    relation(2, left, right, true, time)
}

pub fn eventually(left: usize, right: usize) -> Relation {
    relation(2, left, right, false, 0)
}

pub fn includes(left: usize, right: usize) -> Relation {
    relation(3, left, right, false, 0)
}

pub fn excludes(left: usize, right: usize) -> Relation {
    relation(4, left, right, false, 0)
}

pub fn milestone(left: usize, right: usize) -> Relation {
    relation(5, left, right, false, 0)
}

pub const NO_RELATION: Relation = Relation {
    kind: 0,
    left: 0,
    right: 0,
    bounded: false,
    time: 0,
};

pub const NO_RECORD: Record = Record {
    age: 0,
    deadline: 0,
    happened: false,
    included: false,
    pending: false,
    bounded: false,
    count: 0,
};

pub const NO_TABLE: Table = Table {
    relations: [NO_RELATION; 256],
    controllable: 0,
    causable: 0,
    events: 0,
    count: 0,
    firm: false,
};

pub const NO_MARKING: Marking = Marking {
    records: [NO_RECORD; 64],
    events: 0,
};

/// The decoded table, not firm.
pub fn table(classes: &[Class], relations: &[Relation]) -> Table {
    let mut table = NO_TABLE;
    table.events = classes.len();
    table.count = relations.len();
    for (event, class) in classes.iter().enumerate() {
        table.controllable += u64::from(class.0) * 2u64.pow(event as u32);
        table.causable += u64::from(class.1) * 2u64.pow(event as u32);
    }
    table.relations[..relations.len()].copy_from_slice(relations);
    table
}

/// The same table, firm.
pub fn firm(table: &Table) -> Table {
    Table {
        firm: true,
        ..*table
    }
}

/// The header of a table that is not firm, with its spare bits 0.
pub fn header(events: usize, relations: usize) -> [u8; 4] {
    let counts = (events * 512 + relations) as u16;
    let [high, low] = counts.to_be_bytes();
    [high, low, 0, 0]
}

pub fn class_image(class: Class) -> u8 {
    128 * u8::from(class.0) + 64 * u8::from(class.1)
}

/// Six bytes: kind 3, left 6, right 6, bounded 1, time 30, spare 2.
pub fn relation_image(relation: &Relation) -> [u8; 6] {
    let mut value = u64::from(relation.kind);
    value = value * 64 + u64::from(relation.left);
    value = value * 64 + u64::from(relation.right);
    value = value * 2 + u64::from(relation.bounded);
    value = value * 1_073_741_824 + u64::from(relation.time);
    value *= 4;
    let [_, _, bytes @ ..] = value.to_be_bytes();
    bytes
}

pub fn table_image(classes: &[Class], relations: &[Relation]) -> Vec<u8> {
    let mut image = header(classes.len(), relations.len()).to_vec();
    image.extend(classes.iter().map(|&class| class_image(class)));
    image.extend(relations.iter().flat_map(relation_image));
    image
}

/// The image of the same table, firm: the first bit behind the two counts is set.
pub fn firm_image(image: &[u8]) -> Vec<u8> {
    let mut image = image.to_vec();
    image[2] += 128;
    image
}

/// As records were before there were counts, eight bytes: happened 1, age 30,
/// included 1, pending 1, bounded 1, deadline 30.
pub fn old_record_image(record: &Record) -> [u8; 8] {
    let mut value = u64::from(record.happened);
    value = value * 1_073_741_824 + u64::from(record.age);
    value = value * 2 + u64::from(record.included);
    value = value * 2 + u64::from(record.pending);
    value = value * 2 + u64::from(record.bounded);
    value = value * 1_073_741_824 + u64::from(record.deadline);
    value.to_be_bytes()
}

/// Twelve bytes: those eight, then count 32.
pub fn record_image(record: &Record) -> [u8; 12] {
    let mut bytes = [0; 12];
    bytes[..8].copy_from_slice(&old_record_image(record));
    bytes[8..].copy_from_slice(&record.count.to_be_bytes());
    bytes
}

pub fn old_marking_image(marking: &Marking) -> Vec<u8> {
    marking.records[..marking.events]
        .iter()
        .flat_map(old_record_image)
        .collect()
}

pub fn marking_image(marking: &Marking) -> Vec<u8> {
    marking.records[..marking.events]
        .iter()
        .flat_map(record_image)
        .collect()
}

pub fn fresh_marking(events: usize) -> Marking {
    let answer = fresh(events);
    assert_eq!(answer.number, 0);
    answer.marking
}

pub fn included() -> Record {
    Record {
        included: true,
        ..NO_RECORD
    }
}

/// Included, and happened once.
pub fn happened(age: u32) -> Record {
    happened_often(age, 1)
}

pub fn happened_often(age: u32, count: u32) -> Record {
    Record {
        happened: true,
        age,
        count,
        ..included()
    }
}

/// Included and pending with this deadline.
pub fn pending(deadline: u32) -> Record {
    Record {
        pending: true,
        bounded: true,
        deadline,
        ..included()
    }
}

pub fn pending_eventually() -> Record {
    Record {
        pending: true,
        ..included()
    }
}

pub fn excluded(record: Record) -> Record {
    Record {
        included: false,
        ..record
    }
}

pub fn marking(records: &[Record]) -> Marking {
    let mut marking = NO_MARKING;
    marking.events = records.len();
    marking.records[..records.len()].copy_from_slice(records);
    marking
}

pub fn set(events: &[usize]) -> u64 {
    events.iter().map(|&event| 2u64.pow(event as u32)).sum()
}

pub fn caused(answer: &GuardedAnswer) -> Vec<u8> {
    answer.caused[..usize::from(answer.count)].to_vec()
}

pub const P_CLASSES: [Class; 5] = [
    UNCONTROLLED,
    CONTROLLED,
    CONTROLLED,
    UNCONTROLLED,
    CONTROLLED,
];

pub fn p_relations() -> Vec<Relation> {
    vec![
        response(LEAK, FLUSH, 3),
        condition(FLUSH, ISOLATE, 0),
        includes(LEAK, FLUSH),
        excludes(STANDBY, FLUSH),
        milestone(FLUSH, DRAIN),
        eventually(LEAK, DRAIN),
    ]
}

/// Asks the same of a table as decoded and as read from its image.
pub fn both_ways(classes: &[Class], relations: &[Relation], ask: impl Fn(&Table)) {
    let read = read_table(&table_image(classes, relations));
    assert_eq!(read.number, 0);
    ask(&table(classes, relations));
    ask(&read.table);
}

/// The same of a firm table.
pub fn firm_both_ways(classes: &[Class], relations: &[Relation], ask: impl Fn(&Table)) {
    let read = read_table(&firm_image(&table_image(classes, relations)));
    assert_eq!(read.number, 0);
    ask(&firm(&table(classes, relations)));
    ask(&read.table);
}

/// P, both ways.
pub fn for_p(ask: impl Fn(&Table)) {
    both_ways(&P_CLASSES, &p_relations(), ask);
}

/// P as a firm table, both ways.
pub fn for_firm_p(ask: impl Fn(&Table)) {
    firm_both_ways(&P_CLASSES, &p_relations(), ask);
}

/// P with one more relation.
pub fn for_p_and(added: Relation, ask: impl Fn(&Table)) {
    let mut relations = p_relations();
    relations.push(added);
    both_ways(&P_CLASSES, &relations, ask);
}

/// Fresh, flush excluded.
pub fn p_start() -> Marking {
    let mut marking = fresh_marking(5);
    marking.records[FLUSH].included = false;
    marking
}

/// The marking once this event has happened, which it may.
pub fn marking_after(table: &Table, marking: &Marking, event: usize) -> Marking {
    let answer = happen(table, marking, event);
    assert_eq!(answer.number, 0);
    answer.marking
}

/// So many guarded ticks, none of which causes anything.
pub fn quiet_guarded_ticks(table: &Table, marking: &Marking, ticks: usize) -> Marking {
    let mut now = *marking;
    for _ in 0..ticks {
        let answer = guarded_tick(table, &now);
        assert_eq!((answer.number, answer.reason, answer.place), (0, 0, 0));
        assert_eq!(caused(&answer), []);
        now = answer.marking;
    }
    now
}

/// Leak, three guarded ticks: flush is due.
pub fn p_flush_due(table: &Table) -> Marking {
    let after = marking_after(table, &p_start(), LEAK);
    quiet_guarded_ticks(table, &after, 3)
}

pub const ACCEPTED: CheckAnswer = CheckAnswer {
    number: 0,
    reason: 0,
    place: 0,
};

pub fn rejected(reason: u8, place: u16) -> CheckAnswer {
    CheckAnswer {
        number: 12,
        reason,
        place,
    }
}

/// Images that a table's reader refuses, with the number: one for each rule that
/// they can break.
pub fn refused_tables() -> Vec<(Vec<u8>, u8)> {
    let wrong_kind = Relation {
        kind: 6,
        ..includes(0, 0)
    };
    let wrong_time = Relation {
        time: 1,
        ..includes(0, 0)
    };
    vec![
        (vec![], 1),
        (table_image(&[CONTROLLED], &[])[..4].to_vec(), 1),
        (vec![2, 0, 0, 1, 0], 2),
        (vec![2, 0, 0, 0, 1], 2),
        (header(0, 0).to_vec(), 3),
        (table_image(&[CONTROLLED; 65], &[]), 3),
        (table_image(&[CONTROLLED], &[wrong_kind]), 4),
        (table_image(&[CONTROLLED], &[includes(0, 1)]), 5),
        (table_image(&[CONTROLLED], &[wrong_time]), 6),
    ]
}
