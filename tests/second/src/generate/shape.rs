//! Tables and markings that the judge accepts, biased so that the static check
//! accepts most of them while there is still much for a guarded tick to do.

use crate::decoded::{Marking, Record, Relation, Table, MOST_EVENTS, MOST_RELATIONS, TIME_LIMIT};
use crate::event_set::from_word;
use crate::guarded::guarded_tick;
use crate::rng::Rng;
use crate::{closure, happen, plain_tick};

pub(super) const CONDITION: u8 = 1;
pub(super) const RESPONSE: u8 = 2;
pub(super) const INCLUDES: u8 = 3;
pub(super) const EXCLUDES: u8 = 4;
pub(super) const MILESTONE: u8 = 5;

/// What keeps a shaped table acceptable to the check: the closure stays within
/// the working events, whose inhibitions only lead to later ones.
struct Plan {
    events: usize,
    /// The place of each event in the order of inhibition.
    rank: Vec<usize>,
    working: Vec<bool>,
    controllable: Vec<bool>,
    causable: Vec<bool>,
    /// May be a milestone of a working event, and so no response of one.
    milestone: Vec<bool>,
}

impl Plan {
    fn new(rng: &mut Rng) -> Plan {
        let events = match rng.below(40) {
            0 => 1,
            1 => 2,
            2 => MOST_EVENTS,
            3 => MOST_EVENTS - 1,
            4 => rng.between(13, MOST_EVENTS),
            _ => rng.between(3, 12),
        };
        let mut rank: Vec<usize> = (0..events).collect();
        for place in (1..events).rev() {
            let other = rng.between(0, place);
            rank.swap(place, other);
        }
        let working: Vec<bool> = (0..events).map(|_| rng.chance(75)).collect();
        Plan {
            events,
            rank,
            controllable: (0..events).map(|_| rng.chance(70)).collect(),
            causable: (0..events)
                .map(|event| working[event] || rng.flag())
                .collect(),
            milestone: (0..events).map(|_| rng.chance(30)).collect(),
            working,
        }
    }

    fn events_where(&self, fits: impl Fn(usize) -> bool) -> Vec<usize> {
        (0..self.events).filter(|&event| fits(event)).collect()
    }

    /// A working event later than this one. Often the very next, so that
    /// inhibitors form chains.
    fn later(&self, rng: &mut Rng, event: usize, fits: impl Fn(usize) -> bool) -> Option<usize> {
        let mut choices = self.events_where(|other| {
            self.working[other] && self.rank[other] > self.rank[event] && fits(other)
        });
        choices.sort_by_key(|&other| self.rank[other]);
        if rng.flag() {
            choices.first().copied()
        } else {
            rng.pick(&choices)
        }
    }

    /// One more relation that leaves the check accepting, if the draw allows.
    fn relation(&self, rng: &mut Rng) -> Option<Relation> {
        let any = self.events_where(|_| true);
        let held = self.events_where(|event| self.controllable[event]);
        let kind = rng.one_of([
            CONDITION, CONDITION, CONDITION, RESPONSE, RESPONSE, RESPONSE, INCLUDES, EXCLUDES,
            EXCLUDES, MILESTONE, MILESTONE,
        ]);
        match kind {
            CONDITION => {
                let left = rng.pick(&held)?;
                if self.working[left] {
                    let right = self.later(rng, left, |_| true)?;
                    Some(relation(CONDITION, left, right, Some(0)))
                } else {
                    let time = some_time(rng);
                    Some(relation(CONDITION, left, rng.pick(&any)?, Some(time)))
                }
            }
            MILESTONE => {
                let left = rng.pick(&held)?;
                let right = if self.working[left] {
                    self.later(rng, left, |event| self.milestone[event])?
                } else {
                    rng.pick(&any)?
                };
                Some(relation(MILESTONE, left, right, None))
            }
            RESPONSE => self.response(rng, 15),
            INCLUDES => {
                let left = rng.pick(&any)?;
                let targets = self.events_where(|event| {
                    event == left || !self.working[left] || !self.working[event]
                });
                let right = if rng.chance(25) {
                    left
                } else {
                    rng.pick(&targets)?
                };
                Some(relation(INCLUDES, left, right, None))
            }
            _ => {
                let left = rng.pick(&any)?;
                Some(relation(EXCLUDES, left, rng.pick(&held)?, None))
            }
        }
    }

    /// A response that leaves the check accepting, if the draw allows. So many
    /// of a hundred are to the event itself.
    fn response(&self, rng: &mut Rng, own_percent: usize) -> Option<Relation> {
        let left = rng.below(self.events);
        let targets = self.events_where(|event| !(self.working[left] && self.milestone[event]));
        let right = if rng.chance(own_percent) && targets.contains(&left) {
            left
        } else {
            rng.pick(&targets)?
        };
        let bounded = self.working[right] && rng.chance(75);
        let time = if bounded {
            Some(some_time(rng).max(1))
        } else {
            None
        };
        Some(relation(RESPONSE, left, right, time))
    }

    fn record(&self, rng: &mut Rng, event: usize, busy_day: bool) -> Record {
        let mut record = some_record(rng);
        if busy_day && rng.chance(60) {
            record.pending = true;
            record.bounded = true;
            record.deadline = 0;
        }
        record.included = !self.controllable[event] || rng.chance(85);
        if !self.working[event] {
            record.bounded = false;
            record.deadline = 0;
        }
        record
    }
}

/// A relation, bounded where it has a time.
pub fn relation(kind: u8, left: usize, right: usize, time: Option<u32>) -> Relation {
    Relation {
        kind,
        left: left as u8,
        right: right as u8,
        bounded: time.is_some(),
        time: time.unwrap_or(0),
    }
}

pub(super) fn some_time(rng: &mut Rng) -> u32 {
    match rng.below(12) {
        0 => rng.one_of([TIME_LIMIT, TIME_LIMIT - 1]),
        1 => rng.word() % (TIME_LIMIT + 1),
        2 | 3 => 0,
        _ => rng.between(1, 5) as u32,
    }
}

/// The count of an event that has happened: the first ones, those about the
/// hold, and any.
fn some_count(rng: &mut Rng) -> u32 {
    match rng.below(8) {
        0 | 1 => 1,
        2 | 3 => rng.between(2, 9) as u32,
        4 => u32::MAX,
        5 => u32::MAX - 1,
        6 => u32::MAX - rng.below(6) as u32,
        _ => rng.word().max(1),
    }
}

pub(super) fn some_record(rng: &mut Rng) -> Record {
    let mut record = Record::EMPTY;
    record.included = rng.chance(75);
    if rng.chance(45) {
        record.happened = true;
        record.age = some_time(rng);
        record.count = some_count(rng);
    }
    if rng.chance(55) {
        record.pending = true;
        if rng.chance(75) {
            record.bounded = true;
            record.deadline = if rng.chance(60) { 0 } else { some_time(rng) };
        }
    }
    record
}

pub(super) fn push(table: &mut Table, relation: Relation) {
    if table.count < MOST_RELATIONS {
        table.relations[table.count] = relation;
        table.count += 1;
    }
}

pub(super) fn word_of(flags: &[bool]) -> u64 {
    flags
        .iter()
        .rev()
        .fold(0, |word, &flag| word * 2 + u64::from(flag))
}

fn relation_count(rng: &mut Rng, events: usize) -> usize {
    match rng.below(40) {
        0 => 0,
        1 => MOST_RELATIONS,
        2 => MOST_RELATIONS - 1,
        _ => rng.between(1, 3 * events).min(MOST_RELATIONS),
    }
}

/// A pair the check accepts.
pub(super) fn shaped(rng: &mut Rng) -> (Table, Marking) {
    let plan = Plan::new(rng);
    let mut table = Table::EMPTY;
    table.events = plan.events;
    table.controllable = word_of(&plan.controllable);
    table.causable = word_of(&plan.causable);
    table.firm = rng.flag();
    for _ in 0..relation_count(rng, plan.events) {
        if let Some(relation) = plan.relation(rng) {
            push(&mut table, relation);
        }
        // Exclusions among working events come in pairs, so that of two
        // needed events the first to be taken keeps the other from happening.
        if rng.chance(10) {
            let held = plan.events_where(|event| plan.working[event] && plan.controllable[event]);
            if let (Some(one), Some(other)) = (rng.pick(&held), rng.pick(&held)) {
                push(&mut table, relation(EXCLUDES, one, other, None));
                push(&mut table, relation(EXCLUDES, other, one, None));
            }
        }
    }
    let mut marking = Marking::EMPTY;
    marking.events = plan.events;
    // Some markings have much due at once.
    let busy_day = rng.chance(35);
    for event in 0..plan.events {
        marking.records[event] = plan.record(rng, event, busy_day);
    }
    if rng.chance(60) {
        add_meetings(rng, &plan, &mut table, &mut marking);
    }
    if rng.chance(35) {
        add_chain(rng, &plan, &mut table, &mut marking);
    }
    (table, marking)
}

/// A deadline sooner than this time, at it or later, often by 1 only. None:
/// eventually.
fn deadline_to_meet(rng: &mut Rng, time: u32) -> Option<u32> {
    match rng.below(8) {
        0 | 1 => None,
        2 => Some(0),
        3 | 4 => Some(time.saturating_sub(1)),
        5 => Some(time),
        6 => Some((time + 1).min(TIME_LIMIT)),
        _ => Some(some_time(rng)),
    }
}

/// Responses that meet an event which is pending already, be it the one that
/// responds. How the two deadlines stand to each other decides in a firm table.
fn add_meetings(rng: &mut Rng, plan: &Plan, table: &mut Table, marking: &mut Marking) {
    for _ in 0..rng.between(1, plan.events) {
        let Some(response) = plan.response(rng, 35) else {
            continue;
        };
        let (left, right) = (usize::from(response.left), usize::from(response.right));
        if !plan.working[right] {
            // It could only be pending eventually.
            continue;
        }
        push(table, response);
        let deadline = deadline_to_meet(rng, response.time);
        let record = &mut marking.records[right];
        record.pending = true;
        record.bounded = deadline.is_some();
        record.deadline = deadline.unwrap_or(0);
        // An event that is to respond to itself has to be included.
        if right != left && plan.controllable[right] && rng.chance(25) {
            record.included = false;
        }
    }
}

/// A due event, an inhibitor that blocks it, one that blocks that, and so on.
fn add_chain(rng: &mut Rng, plan: &Plan, table: &mut Table, marking: &mut Marking) {
    let mut chain = plan.events_where(|event| plan.working[event]);
    chain.sort_by_key(|&event| plan.rank[event]);
    // An uncontrollable event with an inhibitor would be reason 1.
    chain.retain(|&event| plan.controllable[event]);
    if rng.chance(80) {
        chain.truncate(rng.between(2, 6));
    }
    let Some(&first) = chain.first() else { return };
    // It may have happened before, and so have a count to add to.
    marking.records[first] = Record {
        included: true,
        pending: true,
        bounded: true,
        deadline: 0,
        ..marking.records[first]
    };
    for two in chain.windows(2) {
        let (left, right) = (two[0], two[1]);
        let record = &mut marking.records[right];
        record.included = true;
        if plan.milestone[right] {
            record.pending = true;
            push(table, relation(MILESTONE, left, right, None));
        } else {
            record.happened = false;
            record.age = 0;
            record.count = 0;
            push(table, relation(CONDITION, left, right, Some(0)));
        }
    }
}

/// A few steps on, so that ages and deadlines also come from running. Every
/// other event is passed over, by its class, or a seed would give other cases.
fn advanced(rng: &mut Rng, table: &Table, marking: &Marking) -> Marking {
    let controllable = from_word(table.controllable, table.events);
    let mut now = *marking;
    for _ in 0..rng.between(1, 6) {
        let event = rng.below(table.events);
        now = match (rng.below(4), controllable.contains(&event)) {
            (0, true) | (1, false) => happen(table, &now, event).marking,
            (0 | 1, _) => now,
            (2, _) => plain_tick(table, &now).marking,
            _ => guarded_tick(table, &now).marking,
        };
    }
    now
}

/// Brings one of the check's reasons about, or tries to: a lower reason may
/// apply as well, or the table may have no place for it.
pub(super) fn spoil(rng: &mut Rng, table: &mut Table, marking: &mut Marking) -> Option<()> {
    let controllable = from_word(table.controllable, table.events);
    let all: Vec<usize> = (0..table.events).collect();
    let free: Vec<usize> = all
        .iter()
        .copied()
        .filter(|event| !controllable.contains(event))
        .collect();
    let closure: Vec<usize> = from_word(closure(table, marking).set, table.events)
        .into_iter()
        .collect();
    let of_closure = |kinds: &[u8], table: &Table| -> Vec<usize> {
        (0..table.count)
            .filter(|&number| {
                let relation = &table.relations[number];
                kinds.contains(&relation.kind) && closure.contains(&usize::from(relation.left))
            })
            .collect()
    };
    match rng.between(1, 6) {
        1 => {
            let event = rng.pick(&free)?;
            let other = rng.pick(&all)?;
            match rng.below(4) {
                0 => marking.records[event].included = false,
                1 => push(table, relation(EXCLUDES, other, event, None)),
                2 => push(table, relation(CONDITION, event, other, Some(0))),
                _ => push(table, relation(MILESTONE, event, other, None)),
            }
        }
        2 => {
            let worth = 2u64.pow(rng.pick(&closure)? as u32);
            if table.causable & worth != 0 {
                table.causable -= worth;
            }
        }
        3 => {
            let number = rng.pick(&of_closure(&[CONDITION], table))?;
            table.relations[number].time = rng.one_of([1, 2, TIME_LIMIT]);
        }
        4 => {
            // Turn an inhibition back on itself, or an event on itself.
            let held: Vec<usize> = closure
                .iter()
                .copied()
                .filter(|event| controllable.contains(event))
                .collect();
            let back: Vec<(usize, usize)> = of_closure(&[CONDITION, MILESTONE], table)
                .into_iter()
                .map(|number| &table.relations[number])
                .map(|relation| (usize::from(relation.right), usize::from(relation.left)))
                .filter(|(left, _)| controllable.contains(left))
                .collect();
            let event = rng.pick(&held)?;
            let (left, right) = rng.pick(&back).unwrap_or((event, event));
            if rng.flag() {
                push(table, relation(CONDITION, left, right, Some(0)));
            } else {
                push(table, relation(MILESTONE, left, right, None));
            }
        }
        5 => {
            let number = rng.pick(&of_closure(&[MILESTONE], table))?;
            let right = usize::from(table.relations[number].right);
            let left = rng.pick(&closure)?;
            let time = if rng.flag() { Some(2) } else { None };
            push(table, relation(RESPONSE, left, right, time));
        }
        _ => {
            let left = rng.pick(&closure)?;
            let right = rng.pick(&closure)?;
            push(table, relation(INCLUDES, left, right, None));
        }
    }
    Some(())
}

/// A pair without any plan.
fn wild(rng: &mut Rng) -> (Table, Marking) {
    let events = match rng.below(10) {
        0 => rng.between(1, MOST_EVENTS),
        _ => rng.between(1, 6),
    };
    let mut table = Table::EMPTY;
    table.events = events;
    table.controllable = (rng.next_u64() | rng.next_u64()) % 2u64.pow(events.min(63) as u32);
    table.causable = (rng.next_u64() | rng.next_u64()) % 2u64.pow(events.min(63) as u32);
    table.firm = rng.flag();
    for _ in 0..rng.below(3 * events) {
        let left = rng.below(events);
        let right = rng.below(events);
        let kind = rng.between(1, 5) as u8;
        let time = match kind {
            CONDITION => Some(some_time(rng)),
            RESPONSE if rng.flag() => Some(some_time(rng).max(1)),
            _ => None,
        };
        push(&mut table, relation(kind, left, right, time));
    }
    let mut marking = Marking::EMPTY;
    marking.events = events;
    for record in marking.records.iter_mut().take(events) {
        *record = some_record(rng);
    }
    (table, marking)
}

pub fn pair(rng: &mut Rng) -> (Table, Marking) {
    if rng.chance(12) {
        return wild(rng);
    }
    let (mut table, mut marking) = shaped(rng);
    if rng.chance(30) {
        marking = advanced(rng, &table, &marking);
    }
    if rng.chance(30) {
        for _ in 0..rng.one_of([1, 1, 2]) {
            // None: there was no place for the reason drawn.
            let _ = spoil(rng, &mut table, &mut marking);
        }
    }
    (table, marking)
}
