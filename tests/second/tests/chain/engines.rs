//! Engines that have the chain wrong. Some would go on for ever on a cycle: those
//! stop when there is no more room in the list.

use super::sorts::{blocking, waiting};
use crate::returning::sorts::{inhibitions, right_of, would_block};
use second::case::{Answer, Case, Pair};
use std::collections::{BTreeMap, BTreeSet};

/// A relation and its depth.
type Visit = (usize, usize);

const ROOM: usize = 256;

/// How an engine goes through the events.
#[derive(Clone, Copy)]
pub struct Ways {
    /// What an event leads to.
    leads_to: fn(&Pair, usize) -> Vec<usize>,
    /// How often an event is opened.
    openings: usize,
    /// Whether it counts as opened only once its relations are gone through.
    counted_after: bool,
    /// Whether it may be opened again once its relations are gone through.
    forgotten_after: bool,
    /// How much deeper the right event's relations are.
    down: usize,
    /// How often a relation is listed whose right event is opened already.
    times_if_open: usize,
    /// Whether the relations of such an event are listed again, and not followed.
    lists_again: bool,
    /// Whether a relation is listed after all below it.
    after_all_below: bool,
    /// Whether a relation is listed only if something is below it.
    only_if_below: bool,
}

const RIGHT: Ways = Ways {
    leads_to: blocking,
    openings: 1,
    counted_after: false,
    forgotten_after: false,
    down: 1,
    times_if_open: 1,
    lists_again: false,
    after_all_below: false,
    only_if_below: false,
};

struct Walk<'a> {
    pair: &'a Pair,
    ways: Ways,
    /// How often each event was opened.
    opened: BTreeMap<usize, usize>,
    visits: Vec<Visit>,
}

impl Walk<'_> {
    fn may_open(&self, event: usize) -> bool {
        self.opened.get(&event).copied().unwrap_or(0) < self.ways.openings
    }

    fn right_of(&self, relation: usize) -> usize {
        self.pair.table.relations[relation].right.into()
    }

    fn relation(&mut self, relation: usize, depth: usize) {
        let right = self.right_of(relation);
        if !self.may_open(right) {
            for _ in 0..self.ways.times_if_open {
                self.visits.push((relation, depth));
            }
            if self.ways.lists_again {
                let again = (self.ways.leads_to)(self.pair, right);
                let below = again.into_iter().map(|number| (number, depth + 1));
                self.visits.extend(below);
            }
            return;
        }
        let place = self.visits.len();
        self.visits.push((relation, depth));
        self.event(right, depth + self.ways.down);
        let nothing_below = self.visits.len() == place + 1;
        if self.ways.after_all_below {
            self.visits[place..].rotate_left(1);
        } else if self.ways.only_if_below && nothing_below {
            self.visits.pop();
        }
    }

    fn event(&mut self, event: usize, depth: usize) {
        let times = self.opened.get(&event).copied().unwrap_or(0);
        if !self.ways.counted_after {
            self.opened.insert(event, times + 1);
        }
        for relation in (self.ways.leads_to)(self.pair, event) {
            if self.visits.len() >= ROOM {
                return;
            }
            self.relation(relation, depth);
        }
        if self.ways.counted_after {
            self.opened.insert(event, times + 1);
        }
        if self.ways.forgotten_after {
            self.opened.insert(event, times);
        }
    }
}

fn walk(pair: &Pair, asked: usize, ways: Ways) -> Vec<Visit> {
    let mut walk = Walk {
        pair,
        ways,
        opened: BTreeMap::new(),
        visits: Vec::new(),
    };
    walk.event(asked, 0);
    walk.visits.truncate(ROOM);
    walk.visits
}

/// The right way, but for the asked event, which may be opened a second time.
fn walk_again(pair: &Pair, asked: usize) -> Vec<Visit> {
    let mut walk = Walk {
        pair,
        ways: RIGHT,
        opened: BTreeMap::new(),
        visits: Vec::new(),
    };
    for relation in blocking(pair, asked) {
        walk.relation(relation, 0);
    }
    walk.visits.truncate(ROOM);
    walk.visits
}

/// Level by level. Every event is opened by the shortest way.
fn by_level(pair: &Pair, asked: usize) -> Vec<Visit> {
    let mut opened = vec![asked];
    let mut visits = Vec::new();
    let mut level = vec![asked];
    for depth in 0.. {
        let mut next = Vec::new();
        for event in level {
            for relation in blocking(pair, event) {
                visits.push((relation, depth));
                let right = usize::from(pair.table.relations[relation].right);
                if !opened.contains(&right) {
                    opened.push(right);
                    next.push(right);
                }
            }
        }
        if next.is_empty() {
            break;
        }
        level = next;
    }
    visits
}

/// All the relations of an event, then what is below each.
fn own_first(pair: &Pair, asked: usize) -> Vec<Visit> {
    let mut opened = vec![asked];
    let mut visits = Vec::new();
    let mut work = vec![(asked, 0)];
    while let Some((event, depth)) = work.pop() {
        let own = blocking(pair, event);
        visits.extend(own.iter().map(|&relation| (relation, depth)));
        let mut below = Vec::new();
        for relation in own {
            let right = usize::from(pair.table.relations[relation].right);
            if !opened.contains(&right) {
                opened.push(right);
                below.push((right, depth + 1));
            }
        }
        work.extend(below.into_iter().rev());
    }
    visits
}

fn right_visits(pair: &Pair, asked: usize) -> Vec<Visit> {
    walk(pair, asked, RIGHT)
}

/// Those of the event's conditions and milestones of which this is true. An
/// excluded event leads nowhere.
fn own_where(pair: &Pair, event: usize, fits: impl Fn(usize) -> bool) -> Vec<usize> {
    let mut own = match pair.marking.records[event].included {
        true => inhibitions(&pair.table, event),
        false => Vec::new(),
    };
    own.retain(|&number| fits(number));
    own
}

fn of_kind(pair: &Pair, event: usize, kind: u8) -> Vec<usize> {
    let mut own = blocking(pair, event);
    own.retain(|&number| pair.table.relations[number].kind == kind);
    own
}

/// Engines that go through the events in another way.
pub const WALKS: [(&str, Ways); 18] = [
    (
        "an event is opened twice",
        Ways {
            openings: 2,
            ..RIGHT
        },
    ),
    (
        "opened only after its relations",
        Ways {
            counted_after: true,
            ..RIGHT
        },
    ),
    (
        "opened is forgotten on the way up",
        Ways {
            forgotten_after: true,
            ..RIGHT
        },
    ),
    ("below it is as deep", Ways { down: 0, ..RIGHT }),
    ("below it is two deeper", Ways { down: 2, ..RIGHT }),
    (
        "only the first blocking relation",
        Ways {
            leads_to: |pair, event| blocking(pair, event).into_iter().take(1).collect(),
            ..RIGHT
        },
    ),
    (
        "the last blocking relation is left out",
        Ways {
            leads_to: |pair, event| {
                let mut own = blocking(pair, event);
                own.pop();
                own
            },
            ..RIGHT
        },
    ),
    (
        "against table order",
        Ways {
            leads_to: |pair, event| blocking(pair, event).into_iter().rev().collect(),
            ..RIGHT
        },
    ),
    (
        "all below, then the relation",
        Ways {
            after_all_below: true,
            ..RIGHT
        },
    ),
    (
        "left out if its right is open",
        Ways {
            times_if_open: 0,
            ..RIGHT
        },
    ),
    (
        "listed again if its right is open",
        Ways {
            times_if_open: 2,
            ..RIGHT
        },
    ),
    (
        "what is below an open one again",
        Ways {
            lists_again: true,
            ..RIGHT
        },
    ),
    (
        "only relations with more below",
        Ways {
            only_if_below: true,
            ..RIGHT
        },
    ),
    (
        // No other event that is reached is excluded.
        "an excluded asked event is opened",
        Ways {
            leads_to: waiting,
            ..RIGHT
        },
    ),
    (
        "lists what is ignored",
        Ways {
            leads_to: |pair, event| own_where(pair, event, |number| would_block(pair, number)),
            ..RIGHT
        },
    ),
    (
        "lists what does not block",
        Ways {
            leads_to: |pair, event| own_where(pair, event, |_| true),
            ..RIGHT
        },
    ),
    (
        "conditions only",
        Ways {
            leads_to: |pair, event| of_kind(pair, event, 1),
            ..RIGHT
        },
    ),
    (
        "milestones only",
        Ways {
            leads_to: |pair, event| of_kind(pair, event, 5),
            ..RIGHT
        },
    ),
];

/// What an engine lists instead of the right visits.
type Engine = fn(&Pair, usize) -> Vec<Visit>;

/// Engines that do something else with the visits, or go through the events in
/// no such way.
pub const VISITS: [(&str, Engine); 13] = [
    ("the asked event may be opened again", walk_again),
    ("level by level", by_level),
    ("all of an event's own, then below", own_first),
    ("depths start at 1", |pair, asked| {
        let visits = right_visits(pair, asked).into_iter();
        visits.map(|(number, depth)| (number, depth + 1)).collect()
    }),
    ("all depths are 0", |pair, asked| {
        let visits = right_visits(pair, asked).into_iter();
        visits.map(|(number, _)| (number, 0)).collect()
    }),
    ("depth by the shortest way", |pair, asked| {
        let shortest: BTreeMap<usize, usize> = by_level(pair, asked).into_iter().collect();
        let visits = right_visits(pair, asked).into_iter();
        visits
            .map(|(number, _)| (number, shortest[&number]))
            .collect()
    }),
    ("only the asked event's own", |pair, asked| {
        let own = blocking(pair, asked).into_iter();
        own.map(|number| (number, 0)).collect()
    }),
    ("sorted by relation", |pair, asked| {
        let mut visits = right_visits(pair, asked);
        visits.sort();
        visits
    }),
    ("sorted by depth", |pair, asked| {
        let mut visits = right_visits(pair, asked);
        visits.sort_by_key(|&(_, depth)| depth);
        visits
    }),
    ("the last one first", |pair, asked| {
        let mut visits = right_visits(pair, asked);
        visits.reverse();
        visits
    }),
    ("an excluded asked event is included", |pair, asked| {
        let mut included = pair.clone();
        included.marking.records[asked].included = true;
        right_visits(&included, asked)
    }),
    ("forgets that a condition waits", |pair, asked| {
        let never_or_milestone = |pair: &Pair, event| {
            let mut own = blocking(pair, event);
            own.retain(|&number| {
                pair.table.relations[number].kind == 5 || !right_of(pair, number).happened
            });
            own
        };
        let ways = Ways {
            leads_to: never_or_milestone,
            ..RIGHT
        };
        walk(pair, asked, ways)
    }),
    ("lists what blocks, reached or not", |pair, asked| {
        let mut visits = right_visits(pair, asked);
        let reached: BTreeSet<usize> = visits.iter().map(|&(number, _)| number).collect();
        let all = (0..pair.table.events).flat_map(|event| blocking(pair, event));
        let others = all.filter(|number| !reached.contains(number));
        visits.extend(others.map(|number| (number, 0)));
        visits
    }),
];

/// What an engine leaves instead of the right answer: number, count and list.
type Left = (u8, usize, Vec<u16>);

fn laid_over(before: &[u16], visits: &[Visit]) -> Vec<u16> {
    let mut list = before.to_vec();
    for (place, &(number, depth)) in list.iter_mut().zip(visits) {
        *place = (256 * number + depth) as u16;
    }
    list
}

/// Of engines that visit what they should and go wrong about the list. The room is
/// what the case lends.
pub const LISTS: [&str; 13] = [
    "asks for room against the count",
    "asks for room first",
    "wants 257 places",
    "does without one place",
    "takes exactly 256 places",
    "lists what there is room for and refuses",
    "empties the places past the count",
    "marks the end of the list",
    "counts one more",
    "counts the events opened",
    "counts when it refuses",
    "depth before relation",
    "refuses an excluded event",
];

fn bad_list(name: &str, pair: &Pair, asked: usize, before: &[u16], good: &Left) -> Option<Left> {
    let (number, count, after) = good;
    let visits = match number {
        0 | 14 => right_visits(pair, asked),
        _ => Vec::new(),
    };
    let refused = (14, 0, before.to_vec());
    let done = *number == 0;
    Some(match name {
        "asks for room against the count" if *number == 14 && visits.len() <= before.len() => {
            (0, visits.len(), laid_over(before, &visits))
        }
        "asks for room first" if *number == 8 && before.len() < ROOM => refused,
        "wants 257 places" if before.len() == ROOM && done => refused,
        "does without one place" if *number == 14 && before.len() == ROOM - 1 => {
            let listed = visits.len().min(before.len());
            (0, listed, laid_over(before, &visits))
        }
        "takes exactly 256 places" if before.len() > ROOM && done => refused,
        "lists what there is room for and refuses" if *number == 14 => {
            (14, 0, laid_over(before, &visits))
        }
        "empties the places past the count" if done => {
            let mut list = after.clone();
            list[*count..].fill(0);
            (0, *count, list)
        }
        "marks the end of the list" if done && *count < after.len() => {
            let mut list = after.clone();
            list[*count] = u16::MAX;
            (0, *count, list)
        }
        "counts one more" if done => (0, count + 1, after.clone()),
        "counts the events opened" if done => {
            let mut lefts: Vec<u8> = visits
                .iter()
                .map(|&(number, _)| pair.table.relations[number].left)
                .collect();
            lefts.sort();
            lefts.dedup();
            (0, lefts.len(), after.clone())
        }
        "counts when it refuses" if *number == 14 => (14, visits.len(), before.to_vec()),
        "depth before relation" if done => {
            let mut list = after.clone();
            for place in &mut list[..*count] {
                *place = place.rotate_left(8);
            }
            (0, *count, list)
        }
        "refuses an excluded event" if done && !pair.marking.records[asked].included => {
            (10, 0, before.to_vec())
        }
        _ => return None,
    })
}

/// The answer of the engine that the others vary, to a chain that is not refused.
pub fn right_answer(case: &Case) -> Option<Answer> {
    let Case::Chain { pair, event, list } = case else {
        return None;
    };
    let visits = right_visits(pair, *event);
    Some(Answer::Chain {
        number: 0,
        count: visits.len(),
        list: laid_over(list, &visits),
    })
}

/// The wrong answers to a case, each with the name of an engine that gives it.
pub fn wrong_answers(case: &Case, answer: &Answer) -> Vec<(&'static str, Answer)> {
    let (
        Case::Chain { pair, event, list },
        Answer::Chain {
            number,
            count,
            list: after,
        },
    ) = (case, answer)
    else {
        return Vec::new();
    };
    let good = (*number, *count, after.clone());
    let mut wrong: Vec<(&str, Left)> = LISTS
        .iter()
        .filter_map(|name| Some((*name, bad_list(name, pair, *event, list, &good)?)))
        .collect();
    if *number == 0 {
        let left = |visits: Vec<Visit>| (0, visits.len(), laid_over(list, &visits));
        for (name, ways) in WALKS {
            wrong.push((name, left(walk(pair, *event, ways))));
        }
        for (name, engine) in VISITS {
            wrong.push((name, left(engine(pair, *event))));
        }
    }
    wrong.retain(|(_, left)| *left != good);
    wrong
        .into_iter()
        .map(|(name, (number, count, list))| {
            let bad = Answer::Chain {
                number,
                count,
                list,
            };
            (name, bad)
        })
        .collect()
}
