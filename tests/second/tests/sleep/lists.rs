//! Engines that pass the ticks of a sleep as they should, and go wrong about what is
//! listed or refused.

use super::walks::{walk, Found, Ways, RIGHT};
use crate::promises::sleep::{Caused, MOST_TICKS};
use second::case::Pair;
use second::{check, judge_marking, judge_table, Marking};

/// What an engine leaves: the answer and the list.
#[derive(Clone, PartialEq)]
pub struct Left {
    pub number: u8,
    pub reason: u8,
    pub place: u16,
    pub count: usize,
    pub marking: Marking,
    pub list: Vec<u32>,
}

/// A case, with the answer that is right.
pub struct Asked<'a> {
    pub pair: &'a Pair,
    pub ticks: u64,
    pub before: &'a [u32],
    pub good: Left,
}

fn place((tick, event): &Caused) -> u32 {
    256 * tick + u32::from(*event)
}

impl Asked<'_> {
    fn refused(&self, number: u8) -> Left {
        Left {
            number,
            reason: 0,
            place: 0,
            count: 0,
            marking: *self.pair.marking,
            list: self.before.to_vec(),
        }
    }

    /// Done, with these places listed, as far as there is room.
    fn done(&self, places: &[u32], marking: Marking) -> Left {
        let mut list = self.before.to_vec();
        for (place, listed) in list.iter_mut().zip(places) {
            *place = *listed;
        }
        Left {
            count: places.len(),
            list,
            marking,
            ..self.refused(0)
        }
    }

    fn sound(&self) -> bool {
        let Pair { table, marking } = self.pair;
        judge_table(table) == 0 && judge_marking(table.events, marking) == 0
    }

    /// As the check has it.
    fn rejected(&self) -> Option<Left> {
        let answer = check(&self.pair.table, &self.pair.marking);
        (answer.number == 12).then(|| Left {
            reason: answer.reason,
            place: answer.place,
            ..self.refused(12)
        })
    }

    /// What is caused, and the marking then, if there were so much more room.
    fn found(&self, ticks: u64, more_room: usize) -> Option<(Vec<u32>, Marking)> {
        let room = self.before.len() + more_room;
        match walk(self.pair, ticks as u32, room, &RIGHT) {
            Found::Done(caused, end) => Some((caused.iter().map(place).collect(), *end)),
            Found::TooMuch | Found::Endless => None,
        }
    }

    /// So many ticks passed in this way, without the check. None: no end was found.
    pub fn walked(&self, ticks: u64, ways: &Ways) -> Option<Left> {
        match walk(self.pair, ticks as u32, self.before.len(), ways) {
            Found::Done(caused, end) => {
                let places: Vec<u32> = caused.iter().map(place).collect();
                Some(self.done(&places, *end))
            }
            Found::TooMuch => Some(self.refused(14)),
            Found::Endless => None,
        }
    }

    fn unchecked(&self, ticks: u64) -> Option<Left> {
        self.walked(ticks, &RIGHT)
    }

    /// As if so many ticks were asked for.
    fn as_if(&self, ticks: u64) -> Option<Left> {
        match ticks {
            0..=1_000_001 => self.rejected().or_else(|| self.unchecked(ticks)),
            _ => Some(self.refused(14)),
        }
    }

    /// What does not fit, and the marking then.
    fn too_much(&self) -> Option<(Vec<u32>, Marking)> {
        let by_list = self.good.number == 14 && self.ticks <= MOST_TICKS;
        by_list.then(|| self.found(self.ticks, 400))?
    }

    /// What is listed.
    fn listed(&self) -> Vec<u32> {
        self.good.list[..self.good.count].to_vec()
    }

    /// The right answer with other places. None: it is refused.
    fn lists(&self, places: &[u32]) -> Option<Left> {
        self.is_done().then(|| self.done(places, self.good.marking))
    }

    fn is_done(&self) -> bool {
        self.good.number == 0
    }

    /// The right answer with another count. None: it is refused.
    fn counts(&self, count: usize) -> Option<Left> {
        self.is_done().then(|| Left {
            count,
            ..self.good.clone()
        })
    }

    /// Refused for want of room.
    fn wants(&self, room: usize) -> Option<Left> {
        (self.is_done() && self.before.len() < room).then(|| self.refused(14))
    }
}

/// How many different ones there are.
fn different(numbers: impl Iterator<Item = u32>) -> usize {
    let mut numbers: Vec<u32> = numbers.collect();
    numbers.sort_unstable();
    numbers.dedup();
    numbers.len()
}

/// Each tick's places, changed in the same way.
fn by_tick(places: &[u32], change: fn(&mut Vec<u32>)) -> Vec<u32> {
    let mut ticks: Vec<u32> = places.iter().map(|place| place / 256).collect();
    ticks.dedup();
    let of_tick = |tick: u32| {
        let mut own = places.to_vec();
        own.retain(|place| place / 256 == tick);
        change(&mut own);
        own
    };
    ticks.into_iter().flat_map(of_tick).collect()
}

/// An engine's answer. None: it gives the right one.
pub type Engine = fn(&Asked) -> Option<Left>;

pub const REFUSALS: [(&str, Engine); 17] = [
    ("too many ticks are refused before the table", |asked| {
        (asked.ticks > MOST_TICKS).then(|| asked.refused(14))
    }),
    ("the check is asked before the ticks", |asked| {
        asked.sound().then(|| asked.rejected())?
    }),
    ("the list is judged before the check", |asked| {
        let judged = asked.good.number == 12;
        let found = judged.then(|| asked.unchecked(asked.ticks))??;
        (found.number == 14).then_some(found)
    }),
    ("the check is not asked without a tick", |asked| {
        let rejected = asked.good.number == 12 && asked.ticks == 0;
        rejected.then(|| asked.refused(0))
    }),
    ("the check is asked if something falls due", |asked| {
        let rejected = asked.good.number == 12;
        let (places, end) = rejected.then(|| asked.found(asked.ticks, 0))??;
        places.is_empty().then(|| asked.done(&[], end))
    }),
    ("the check is never asked", |asked| {
        let rejected = asked.good.number == 12;
        rejected.then(|| asked.unchecked(asked.ticks))?
    }),
    ("reason and place are lost", |asked| {
        (asked.good.number == 12).then(|| asked.refused(12))
    }),
    ("the check's reason with 14", |asked| {
        let rejected = asked.sound().then(|| asked.rejected())??;
        let number = asked.good.number;
        Some(Left { number, ..rejected })
    }),
    ("at most 999,999 ticks", |asked| {
        let refused = asked.sound() && asked.ticks == MOST_TICKS;
        refused.then(|| asked.refused(14))
    }),
    ("at most 1,000,001 ticks", |asked| {
        let as_if = asked.sound() && asked.ticks == MOST_TICKS + 1;
        as_if.then(|| asked.as_if(asked.ticks))?
    }),
    ("ticks are held at the limit", |asked| {
        let as_if = asked.sound() && asked.ticks > MOST_TICKS;
        as_if.then(|| asked.as_if(MOST_TICKS))?
    }),
    ("ticks are cut to 32 bits", |asked| {
        let as_if = asked.sound().then_some(asked.ticks % 2u64.pow(32));
        asked.as_if(as_if?)
    }),
    ("ticks are cut to 16 bits", |asked| {
        let as_if = asked.sound().then_some(asked.ticks % 2u64.pow(16));
        asked.as_if(as_if?)
    }),
    ("no ticks are refused", |asked| {
        let refused = asked.sound() && asked.ticks == 0;
        refused.then(|| asked.refused(14))
    }),
    ("without a tick nothing is read", |asked| {
        (asked.ticks == 0).then(|| asked.refused(0))
    }),
    ("no places are refused", |asked| {
        let refused = asked.sound() && asked.before.is_empty();
        refused.then(|| asked.refused(14))
    }),
    ("nothing is refused for want of room", |asked| {
        let (places, end) = asked.too_much()?;
        Some(asked.done(&places, end))
    }),
];

pub const LISTS: [(&str, Engine); 25] = [
    ("listed before it is known to fit", |asked| {
        let (places, _) = asked.too_much()?;
        let list = asked.done(&places, *asked.pair.marking).list;
        Some(Left {
            list,
            ..asked.refused(14)
        })
    }),
    ("what there is room for is listed and counted", |asked| {
        let (places, end) = asked.too_much()?;
        Some(asked.done(&places[..asked.before.len()], end))
    }),
    ("the marking at the end in a refusal", |asked| {
        let (_, marking) = asked.too_much()?;
        Some(Left {
            marking,
            ..asked.refused(14)
        })
    }),
    ("the marking as far as there was room", |asked| {
        let (places, _) = asked.too_much()?;
        let over = places[asked.before.len()] / 256;
        let (_, marking) = asked.found(u64::from(over) - 1, 0)?;
        Some(Left {
            marking,
            ..asked.refused(14)
        })
    }),
    ("counts in a refusal", |asked| {
        let (places, _) = asked.too_much()?;
        Some(Left {
            count: places.len(),
            ..asked.refused(14)
        })
    }),
    ("empties the list in a refusal", |asked| {
        let mut left = asked.too_much().map(|_| asked.refused(14))?;
        left.list.fill(0);
        Some(left)
    }),
    ("empties the places past the count", |asked| {
        let mut left = asked.counts(asked.good.count)?;
        left.list[asked.good.count..].fill(0);
        Some(left)
    }),
    ("marks the end of the list", |asked| {
        let mut left = asked.counts(asked.good.count)?;
        *left.list.get_mut(asked.good.count)? = 0;
        Some(left)
    }),
    ("counts one more", |asked| {
        asked.counts(asked.good.count + 1)
    }),
    ("counts the ticks", |asked| {
        let ticks = asked.listed().into_iter().map(|place| place / 256);
        asked.counts(different(ticks))
    }),
    ("counts each event once", |asked| {
        let events = asked.listed().into_iter().map(|place| place % 256);
        asked.counts(different(events))
    }),
    ("wants one place more", |asked| {
        asked.wants(asked.good.count + 1)
    }),
    ("does without one place", |asked| {
        let (places, end) = asked.too_much()?;
        let room = asked.before.len();
        (places.len() == room + 1).then(|| asked.done(&places[..room], end))
    }),
    ("wants a place for each event", |asked| {
        asked.wants(asked.pair.table.events)
    }),
    ("wants a place for each tick", |asked| {
        asked.wants(asked.ticks as usize)
    }),
    ("the event first", |asked| {
        let places = asked.listed().into_iter();
        let places: Vec<u32> = places.map(|place| place.rotate_right(8)).collect();
        asked.lists(&places)
    }),
    ("64 for a tick", |asked| {
        let places = asked.listed().into_iter();
        let places: Vec<u32> = places.map(|place| place / 256 * 64 + place % 256).collect();
        asked.lists(&places)
    }),
    ("no ticks in the list", |asked| {
        let events = asked.listed().into_iter().map(|place| place % 256);
        asked.lists(&events.collect::<Vec<u32>>())
    }),
    ("events of a tick by number", |asked| {
        asked.lists(&by_tick(&asked.listed(), |own| own.sort_unstable()))
    }),
    ("events of a tick backwards", |asked| {
        asked.lists(&by_tick(&asked.listed(), |own| own.reverse()))
    }),
    ("one event of a tick", |asked| {
        asked.lists(&by_tick(&asked.listed(), |own| own.truncate(1)))
    }),
    ("by event, then by tick", |asked| {
        let mut places = asked.listed();
        places.sort_by_key(|place| place % 256);
        asked.lists(&places)
    }),
    ("the last first", |asked| {
        let places = asked.listed().into_iter().rev();
        asked.lists(&places.collect::<Vec<u32>>())
    }),
    ("each event once, where it is caused first", |asked| {
        let all = asked.listed();
        let mut places = Vec::new();
        for place in &all {
            if !places.iter().any(|other| other % 256 == place % 256) {
                places.push(*place);
            }
        }
        asked.lists(&places)
    }),
    ("at the end of the list", |asked| {
        let mut left = asked.is_done().then(|| asked.refused(0))?;
        let start = left.list.len() - asked.good.count;
        left.list[start..].copy_from_slice(&asked.listed());
        Some(Left {
            list: left.list,
            ..asked.good.clone()
        })
    }),
];
