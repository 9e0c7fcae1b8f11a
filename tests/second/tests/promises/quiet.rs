//! What is promised of quiet ticks: as many as there are to the nearest date of an
//! included event, a million at most; sleeping them causes nothing, and then an event
//! is due.

use super::replay::{replay, REPLAYED};
use super::sleep::{later, ticks_to_the_next, MOST_TICKS};
use super::{accepts, holds, judged, nothing_due, Promise};
use second::case::Pair;
use second::*;

/// Where the check accepts, sleeping so many ticks causes nothing, and one more something.
/// Where no date runs, some of them will do.
fn sleep_promise(pair: &Pair, ticks: u64, date: Option<u32>) -> Promise {
    let Pair { table, marking } = pair;
    let some = if date.is_none() { 1_000 } else { ticks };
    let end = sleep(table, marking, some, &mut []);
    holds(end.number == 0, "something is caused on the way")?;
    if ticks == MOST_TICKS {
        return Ok(());
    }
    let one_more = sleep(table, marking, ticks + 1, &mut []);
    holds(one_more.number == 14, "nothing is caused then")
}

/// Whatever the check says: one plain tick for each, and then no more.
fn plain_ticks_promise(pair: &Pair, ticks: u64) -> Promise {
    let steps = vec![Step { kind: 2, event: 0 }; ticks as usize + 1];
    let moments = replay(&pair.table, &pair.marking, &steps);
    for (passed, moment) in (0..).zip(&moments) {
        let expected = if passed < ticks { 0 } else { 11 };
        holds(moment.number == expected, "not so many plain ticks")?;
    }
    Ok(())
}

pub fn quiet_promise(pair: &Pair, answer: &TicksAnswer) -> Promise {
    let Pair { table, marking } = pair;
    let number = judged(pair);
    holds(answer.number == number, "refused otherwise than read")?;
    if number != 0 {
        return holds(answer.ticks == 0, "a refusal gives ticks");
    }
    let ticks = answer.ticks;
    holds(ticks <= MOST_TICKS, "more ticks than a sleep can have")?;
    let date = ticks_to_the_next(marking);
    let expected = date.map_or(MOST_TICKS, u64::from);
    holds(ticks == expected.min(MOST_TICKS), "not so many quiet ticks")?;
    let then = later(marking, ticks as u32);
    holds(
        ticks == MOST_TICKS || !nothing_due(table, &then),
        "nothing is due then",
    )?;
    if (ticks as usize) < REPLAYED {
        plain_ticks_promise(pair, ticks)?;
    }
    if accepts(table, marking) {
        sleep_promise(pair, ticks, date)?;
    }
    Ok(())
}
