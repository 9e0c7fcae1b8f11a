//! The baseline's side: the loops of the proved crate `timing`, over `fast`.

use crate::calls::Calls;
use fast::{HoldUp, Margin, Marking, Record, Relation, Remedy, Rest, Table, Verdict};

pub struct Baseline;

/// The sum with one number more.
fn taken(sum: u64, x: u64) -> u64 {
    (sum % (1 << 32)) * 31 + x % (1 << 32)
}

/// A number below n that the sum decides, 0 for none.
fn below(n: usize, sum: u64) -> usize {
    (sum % 65_536) as usize % n.max(1)
}

/// The record of event 0, at an age that the sum decides.
fn stirred(first: Record, sum: u64) -> Record {
    Record {
        age: (sum % 1024) as u32,
        ..first
    }
}

/// The count stands above the bits of a sum that decide what a call is handed, so
/// the calls are those of a record without one.
fn record_word(r: &Record) -> u64 {
    let times = taken(r.age.into(), r.deadline.into());
    let past = taken(r.happened.into(), r.included.into());
    let duty = taken(r.pending.into(), r.bounded.into());
    let rest = taken(times, taken(past, duty));
    rest % (1 << 32) + u64::from(r.count % (1 << 16)) * (1 << 16)
}

fn relation_word(k: &Relation) -> u64 {
    let ends = taken(k.left.into(), k.right.into());
    taken(taken(k.kind.into(), k.time.into()), ends)
}

/// With the number of a refusal, and what a record shows of the marking.
fn taken_marking(sum: u64, number: u8, m: &Marking) -> u64 {
    taken(taken(sum, number.into()), record_word(&m.records[1]))
}

/// With the number of a refusal, and the answer where there is one.
fn taken_result(sum: u64, answer: Result<u64, u8>) -> u64 {
    let (number, word) = match answer {
        Ok(word) => (0, word),
        Err(number) => (number, 0),
    };
    taken(taken(sum, number.into()), word)
}

/// The last place that is written; where none is, the first.
fn last_place<T: Copy + Into<u64>>(list: &[T], count: usize) -> u64 {
    let last = list.get(count.saturating_sub(1));
    last.map_or(0, |&place| place.into())
}

fn marking_of(events: usize, image: &[u8]) -> Marking {
    let mut m = Marking::EMPTY;
    fast::read_marking(events, image, &mut m);
    m
}

/// So many calls from a table and a marking. Before each, event 0 is set back.
#[inline(always)]
fn turns(
    table: &[u8],
    marking: &[u8],
    times: usize,
    mut call: impl FnMut(&Table, &mut Marking, u64) -> u64,
) -> u64 {
    let mut t = Table::EMPTY;
    fast::read_table(table, &mut t);
    let mut m = marking_of(t.events, marking);
    let first = m.records[0];
    let mut sum = 1;
    for _ in 0..times {
        m.records[0] = stirred(first, sum);
        sum = call(&t, &mut m, sum);
    }
    sum
}

impl Calls for Baseline {
    fn read_table(&self, image: &mut [u8], times: usize) -> u64 {
        let mut t = Table::EMPTY;
        let mut sum = 1;
        for _ in 0..times {
            image[4] = 64 + 128 * (sum % 2) as u8;
            let number = fast::read_table(image, &mut t);
            sum = taken(sum, number.into());
            sum = taken(sum, t.controllable);
            sum = taken(sum, relation_word(&t.relations[1]));
        }
        sum
    }

    fn write_table(&self, table: &[u8], buffer: &mut [u8], times: usize) -> u64 {
        let mut t = Table::EMPTY;
        fast::read_table(table, &mut t);
        let mut sum = 1;
        for _ in 0..times {
            t.controllable = sum;
            sum = taken(sum, fast::write_table(&t, buffer).into());
            sum = taken(sum, buffer[5].into());
        }
        sum
    }

    fn read_marking(&self, events: usize, image: &mut [u8], times: usize) -> u64 {
        let mut m = Marking::EMPTY;
        let mut sum = 1;
        for _ in 0..times {
            image[3] = 1 + 2 * (sum % 128) as u8;
            let number = fast::read_marking(events, image, &mut m);
            sum = taken_marking(sum, number, &m);
        }
        sum
    }

    fn write_marking(&self, events: usize, marking: &[u8], buffer: &mut [u8], times: usize) -> u64 {
        let mut m = marking_of(events, marking);
        let first = m.records[0];
        let mut sum = 1;
        for _ in 0..times {
            m.records[0] = stirred(first, sum);
            sum = taken(sum, fast::write_marking(&m, buffer).into());
        }
        sum
    }

    fn carry_marking(&self, events: usize, old: &mut [u8], buffer: &mut [u8], times: usize) -> u64 {
        let mut sum = 1;
        for _ in 0..times {
            old[3] = 1 + 2 * (sum % 128) as u8;
            sum = taken(sum, fast::carry_marking(events, old, buffer).into());
            sum = taken(sum, buffer[3].into());
        }
        sum
    }

    fn fresh(&self, times: usize) -> u64 {
        let mut m = Marking::EMPTY;
        let mut sum = 1;
        for _ in 0..times {
            let number = fast::fresh(below(65, sum), &mut m);
            sum = taken_marking(sum, number, &m);
        }
        sum
    }

    fn judge_table(&self, table: &[u8], times: usize) -> u64 {
        let mut t = Table::EMPTY;
        fast::read_table(table, &mut t);
        let mut sum = 1;
        for _ in 0..times {
            t.relations[0].time = (sum % 1024) as u32;
            sum = taken(sum, fast::judge_table(&t).into());
        }
        sum
    }

    fn judge_marking(&self, events: usize, marking: &[u8], times: usize) -> u64 {
        let mut m = marking_of(events, marking);
        let first = m.records[0];
        let mut sum = 1;
        for _ in 0..times {
            m.records[0] = stirred(first, sum);
            sum = taken(sum, fast::judge_marking(events, &m).into());
        }
        sum
    }

    fn enabled(&self, table: &[u8], marking: &[u8], times: usize) -> u64 {
        turns(table, marking, times, |t, m, sum| {
            let answer = fast::enabled(t, m, below(t.events, sum));
            taken_result(sum, answer.map(u64::from))
        })
    }

    fn hold_up(&self, table: &[u8], marking: &[u8], times: usize) -> u64 {
        turns(table, marking, times, |t, m, sum| {
            let word = match fast::hold_up(t, m, below(t.events, sum)) {
                Err(number) => number.into(),
                Ok(HoldUp::Enabled) => 16,
                Ok(HoldUp::Excluded) => 17,
                Ok(HoldUp::Blocked(relation)) => taken(18, relation as u64),
                Ok(HoldUp::EnabledUnless(relation)) => taken(19, relation as u64),
            };
            taken(sum, word)
        })
    }

    fn chain(
        &self,
        table: &[u8],
        marking: &[u8],
        event: usize,
        list: &mut [u16],
        times: usize,
    ) -> u64 {
        turns(table, marking, times, |t, m, sum| {
            let (number, count) = match fast::chain(t, m, event, list) {
                Ok(count) => (0, count),
                Err(number) => (number, 0),
            };
            let sum = taken(taken(sum, number.into()), count as u64);
            taken(sum, last_place(list, count))
        })
    }

    fn margin(&self, table: &[u8], marking: &[u8], times: usize) -> u64 {
        turns(table, marking, times, |t, m, sum| {
            let word = match fast::margin(t, m, below(t.count, sum)) {
                Err(number) => number.into(),
                Ok(Margin::NotACondition) => 16,
                Ok(Margin::Ignored(Rest::Never)) => 17,
                Ok(Margin::Ignored(Rest::By(ticks))) if ticks < 0 => 21,
                Ok(Margin::Ignored(Rest::By(_))) => 22,
                Ok(Margin::Never) => 18,
                Ok(Margin::By(ticks)) if ticks < 0 => 19,
                Ok(Margin::By(_)) => 20,
            };
            taken(sum, word)
        })
    }

    fn due(&self, table: &[u8], marking: &[u8], times: usize) -> u64 {
        turns(table, marking, times, |t, m, sum| {
            taken_result(sum, fast::due(t, m))
        })
    }

    fn happen(&self, table: &[u8], marking: &[u8], last: usize, times: usize) -> u64 {
        turns(table, marking, times, |t, m, sum| {
            let number = fast::happen(t, m, last);
            taken_marking(sum, number, m)
        })
    }

    fn plain_tick(&self, table: &[u8], marking: &[u8], times: usize) -> u64 {
        turns(table, marking, times, |t, m, sum| {
            let number = fast::plain_tick(t, m);
            taken_marking(sum, number, m)
        })
    }

    fn closure(&self, table: &[u8], marking: &[u8], times: usize) -> u64 {
        turns(table, marking, times, |t, m, sum| {
            let (number, set, size) = match fast::closure(t, m) {
                Ok(told) => (0, told.set, told.size),
                Err(number) => (number, 0, 0),
            };
            taken(taken(taken(sum, number.into()), set), size.into())
        })
    }

    fn check(&self, table: &[u8], marking: &[u8], times: usize) -> u64 {
        turns(table, marking, times, |t, m, sum| {
            let word = match fast::check(t, m) {
                Err(number) => number.into(),
                Ok(Verdict::Accepts) => 16,
                Ok(Verdict::Rejects { reason, place }) => {
                    taken(17 + u64::from(reason), place as u64)
                }
            };
            taken(sum, word)
        })
    }

    fn guarded_tick(&self, table: &[u8], marking: &[u8], times: usize) -> u64 {
        let mut caused = [0; 64];
        turns(table, marking, times, |t, m, sum| {
            let a = fast::guarded_tick(t, m, &mut caused);
            let sum = taken(taken(sum, a.number.into()), a.count as u64);
            taken(sum, record_word(&m.records[1]))
        })
    }

    fn guarded_tick_again(&self, table: &[u8], marking: &[u8], times: usize) -> u64 {
        let mut caused = [0; 64];
        turns(table, marking, times, |t, m, sum| {
            let mut after = *m;
            let a = fast::guarded_tick(t, &mut after, &mut caused);
            let sum = taken(taken(sum, a.number.into()), a.count as u64);
            taken(sum, record_word(&after.records[1]))
        })
    }

    fn sleep(
        &self,
        table: &[u8],
        marking: &[u8],
        ticks: usize,
        list: &mut [u32],
        times: usize,
    ) -> u64 {
        turns(table, marking, times, |t, m, sum| {
            let mut after = *m;
            let (number, count) = match fast::sleep(t, &mut after, ticks, list) {
                Ok(count) => (0, count),
                Err(refused) => (refused.number, 0),
            };
            let sum = taken(taken(sum, number.into()), count as u64);
            let sum = taken(sum, record_word(&after.records[1]));
            taken(sum, last_place(list, count))
        })
    }

    fn quiet(&self, table: &[u8], marking: &[u8], times: usize) -> u64 {
        turns(table, marking, times, |t, m, sum| {
            taken_result(sum, fast::quiet(t, m).map(u64::from))
        })
    }

    fn remedies(
        &self,
        table: &[u8],
        marking: &[u8],
        preferred: &[u8],
        fallback: &[u8],
        times: usize,
    ) -> u64 {
        turns(table, marking, times, |t, m, sum| {
            let answer = fast::remedies(t, m, preferred, fallback);
            let stretch = answer.map(|(Remedy::Preferred(list) | Remedy::Fallback(list))| list);
            taken_result(sum, stretch.map(|list| list.len() as u64))
        })
    }

    fn run_bytes(
        &self,
        table: &[u8],
        marking: &[u8],
        steps: &[u8],
        answers: &mut [u8],
        times: usize,
    ) -> u64 {
        turns(table, marking, times, |t, m, sum| {
            let mut after = *m;
            let number = fast::run_bytes(t, &mut after, steps, answers);
            taken_marking(sum, number, &after)
        })
    }
}
