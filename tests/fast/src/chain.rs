//! The whole chain of relations that stand in an event's way.

use crate::decoded::{only, Marking, Table};
use crate::enabled::stops;
use crate::judge::judge_event;

/// The relations that stop their left events, each event's own in the table's order: a
/// number and 1, or 0 for none.
struct Stops {
    /// An event's first one, of those that are not listed yet.
    first: [u16; 64],
    /// The one behind it, of the same event.
    next: [u16; 256],
}

impl Stops {
    /// From the last relation to the first, so that each is put before those found.
    #[inline]
    fn of(t: &Table, m: &Marking) -> Stops {
        let mut s = Stops {
            first: [0; 64],
            next: [0; 256],
        };
        for (number, k) in t.used().iter().enumerate().rev() {
            if stops(k, m) {
                let first = &mut s.first[usize::from(k.left & 63)];
                s.next[number & 255] = *first;
                *first = number as u16 + 1;
            }
        }
        s
    }

    /// The event's next one. It is taken out: no event is opened a second time.
    #[inline]
    fn take(&mut self, event: u8) -> Option<usize> {
        let first = &mut self.first[usize::from(event & 63)];
        let number = usize::from(first.checked_sub(1)?) & 255;
        *first = self.next[number];
        Some(number)
    }
}

/// Of an included event. Each relation is taken once, so there are places enough.
#[inline]
fn walk(t: &Table, mut stops: Stops, asked: u8, list: &mut [u16; 256]) -> usize {
    let (mut event, mut opened) = (asked, only(asked));
    // The events that led here, each of them opened, so fewer than 64.
    let (mut above, mut depth) = ([0; 64], 0);
    let mut count = 0;
    loop {
        let Some(number) = stops.take(event) else {
            if depth == 0 {
                return count;
            }
            depth -= 1;
            event = above[depth & 63];
            continue;
        };
        list[count & 255] = (number << 8 | depth) as u16;
        count += 1;
        let right = t.relations[number].right;
        if opened & only(right) == 0 {
            opened |= only(right);
            above[depth & 63] = event;
            depth += 1;
            event = right;
        }
    }
}

/// How many places of the list are written: each is a relation's number, 256 times, and
/// its depth.
pub fn chain(t: &Table, m: &Marking, event: usize, list: &mut [u16]) -> Result<usize, u8> {
    judge_event(t, m, event)?;
    let first = list.get_mut(..256).and_then(|list| list.try_into().ok());
    let list = first.ok_or(14)?;
    let event = event as u8;
    if !m.of(event).included {
        return Ok(0);
    }
    Ok(walk(t, Stops::of(t, m), event, list))
}
