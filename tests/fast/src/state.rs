//! A marking for many steps: a word for each flag, and dates on a clock in place
//! of ages and deadlines, so that a tick moves the clock and nothing else.

use crate::decoded::{only, Events, Marking, TIME_LIMIT};
use crate::guarded::needed;
use crate::process::Process;

#[derive(Clone, Copy)]
pub(crate) struct State {
    happened: u64,
    pub included: u64,
    pending: u64,
    /// Pending with a deadline.
    pub bounded: u64,
    /// The bounded events, included or not, whose deadline is 0.
    overdue: u64,
    pub now: u32,
    /// Before this date no other event gets overdue.
    wake: u32,
    /// When an event happened last.
    since: [u32; 64],
    /// When a bounded event's deadline is 0.
    until: [u32; 64],
    counts: [u32; 64],
}

impl State {
    /// The clock starts so late that the oldest event has a date.
    pub fn of(m: &Marking) -> State {
        let mut state = State {
            happened: 0,
            included: 0,
            pending: 0,
            bounded: 0,
            overdue: 0,
            now: TIME_LIMIT,
            wake: 0,
            since: [0; 64],
            until: [0; 64],
            counts: [0; 64],
        };
        for (event, r) in m.used().iter().enumerate() {
            state.happened |= u64::from(r.happened) << event;
            state.included |= u64::from(r.included) << event;
            state.pending |= u64::from(r.pending) << event;
            state.bounded |= u64::from(r.bounded) << event;
            state.since[event] = state.now - r.age;
            state.until[event] = state.now + r.deadline;
            state.counts[event] = r.count;
        }
        state.look();
        state
    }

    /// Back to records.
    pub fn put(&self, m: &mut Marking) {
        for (event, r) in m.used_mut().iter_mut().enumerate() {
            let has = |set: u64| set >> event & 1 == 1;
            r.happened = has(self.happened);
            r.included = has(self.included);
            r.pending = has(self.pending);
            r.bounded = has(self.bounded);
            let age = (self.now - self.since[event]).min(TIME_LIMIT);
            r.age = if r.happened { age } else { 0 };
            let left = self.until[event].saturating_sub(self.now);
            r.deadline = if r.bounded { left } else { 0 };
            r.count = self.counts[event];
        }
    }

    #[inline]
    pub fn due(&self) -> u64 {
        self.overdue & self.included
    }

    /// Included, and never happened.
    #[inline]
    pub fn missing(&self) -> u64 {
        self.included & !self.happened
    }

    /// Included, and pending.
    #[inline]
    pub fn open(&self) -> u64 {
        self.included & self.pending
    }

    #[inline]
    pub fn enabled(&self, p: &Process, event: u8) -> bool {
        let (row, own) = (p.survey.row(event), only(event));
        let held = row.conditions & self.missing() | row.milestones & self.open();
        let timed = p.survey.waiting & own != 0;
        self.included & own != 0 && held == 0 && !(timed && self.waits(p, event))
    }

    /// Whether a condition of the event waits for an included event to be old enough.
    fn waits(&self, p: &Process, event: u8) -> bool {
        p.timed(event).any(|k| {
            let age = self.now - self.since[usize::from(k.right & 63)];
            k.kind == 1 && self.included & only(k.right) != 0 && age < k.time
        })
    }

    #[inline]
    pub fn execute(&mut self, p: &Process, event: u8) {
        let (leads, own) = (p.leads(event), only(event));
        self.happened |= own;
        let place = usize::from(event & 63);
        self.since[place] = self.now;
        self.counts[place] = self.counts[place].saturating_add(1);
        self.included = self.included & !leads.excludes | leads.includes;
        self.pending = self.pending & !own | leads.responses;
        // In a firm table the date that a target has is one of those of which it
        // gets the soonest.
        let replaced = if p.table.firm { 0 } else { leads.responses };
        self.bounded &= !(own | replaced);
        self.overdue &= !(own | replaced);
        for k in p.timed(event).filter(|k| k.kind == 2) {
            let date = self.now + k.time;
            let until = &mut self.until[usize::from(k.right & 63)];
            // The date found first stands, then each that is sooner.
            if self.bounded & only(k.right) == 0 || date < *until {
                *until = date;
            }
            self.bounded |= only(k.right);
            self.wake = self.wake.min(date);
        }
    }

    /// The due events, and what they need.
    #[inline]
    pub fn needed(&self, p: &Process) -> u64 {
        needed(p.survey, self.due(), self.missing(), self.open())
    }

    /// Executes a needed event if it is included by now; whether it is.
    #[inline]
    pub fn take(&mut self, p: &Process, event: u8) -> bool {
        let included = self.included & only(event) != 0;
        if included {
            self.execute(p, event);
        }
        included
    }

    #[inline]
    fn go_to(&mut self, date: u32) {
        self.now = date;
        if self.now >= self.wake {
            self.look();
        }
    }

    #[inline]
    pub fn tick(&mut self) {
        self.go_to(self.now + 1);
    }

    /// On from date to date until an event is due. Whether one is before the end.
    #[inline]
    pub fn wait(&mut self, end: u32) -> bool {
        while self.due() == 0 && self.now < end {
            self.go_to(self.wake.min(end));
        }
        self.now < end
    }

    /// Which events have got overdue, and when the next one may.
    fn look(&mut self) {
        self.wake = u32::MAX;
        for event in Events(self.bounded & !self.overdue) {
            let until = self.until[usize::from(event)];
            if until <= self.now {
                self.overdue |= only(event);
            } else {
                self.wake = self.wake.min(until);
            }
        }
    }
}
