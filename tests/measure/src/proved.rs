//! The proved side: what the static library of the crate `timing` exports. A lent
//! slice is a pointer and a length.

use measure::calls::Calls;

#[link(name = "timing", kind = "static")]
extern "C" {
    fn timing_read_table(i: *mut u8, n: usize, times: usize) -> u64;
    fn timing_write_table(t: *const u8, tn: usize, b: *mut u8, bn: usize, times: usize) -> u64;
    fn timing_read_marking(events: usize, i: *mut u8, n: usize, times: usize) -> u64;
    fn timing_write_marking(
        events: usize,
        m: *const u8,
        mn: usize,
        b: *mut u8,
        bn: usize,
        times: usize,
    ) -> u64;
    fn timing_carry_marking(
        events: usize,
        o: *mut u8,
        on: usize,
        b: *mut u8,
        bn: usize,
        times: usize,
    ) -> u64;
    fn timing_fresh(times: usize) -> u64;
    fn timing_judge_table(t: *const u8, tn: usize, times: usize) -> u64;
    fn timing_judge_marking(events: usize, m: *const u8, mn: usize, times: usize) -> u64;
    fn timing_enabled(t: *const u8, tn: usize, m: *const u8, mn: usize, times: usize) -> u64;
    fn timing_hold_up(t: *const u8, tn: usize, m: *const u8, mn: usize, times: usize) -> u64;
    fn timing_chain(
        t: *const u8,
        tn: usize,
        m: *const u8,
        mn: usize,
        event: usize,
        l: *mut u16,
        ln: usize,
        times: usize,
    ) -> u64;
    fn timing_margin(t: *const u8, tn: usize, m: *const u8, mn: usize, times: usize) -> u64;
    fn timing_due(t: *const u8, tn: usize, m: *const u8, mn: usize, times: usize) -> u64;
    fn timing_happen(
        t: *const u8,
        tn: usize,
        m: *const u8,
        mn: usize,
        last: usize,
        times: usize,
    ) -> u64;
    fn timing_plain_tick(t: *const u8, tn: usize, m: *const u8, mn: usize, times: usize) -> u64;
    fn timing_closure(t: *const u8, tn: usize, m: *const u8, mn: usize, times: usize) -> u64;
    fn timing_check(t: *const u8, tn: usize, m: *const u8, mn: usize, times: usize) -> u64;
    fn timing_guarded_tick(
        t: *const u8,
        tn: usize,
        m: *const u8,
        mn: usize,
        on: bool,
        times: usize,
    ) -> u64;
    fn timing_sleep(
        t: *const u8,
        tn: usize,
        m: *const u8,
        mn: usize,
        ticks: usize,
        l: *mut u32,
        ln: usize,
        times: usize,
    ) -> u64;
    fn timing_quiet(t: *const u8, tn: usize, m: *const u8, mn: usize, times: usize) -> u64;
    fn timing_remedies(
        t: *const u8,
        tn: usize,
        m: *const u8,
        mn: usize,
        p: *const u8,
        pn: usize,
        f: *const u8,
        fn_: usize,
        times: usize,
    ) -> u64;
    fn timing_run_bytes(
        t: *const u8,
        tn: usize,
        m: *const u8,
        mn: usize,
        s: *const u8,
        sn: usize,
        a: *mut u8,
        an: usize,
        times: usize,
    ) -> u64;
}

pub struct Proved;

/// A call of a table, a marking and the times. SAFETY: the slices outlive the call.
macro_rules! of_pair {
    ($name:ident, $exported:ident) => {
        fn $name(&self, t: &[u8], m: &[u8], times: usize) -> u64 {
            unsafe { $exported(t.as_ptr(), t.len(), m.as_ptr(), m.len(), times) }
        }
    };
}

impl Calls for Proved {
    of_pair!(enabled, timing_enabled);
    of_pair!(hold_up, timing_hold_up);
    of_pair!(margin, timing_margin);
    of_pair!(due, timing_due);
    of_pair!(plain_tick, timing_plain_tick);
    of_pair!(closure, timing_closure);
    of_pair!(check, timing_check);
    of_pair!(quiet, timing_quiet);

    fn read_table(&self, i: &mut [u8], times: usize) -> u64 {
        unsafe { timing_read_table(i.as_mut_ptr(), i.len(), times) }
    }

    fn write_table(&self, t: &[u8], b: &mut [u8], times: usize) -> u64 {
        unsafe { timing_write_table(t.as_ptr(), t.len(), b.as_mut_ptr(), b.len(), times) }
    }

    fn read_marking(&self, events: usize, i: &mut [u8], times: usize) -> u64 {
        unsafe { timing_read_marking(events, i.as_mut_ptr(), i.len(), times) }
    }

    fn write_marking(&self, events: usize, m: &[u8], b: &mut [u8], times: usize) -> u64 {
        let (to, room) = (b.as_mut_ptr(), b.len());
        unsafe { timing_write_marking(events, m.as_ptr(), m.len(), to, room, times) }
    }

    fn carry_marking(&self, events: usize, o: &mut [u8], b: &mut [u8], times: usize) -> u64 {
        let (to, room) = (b.as_mut_ptr(), b.len());
        unsafe { timing_carry_marking(events, o.as_mut_ptr(), o.len(), to, room, times) }
    }

    fn fresh(&self, times: usize) -> u64 {
        unsafe { timing_fresh(times) }
    }

    fn judge_table(&self, t: &[u8], times: usize) -> u64 {
        unsafe { timing_judge_table(t.as_ptr(), t.len(), times) }
    }

    fn judge_marking(&self, events: usize, m: &[u8], times: usize) -> u64 {
        unsafe { timing_judge_marking(events, m.as_ptr(), m.len(), times) }
    }

    fn chain(&self, t: &[u8], m: &[u8], event: usize, l: &mut [u16], times: usize) -> u64 {
        let (to, room) = (l.as_mut_ptr(), l.len());
        unsafe {
            timing_chain(
                t.as_ptr(),
                t.len(),
                m.as_ptr(),
                m.len(),
                event,
                to,
                room,
                times,
            )
        }
    }

    fn happen(&self, t: &[u8], m: &[u8], last: usize, times: usize) -> u64 {
        unsafe { timing_happen(t.as_ptr(), t.len(), m.as_ptr(), m.len(), last, times) }
    }

    fn guarded_tick(&self, t: &[u8], m: &[u8], times: usize) -> u64 {
        unsafe { timing_guarded_tick(t.as_ptr(), t.len(), m.as_ptr(), m.len(), true, times) }
    }

    fn guarded_tick_again(&self, t: &[u8], m: &[u8], times: usize) -> u64 {
        unsafe { timing_guarded_tick(t.as_ptr(), t.len(), m.as_ptr(), m.len(), false, times) }
    }

    fn sleep(&self, t: &[u8], m: &[u8], ticks: usize, l: &mut [u32], times: usize) -> u64 {
        let (to, room) = (l.as_mut_ptr(), l.len());
        unsafe {
            timing_sleep(
                t.as_ptr(),
                t.len(),
                m.as_ptr(),
                m.len(),
                ticks,
                to,
                room,
                times,
            )
        }
    }

    fn remedies(&self, t: &[u8], m: &[u8], p: &[u8], f: &[u8], times: usize) -> u64 {
        unsafe {
            timing_remedies(
                t.as_ptr(),
                t.len(),
                m.as_ptr(),
                m.len(),
                p.as_ptr(),
                p.len(),
                f.as_ptr(),
                f.len(),
                times,
            )
        }
    }

    fn run_bytes(&self, t: &[u8], m: &[u8], s: &[u8], a: &mut [u8], times: usize) -> u64 {
        unsafe {
            timing_run_bytes(
                t.as_ptr(),
                t.len(),
                m.as_ptr(),
                m.len(),
                s.as_ptr(),
                s.len(),
                a.as_mut_ptr(),
                a.len(),
                times,
            )
        }
    }
}
