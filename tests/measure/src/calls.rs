//! The calls that are measured. Each is a loop, the same on both sides: values
//! are decoded once, the call is made so many times, and of each answer something
//! is taken into a sum, which decides what the next call is handed. Two sides that
//! answer alike have the same sums.

pub trait Calls {
    fn read_table(&self, image: &mut [u8], times: usize) -> u64;
    fn write_table(&self, table: &[u8], buffer: &mut [u8], times: usize) -> u64;
    fn read_marking(&self, events: usize, image: &mut [u8], times: usize) -> u64;
    fn write_marking(&self, events: usize, marking: &[u8], buffer: &mut [u8], times: usize) -> u64;
    /// Of an image of the time before counts.
    fn carry_marking(&self, events: usize, old: &mut [u8], buffer: &mut [u8], times: usize) -> u64;
    fn fresh(&self, times: usize) -> u64;
    fn judge_table(&self, table: &[u8], times: usize) -> u64;
    fn judge_marking(&self, events: usize, marking: &[u8], times: usize) -> u64;
    fn enabled(&self, table: &[u8], marking: &[u8], times: usize) -> u64;
    fn hold_up(&self, table: &[u8], marking: &[u8], times: usize) -> u64;
    /// Of one event, each time into the same list.
    fn chain(
        &self,
        table: &[u8],
        marking: &[u8],
        event: usize,
        list: &mut [u16],
        times: usize,
    ) -> u64;
    fn margin(&self, table: &[u8], marking: &[u8], times: usize) -> u64;
    fn due(&self, table: &[u8], marking: &[u8], times: usize) -> u64;
    fn happen(&self, table: &[u8], marking: &[u8], last: usize, times: usize) -> u64;
    fn plain_tick(&self, table: &[u8], marking: &[u8], times: usize) -> u64;
    fn closure(&self, table: &[u8], marking: &[u8], times: usize) -> u64;
    fn check(&self, table: &[u8], marking: &[u8], times: usize) -> u64;
    /// On from its answer.
    fn guarded_tick(&self, table: &[u8], marking: &[u8], times: usize) -> u64;
    /// From the same marking each time.
    fn guarded_tick_again(&self, table: &[u8], marking: &[u8], times: usize) -> u64;
    /// From the same marking each time, into the same list.
    fn sleep(
        &self,
        table: &[u8],
        marking: &[u8],
        ticks: usize,
        list: &mut [u32],
        times: usize,
    ) -> u64;
    fn quiet(&self, table: &[u8], marking: &[u8], times: usize) -> u64;
    fn remedies(
        &self,
        table: &[u8],
        marking: &[u8],
        preferred: &[u8],
        fallback: &[u8],
        times: usize,
    ) -> u64;
    fn run_bytes(
        &self,
        table: &[u8],
        marking: &[u8],
        steps: &[u8],
        answers: &mut [u8],
        times: usize,
    ) -> u64;
}
