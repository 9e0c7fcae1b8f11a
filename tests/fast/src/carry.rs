//! Carrying a marking over from the time before counts.

use crate::decoded::RECORD_BYTES;
use crate::image::state_of;
use crate::judge::record_fits;

/// The bytes of a record before it had a count. They are its first bytes since.
const OLD_BYTES: usize = 8;

/// Whether the old record says that its event has happened.
#[inline]
fn happened(old: &[u8]) -> u32 {
    u32::from(old[0] >> 7)
}

/// An old image, into the start of the buffer: no record is decoded but to judge it.
pub fn carry_marking(events: usize, old: &[u8], buffer: &mut [u8]) -> u8 {
    if !(1..=64).contains(&events) {
        return 3;
    }
    if old.len() != OLD_BYTES * events {
        return 1;
    }
    let records = old.chunks_exact(OLD_BYTES);
    if !records
        .clone()
        .all(|bytes| record_fits(&state_of(bytes, happened(bytes))))
    {
        return 7;
    }
    if buffer.len() < RECORD_BYTES * events {
        return 14;
    }
    for (bytes, place) in records.zip(buffer.chunks_exact_mut(RECORD_BYTES)) {
        let (state, count) = place.split_at_mut(OLD_BYTES);
        state.copy_from_slice(bytes);
        count.copy_from_slice(&happened(bytes).to_be_bytes());
    }
    0
}
