//! The station program, from its whole input to its whole output.

use crate::image::{length_the_header_says, read_marking, read_table, RECORD_BYTES};
use crate::refusal::DONE;
use crate::trace::run_bytes;
use crate::writing::write_marking;

/// The first `length` bytes and the rest, or everything and nothing if there
/// are not so many: the reader then refuses the length.
fn split(bytes: &[u8], length: usize) -> (&[u8], &[u8]) {
    bytes.split_at(length.min(bytes.len()))
}

fn done(number: u8) -> Result<(), u8> {
    if number == DONE {
        Ok(())
    } else {
        Err(number)
    }
}

fn attempt(input: &[u8]) -> Result<Vec<u8>, u8> {
    let (table_image, rest) = split(input, length_the_header_says(input));
    let read = read_table(table_image);
    done(read.number)?;
    let table = read.table;

    let (marking_image, steps) = split(rest, RECORD_BYTES * table.events);
    let read = read_marking(table.events, marking_image);
    done(read.number)?;

    let mut output = vec![0; steps.len() / 2];
    let end = run_bytes(&table, &read.marking, steps, &mut output);
    done(end.number)?;

    let mut end_image = vec![0; RECORD_BYTES * table.events];
    done(write_marking(&end.marking, &mut end_image))?;
    output.extend(end_image);
    Ok(output)
}

/// The answer bytes and the end marking image, or the one refusal number.
pub fn station(input: &[u8]) -> Vec<u8> {
    match attempt(input) {
        Ok(output) => output,
        Err(number) => vec![number],
    }
}
