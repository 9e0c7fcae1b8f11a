//! The station program itself: each input is one run of it, and all that it
//! writes is held against the second implementation's output.

use crate::inputs::{edges, random, shown, wanted, Shown};
use crate::program::start;
use second::rng::Rng;
use second::station;
use std::collections::{BTreeMap, BTreeSet, VecDeque};
use std::fmt;
use std::io::{Read, Write};
use std::process::Child;
use std::thread;
use std::time::Duration;

/// A report shows so much of an input or output.
const SHOWN_BYTES: usize = 200;

/// So many runs are started ahead of their inputs: each then waits for its
/// input, and reads a piece before the next one is written.
const AHEAD: usize = 8;

/// Writes an input in pieces that end at these places, so that a reader meets
/// short reads. A program that ended early reads no more; what it wrote tells.
fn feed(mut to: impl Write, input: &[u8], ends: &[usize]) {
    let mut begin = 0;
    for end in ends.iter().copied().chain([input.len()]) {
        if to.write_all(&input[begin..end]).is_err() || to.flush().is_err() {
            return;
        }
        if end < input.len() {
            // Time to read what is there.
            thread::sleep(Duration::from_millis(2));
        }
        begin = end;
    }
}

/// Where the pieces of an input end but the last: none in half the cases.
fn some_ends(rng: &mut Rng, length: usize) -> Vec<usize> {
    let pieces = if rng.flag() { 0 } else { rng.between(1, 4) };
    let mut ends: Vec<usize> = (0..pieces).map(|_| rng.below(length)).collect();
    ends.sort();
    ends
}

/// What a started run of the program writes.
fn output(mut child: Child, input: &[u8], ends: &[usize]) -> std::io::Result<Vec<u8>> {
    let to = child.stdin.take().expect("the input is a pipe");
    let mut from = child.stdout.take().expect("the output is a pipe");
    let mut output = Vec::new();
    thread::scope(|scope| {
        scope.spawn(|| feed(to, input, ends));
        from.read_to_end(&mut output)
    })?;
    let ended = child.wait()?;
    if ended.success() {
        return Ok(output);
    }
    Err(std::io::Error::other(format!(
        "the program ended with {ended}"
    )))
}

#[derive(Debug)]
pub struct Difference {
    /// Which of the inputs, from 0.
    pub number: usize,
    pub input: Vec<u8>,
    pub ends: Vec<usize>,
    pub expected: Vec<u8>,
    pub got: Vec<u8>,
}

/// The bytes in hex, cut after the first 200, and how many they are.
fn cut(bytes: &[u8]) -> String {
    let part = &bytes[..bytes.len().min(SHOWN_BYTES)];
    let hex: String = part.iter().map(|byte| format!("{byte:02x}")).collect();
    let more = if part.len() < bytes.len() { ".." } else { "" };
    format!("{} bytes: {hex}{more}", bytes.len())
}

impl fmt::Display for Difference {
    fn fmt(&self, out: &mut fmt::Formatter) -> fmt::Result {
        writeln!(out, "difference in the station's output {}", self.number)?;
        writeln!(out, "input    {}", cut(&self.input))?;
        writeln!(out, "in pieces that end at {:?}", self.ends)?;
        writeln!(out, "expected {}", cut(&self.expected))?;
        write!(out, "got      {}", cut(&self.got))
    }
}

/// How many inputs there were, and how many showed each refusal and answer.
#[derive(Default)]
pub struct Tally {
    pub inputs: usize,
    counts: BTreeMap<Shown, usize>,
}

impl Tally {
    fn add(&mut self, all: BTreeSet<Shown>) {
        self.inputs += 1;
        for shown in all {
            *self.counts.entry(shown).or_default() += 1;
        }
    }

    /// Every number that came up, and whether an input or a step was answered with it.
    pub fn numbers(&self) -> impl Iterator<Item = (&'static str, u8)> + '_ {
        self.counts.keys().map(|shown| match *shown {
            Shown::Refusal(number) => ("input", number),
            Shown::Answer(number) => ("step", number),
        })
    }

    /// What the station can show and no input did.
    pub fn missing(&self) -> Vec<Shown> {
        let all = wanted().into_iter();
        all.filter(|shown| !self.counts.contains_key(shown))
            .collect()
    }
}

impl fmt::Display for Tally {
    fn fmt(&self, out: &mut fmt::Formatter) -> fmt::Result {
        write!(out, "inputs refused:")?;
        for (shown, times) in &self.counts {
            if let Shown::Refusal(number) = shown {
                write!(out, "  {number} x {times}")?;
            }
        }
        write!(out, "\ninputs with a step answered:")?;
        for (shown, times) in &self.counts {
            if let Shown::Answer(number) = shown {
                write!(out, "  {number} x {times}")?;
            }
        }
        writeln!(out)
    }
}

/// Runs the program on the inputs at the limits and on so many random ones,
/// until an output differs.
pub fn run(
    words: &[String],
    inputs: usize,
    seed: u64,
) -> std::io::Result<Result<Tally, Box<Difference>>> {
    let mut tally = Tally::default();
    let mut rng = Rng::new(seed);
    let mut edges = edges().into_iter();
    let total = edges.len() + inputs;
    let mut started = VecDeque::new();
    for number in 0..total {
        while started.len() < AHEAD.min(total - number) {
            started.push_back(start(words)?);
        }
        let input = edges.next().unwrap_or_else(|| random(&mut rng));
        let ends = some_ends(&mut rng, input.len());
        let expected = station(&input);
        let child = started.pop_front().expect("one is started");
        let got = output(child, &input, &ends)?;
        if got != expected {
            return Ok(Err(Box::new(Difference {
                number,
                input,
                ends,
                expected,
                got,
            })));
        }
        tally.add(shown(&input, &expected));
    }
    Ok(Ok(tally))
}

#[cfg(test)]
mod tests {
    use super::*;
    use crate::never::fault;

    #[test]
    fn an_input_and_a_step_that_are_answered_9_are_noticed() {
        // Two steps, and the record of one event; then a refusal of the whole.
        let outputs = [[&[0, 9][..], &[0; 12]].concat(), vec![9]];
        for shown in outputs.map(|output| shown(&[2], &output)) {
            let mut tally = Tally::default();
            tally.add(wanted());
            assert!(fault(tally.numbers()).is_none());
            tally.add(shown);
            assert!(fault(tally.numbers()).is_some());
        }
    }

    #[test]
    fn pieces_are_the_whole_input() {
        let mut fed = Vec::new();
        feed(&mut fed, &[1, 2, 3, 4], &[0, 1, 1, 3]);
        assert_eq!(fed, [1, 2, 3, 4]);
    }

    #[test]
    fn a_report_is_cut() {
        assert_eq!(cut(&[1, 171]), "2 bytes: 01ab");
        let long = cut(&[0; 201]);
        assert!(long.ends_with("00..") && long.len() == "201 bytes: ..".len() + 400);
    }
}
