//! The second implementation's station as a program, for the test of the mode
//! that runs the proved one. A word is a fault to commit: `late` leaves out the
//! first byte read, `early` stops after the first read, `long` writes a byte more.

use std::io::{Read, Write};

fn main() -> std::io::Result<()> {
    let fault = std::env::args().nth(1).unwrap_or_default();
    let mut input = Vec::new();
    if fault == "early" {
        input.resize(20_000, 0);
        let n = std::io::stdin().read(&mut input)?;
        input.truncate(n);
    } else {
        std::io::stdin().read_to_end(&mut input)?;
    }
    if fault == "late" && !input.is_empty() {
        input.remove(0);
    }
    let mut output = second::station(&input);
    if fault == "long" {
        output.push(0);
    }
    std::io::stdout().write_all(&output)
}
