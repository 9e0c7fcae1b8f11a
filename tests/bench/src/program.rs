//! The program that is held against the second implementation.

use std::process::{Child, Command, Stdio};

/// Starts it with pipes for its input and output.
pub fn start(words: &[String]) -> std::io::Result<Child> {
    Command::new(&words[0])
        .args(&words[1..])
        .stdin(Stdio::piped())
        .stdout(Stdio::piped())
        .spawn()
}
