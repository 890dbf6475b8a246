//! The replay program, held to the reference's replay.

use crate::Day;
use std::io::{self, Write};
use std::path::{Path, PathBuf};
use std::process::{Command, Stdio};

/// Where `./replay` puts the program; none where it did not yet.
pub fn program() -> Option<PathBuf> {
    let program = Path::new(env!("CARGO_MANIFEST_DIR")).join("../../target/bin/replay");
    program.exists().then_some(program)
}

/// The stream of a day: whole, or, by its number, cut short or longer than what is replayed.
pub fn stream(day: &Day, number: u64) -> Vec<u8> {
    let mut stream = reference::days::stream(&day.setup, &day.calls);
    if number.is_multiple_of(50) {
        stream.resize(reference::LONGEST_STREAM + (number / 50 % 3) as usize, 0);
    } else if number.is_multiple_of(3) {
        let length = number.wrapping_mul(0x9E37_79B9) as usize % (stream.len() + 1);
        stream.truncate(length);
    }
    stream
}

/// Replays a stream on both; says in what they differ.
pub fn compare(program: &Path, stream: &[u8]) -> Result<(), String> {
    let printed = printed(program, stream).map_err(|why| why.to_string())?;
    let expected = reference::replay(stream);
    if printed == expected.as_bytes() {
        return Ok(());
    }
    let printed = String::from_utf8_lossy(&printed);
    let mut lines = expected.lines().zip(printed.lines()).enumerate();
    match lines.find(|(_, (expected, line))| expected != line) {
        Some((at, (expected, line))) => Err(format!("line {at}: the reference prints '{expected}', the program '{line}'")),
        None => Err(format!("the reference prints {} bytes, the program {}", expected.len(), printed.len())),
    }
}

fn printed(program: &Path, stream: &[u8]) -> io::Result<Vec<u8>> {
    let mut run = Command::new(program).stdin(Stdio::piped()).stdout(Stdio::piped()).spawn()?;
    if let Some(mut input) = run.stdin.take() {
        // The program need not read all of a stream that is too long.
        let _ = input.write_all(stream);
    }
    Ok(run.wait_with_output()?.stdout)
}
