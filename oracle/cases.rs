//! The lines of `vectors/library` as text, and what the oracle answers to
//! them: what a program over the C functions reads and prints. Those of
//! packets are what `crates/packet_cases` reads and prints.
//!   P BYTES                 a packet to be read, in hex with blanks anywhere
//!   W START B LENGTH ID ..  values to be written to a buffer of that length:
//!                           four bytes, four, two, and two an id
//!   S BYTES                 periods for superframe, a byte each
//! The calls on a planner, checks of plans and `filled` are in `calls`. Any other line is
//! passed over.

use crate::calls::Calls;
use crate::packet::{self, Read};
use crate::planner::superframe;

/// The answers to all lines.
pub fn answers(text: &str) -> String {
    let mut calls = Calls::new();
    let mut answers = String::new();
    for line in text.lines() {
        if let Some(answer) = answer(line).or_else(|| calls.answer(line)) {
            answers.push_str(&answer);
            answers.push('\n');
        }
    }
    answers
}

/// The answer to a line that calls no planner; `S,` begins a send.
fn answer(line: &str) -> Option<String> {
    if line.starts_with("S,") {
        return None;
    }
    let bytes = bytes(line.get(1..)?);
    match line.chars().next()? {
        'P' => Some(read(&bytes)),
        'W' => Some(write(&bytes)),
        'S' => Some(least_common_multiple(&bytes)),
        _ => None,
    }
}

/// The answer, start, B and n, then the length of the ids' part and its bytes.
fn read(bytes: &[u8]) -> String {
    let Read {
        answer,
        start,
        slots,
        n,
    } = packet::read(bytes);
    let part = packet::ids_part(bytes);
    format!(
        "P {answer} {start} {slots} {n} {} {}",
        part.len(),
        hex(part)
    )
}

/// The answer, then all bytes of the buffer, which held ee before.
fn write(bytes: &[u8]) -> String {
    let (start, slots) = (number(&bytes[..4]), number(&bytes[4..8]));
    let mut buffer = vec![0xee; number(&bytes[8..10]) as usize];
    let answer = packet::write(start, slots, &packet::ids(&bytes[10..]), &mut buffer);
    format!("W {answer} {}", hex(&buffer))
}

/// The answer and the value.
fn least_common_multiple(periods: &[u8]) -> String {
    let (answer, value) = superframe(periods);
    format!("S {answer} {value}")
}

fn number(bytes: &[u8]) -> u64 {
    bytes.iter().fold(0, |x, byte| x << 8 | u64::from(*byte))
}

/// The bytes that hex digits give, two each.
pub fn bytes(text: &str) -> Vec<u8> {
    let digits: Vec<u32> = text.chars().filter_map(|c| c.to_digit(16)).collect();
    digits
        .chunks_exact(2)
        .map(|two| (two[0] * 16 + two[1]) as u8)
        .collect()
}

/// Two digits a byte; a dash where there is none.
pub fn hex(bytes: &[u8]) -> String {
    if bytes.is_empty() {
        return String::from("-");
    }
    bytes.iter().map(|byte| format!("{byte:02x}")).collect()
}
