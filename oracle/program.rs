//! The command program: lines in, one line out for each.

use crate::planner::Planner;

/// Annex 11.8: the most bytes of a line, its LF not counted.
const MOST_BYTES: usize = 63;

/// Annex 11.6: O,B,F,G,T and A,id,S,P,D and D,id and R.
enum Command {
    Open([u64; 4]),
    Add([u64; 4]),
    Remove(u64),
    Round,
}

/// A running program: its planner and the lines read so far.
pub struct Program {
    pub planner: Planner,
    lines: u64,
}

impl Program {
    /// Annex 11.10: until an O succeeds the planner is closed.
    pub fn new() -> Program {
        Program {
            planner: Planner::closed(),
            lines: 0,
        }
    }

    /// Reads one line, given without its LF, and returns the line printed.
    /// Annex 11.20: to a line that is no command, also an empty one, E,20 and
    /// its line number from 1.
    pub fn line(&mut self, line: &[u8]) -> String {
        self.lines += 1;
        match command(line) {
            Some(Command::Open(numbers)) => self.open(numbers),
            Some(Command::Add(numbers)) => self.add(numbers),
            Some(Command::Remove(id)) => self.remove(id),
            Some(Command::Round) => self.round(),
            None => format!("E,20,{}", self.lines),
        }
    }

    /// Annex 11.12, 11.13: messages are off, and a refused O closes the
    /// planner.
    fn open(&mut self, [slots, superframe, gap, time]: [u64; 4]) -> String {
        let (planner, answer) = Planner::open(slots, superframe, gap, time, 0);
        self.planner = planner;
        format!("O,{answer}")
    }

    fn add(&mut self, [id, start, period, deadline]: [u64; 4]) -> String {
        let answer = self.planner.add(id, start, period, deadline);
        format!("A,{id},{answer}")
    }

    fn remove(&mut self, id: u64) -> String {
        let answer = self.planner.remove(id);
        format!("D,{id},{answer}")
    }

    /// Annex 11.17, 11.18: held, the answer 0, the start, n and n ids;
    /// refused, its number alone.
    fn round(&mut self) -> String {
        let mut buffer = [0_u16; 64];
        match self.planner.round(&mut buffer) {
            Err(answer) => format!("R,{answer}"),
            Ok((start, n)) => {
                let mut printed = format!("R,0,{start},{n}");
                for id in &buffer[..n] {
                    printed.push_str(&format!(",{id}"));
                }
                printed
            }
        }
    }
}

/// The command in a line, or none if it is any other line.
fn command(line: &[u8]) -> Option<Command> {
    if line.len() > MOST_BYTES {
        return None;
    }
    // Annex 11.5: fields in a fixed order, parted by commas.
    let fields: Vec<&[u8]> = line.split(|byte| *byte == b',').collect();
    match fields.as_slice() {
        [b"O", b, f, g, t] => Some(Command::Open(four([*b, *f, *g, *t])?)),
        [b"A", id, s, p, d] => Some(Command::Add(four([*id, *s, *p, *d])?)),
        [b"D", id] => Some(Command::Remove(number(id)?)),
        [b"R"] => Some(Command::Round),
        _ => None,
    }
}

/// Four fields, each of them a number.
fn four([a, b, c, d]: [&[u8]; 4]) -> Option<[u64; 4]> {
    Some([number(a)?, number(b)?, number(c)?, number(d)?])
}

/// Annex 11.4, 11.7: digits alone, with no leading zero unless it is 0, and at
/// most 4,294,967,295.
fn number(field: &[u8]) -> Option<u64> {
    let digits = !field.is_empty() && field.iter().all(u8::is_ascii_digit);
    if !digits || (field[0] == b'0' && field.len() > 1) {
        return None;
    }
    // 4,294,967,295 has ten digits; so many cannot pass 64 bits.
    if field.len() > 10 {
        return None;
    }
    let value = field
        .iter()
        .fold(0_u64, |value, digit| value * 10 + u64::from(digit - b'0'));
    (value <= u64::from(u32::MAX)).then_some(value)
}

/// Annex 11.1, 11.2: lines end in LF, which the last may lack: input that ends
/// in LF has no further empty line, and empty input has no line.
pub fn lines(input: &[u8]) -> Vec<&[u8]> {
    let mut lines: Vec<&[u8]> = input.split(|byte| *byte == b'\n').collect();
    if lines.last().is_some_and(|line| line.is_empty()) {
        lines.pop();
    }
    lines
}

/// The whole output for the whole input; empty input prints nothing.
pub fn run(input: &[u8]) -> String {
    let mut program = Program::new();
    let mut output = String::new();
    for line in lines(input) {
        output.push_str(&program.line(line));
        output.push('\n');
    }
    output
}
