//! The lines of `vectors/library` that call one planner which a program
//! keeps, and what the oracle answers to them:
//!   O,.. and A,.. and D,..  as in the command language, and answered so; an O
//!                           may have a fifth number, messages
//!   S,NUMBER                a send: S,NUMBER and the answer
//!   R LENGTH                a round with a buffer of that many places, each
//!                           of which held 0: the answer, the start, n, and
//!                           all places
//!   F LENGTH N              how many places such a buffer has filled
//!   C,BYTES                 a check of the plan that these bytes are, in hex
//!                           with blanks anywhere: C, the answer and the round
//!   M FIELD VALUE           sets slots, frame, gap, messages, last, or the
//!                           count of waiting messages in the planner's memory
//!   M number PLACE VALUE    sets the waiting message at a place from 0
//! Memory that is set can leave a planner that is not sound, to which every
//! call but O answers 5. A round's line ends in ` differs` where a place behind
//! its n was written; no vector expects it.

use crate::cases;
use crate::checker::{self, Finding};
use crate::planner::Planner;

/// What every place of a buffer holds before a round: the one number of 16
/// bits that is neither a stream's id nor a message, so that none of the n is
/// taken for one that was left. Where it is written itself, the same round
/// over another number shows it.
const BEFORE: u16 = 0;
const OTHER_BEFORE: u16 = 65_535;

/// The planner that the lines call.
pub struct Calls {
    pub planner: Planner,
}

/// What a round gave, and all places of its buffer.
pub struct Round {
    pub answer: u32,
    pub start: u64,
    pub n: usize,
    pub buffer: Vec<u16>,
    differs: bool,
}

impl Round {
    /// The numbers with a blank before each but the first.
    pub fn text(&self) -> String {
        let mut text = format!("{} {} {}", self.answer, self.start, self.n);
        for number in &self.buffer {
            text.push_str(&format!(" {number}"));
        }
        text.push_str(if self.differs { " differs" } else { "" });
        text
    }
}

impl Calls {
    pub fn new() -> Calls {
        Calls {
            planner: Planner::closed(),
        }
    }

    /// The answer to a line, or none if it is no call.
    pub fn answer(&mut self, line: &str) -> Option<String> {
        if let Some(plan) = line.strip_prefix("C,") {
            let found = self.check(&cases::bytes(plan));
            return Some(format!("C {} {}", found.answer, found.round()));
        }
        let words: Vec<&str> = line.split([',', ' ']).collect();
        let numbers: Vec<u64> = words
            .iter()
            .skip(1)
            .filter_map(|word| word.parse().ok())
            .collect();
        match (words[0], numbers.as_slice()) {
            ("O", [b, f, g, t]) => Some(format!("O,{}", self.open([*b, *f, *g, *t, 0]))),
            ("O", [b, f, g, t, on]) => Some(format!("O,{}", self.open([*b, *f, *g, *t, *on]))),
            ("A", [id, s, p, d]) => Some(format!("A,{id},{}", self.add([*id, *s, *p, *d]))),
            ("D", [id]) => Some(format!("D,{id},{}", self.remove(*id))),
            ("S", [number]) => Some(format!("S,{number},{}", self.send(*number))),
            ("R", [length]) => Some(format!("R {}", self.round(*length as usize).text())),
            ("F", [length, n]) => Some(format!("F {}", length.min(n))),
            ("M", values) => self.set(words[1], values),
            _ => None,
        }
    }

    pub fn open(&mut self, [slots, frame, gap, last, messages]: [u64; 5]) -> u32 {
        let (planner, answer) = Planner::open(slots, frame, gap, last, messages);
        self.planner = planner;
        answer
    }

    /// Annex 7.11: 5 of any planner that is not sound.
    pub fn add(&mut self, [id, start, period, deadline]: [u64; 4]) -> u32 {
        if !self.planner.sound() {
            return 5;
        }
        self.planner.add(id, start, period, deadline)
    }

    /// Annex 7.22: likewise.
    pub fn remove(&mut self, id: u64) -> u32 {
        if !self.planner.sound() {
            return 5;
        }
        self.planner.remove(id)
    }

    /// Annex 7.42: likewise.
    pub fn send(&mut self, number: u64) -> u32 {
        if !self.planner.sound() {
            return 5;
        }
        self.planner.send(number)
    }

    /// Annex 7.25: likewise. Annex 7.31: refused, start and n are 0.
    pub fn round(&mut self, length: usize) -> Round {
        let mut buffer = vec![BEFORE; length];
        let mut other = vec![OTHER_BEFORE; length];
        let mut held = Err(5);
        if self.planner.sound() {
            let _ = self.planner.clone().round(&mut other);
            held = self.planner.round(&mut buffer);
        }
        let (answer, (start, n)) = match held {
            Ok(held) => (0, held),
            Err(answer) => (answer, (0, 0)),
        };
        let left = buffer.iter().skip(n).all(|place| *place == BEFORE)
            && other.iter().skip(n).all(|place| *place == OTHER_BEFORE);
        Round {
            answer,
            start,
            n,
            buffer,
            differs: !left,
        }
    }

    /// Annex 14.1, 14.16: a check, which changes nothing.
    pub fn check(&self, plan: &[u8]) -> Finding {
        checker::find(&self.planner, plan)
    }

    fn set(&mut self, field: &str, values: &[u64]) -> Option<String> {
        let planner = &mut self.planner;
        match (field, values) {
            ("slots", [value]) => planner.slots = *value,
            ("frame", [value]) => planner.superframe = *value,
            ("gap", [value]) => planner.gap = *value,
            ("messages", [value]) => planner.messages = *value,
            ("last", [value]) => planner.last = *value,
            ("count", [value]) => planner.waiting.count = *value,
            ("number", [place, value]) => planner.waiting.numbers[*place as usize] = *value,
            _ => return None,
        }
        Some(String::from("M"))
    }
}
