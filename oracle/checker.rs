//! The plan checker, literal and slow: every rule of a round is a question of
//! its own, asked of what is held before that round. Written from the papers
//! and the clauses; it shares nothing with the library it checks.

use crate::packet;
use crate::planner::Planner;

/// Annex 14.13: the answer, how many rounds in front pass, the rule that the
/// next one breaks first (0 if there is none), and how many bytes the rounds
/// that pass have.
#[derive(Clone, Debug, PartialEq, Eq)]
pub struct Finding {
    pub answer: u32,
    pub passed: usize,
    pub rule: u32,
    pub at: usize,
}

impl Finding {
    /// Annex 14.11, 14.12: the number, from 1, of the first round that breaks
    /// a rule; 0 if there is none.
    pub fn round(&self) -> usize {
        if self.rule == 0 {
            return 0;
        }
        self.passed + 1
    }
}

/// Annex 14.2: a round of a plan, which is the values of its packet; of the
/// numbers those that are stream ids, and the packet's length.
struct Round {
    start: u64,
    slots: u64,
    ids: Vec<u64>,
    length: usize,
}

impl Round {
    fn end(&self) -> u64 {
        self.start + 1
    }

    /// How often an id stands in the round.
    fn times(&self, id: u64) -> u64 {
        self.ids.iter().filter(|other| **other == id).count() as u64
    }
}

/// Annex 14.1, 14.10 to 14.13: 5 and zeros of a planner that is not sound,
/// with bytes or without. Else the rounds are gone through from the front, as
/// long as bytes are left and no rule is broken. The planner stays as it is.
pub fn find(planner: &Planner, plan: &[u8]) -> Finding {
    let mut finding = Finding {
        answer: 0,
        passed: 0,
        rule: 0,
        at: 0,
    };
    if !planner.sound() {
        finding.answer = 5;
        return finding;
    }
    let mut held = planner.clone();
    while finding.at < plan.len() {
        match passing(&held, &plan[finding.at..]) {
            Ok(round) => {
                pass(&mut held, &round);
                finding.passed += 1;
                finding.at += round.length;
            }
            Err(rule) => {
                finding.rule = rule;
                return finding;
            }
        }
    }
    finding
}

/// Annex 14.9, 14.13: the round in front of the bytes that are left, if it
/// passes; else the first of the rules 1 to 5 that it breaks.
fn passing(held: &Planner, rest: &[u8]) -> Result<Round, u32> {
    let Some(round) = front(held, rest) else {
        return Err(1);
    };
    if !starts_in_time(held, &round) {
        return Err(2);
    }
    if !has_room(held, &round) {
        return Err(3);
    }
    if !all_may_ride(held, &round) {
        return Err(4);
    }
    if !none_left(held, &round) {
        return Err(5);
    }
    Ok(round)
}

/// Annex 14.3: the packet in front: none if fewer than 6 bytes are left, or
/// fewer than 6 + 2×n, where n is byte 5, if it is not good, or if its B is
/// not the planner's. Message numbers are skipped, with messages off too.
fn front(held: &Planner, rest: &[u8]) -> Option<Round> {
    let n = usize::from(*rest.get(5)?);
    let length = 6 + 2 * n;
    let bytes = rest.get(..length)?;
    let read = packet::read(bytes);
    if read.answer != 0 || read.slots != held.slots {
        return None;
    }
    let numbers = packet::ids(packet::ids_part(bytes));
    let ids = numbers.into_iter().map(u64::from);
    Some(Round {
        start: read.start,
        slots: read.slots,
        ids: ids.filter(|number| *number <= 32_767).collect(),
        length,
    })
}

/// Annex 14.4: after the last start, and at most at that + 1 + G.
fn starts_in_time(held: &Planner, round: &Round) -> bool {
    round.start > held.last && round.start <= held.last + 1 + held.gap
}

/// Annex 14.5: at most as many stream ids as slots for streams: B, less 1 with
/// messages on.
fn has_room(held: &Planner, round: &Round) -> bool {
    round.ids.len() as u64 + held.messages <= round.slots
}

/// Annex 14.6: each id is held, and the packet it stands for is released by
/// the start and due at the end or later. An id's second place stands for the
/// next packet, and so on.
fn all_may_ride(held: &Planner, round: &Round) -> bool {
    let held_and_rides = |id: &u64| {
        let stream = held.streams.iter().find(|stream| stream.id == *id);
        stream.is_some_and(|stream| {
            (0..round.times(*id)).all(|m| {
                let release = stream.release + m * stream.period;
                release <= round.start && release + stream.deadline >= round.end()
            })
        })
    };
    round.ids.iter().all(held_and_rides)
}

/// Annex 14.7: of every stream, listed or not, what is unserved after the
/// round is due after its end.
fn none_left(held: &Planner, round: &Round) -> bool {
    let mut after = held.clone();
    pass(&mut after, round);
    after
        .streams
        .iter()
        .all(|stream| stream.due() > round.end())
}

/// Annex 14.8: what is held after a round that passes: its start is the last
/// start, and each stream is moved on by P for each time that its id stands in
/// the round.
fn pass(held: &mut Planner, round: &Round) {
    held.last = round.start;
    for stream in &mut held.streams {
        stream.release += stream.period * round.times(stream.id);
    }
}
