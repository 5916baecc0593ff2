//! Lists of random calls on one planner, each with its answer. The program
//! `crates/random_calls` makes the same list from the same seed by the proved
//! calls, so each number below is agreed between the two.
//!
//! Draws. The first draw is 16,807 × SEED modulo 2,147,483,647, each further
//! one 16,807 × the draw before modulo 2,147,483,647. Every step takes six
//! draws, k, a, b, c, d and e, whatever it uses of them, and makes one call.
//! Of a draw with n rows, the row is the draw modulo n, from 0, and the rest
//! is the draw divided by n.
//!
//! Seen. Only a check looks at the planner. A step knows what was called and
//! answered: B, F and L, which are those of the last opening if it was
//! accepted, and 0 if it was refused or there was none; L is also the start of
//! each round held since.
//! now is L + 1. The mood is drawn with each opening, refused or not, and is 0
//! before the first: 0 mixes the calls, 1 sends many messages, 2 fills the
//! table, and 3 puts many packets off and then adds urgent ones. Urgent is an
//! addition in mood 3 whose call before was a round that was held.
//!
//! Which call, by k:
//!   opening   where k modulo 4 is 0 with B = 0; else where k modulo 128 is 0
//!             in mood 2, and modulo 48 in the others
//!   otherwise by x = k / 256 modulo 22, and with ADDS and SENDS of the mood:
//!   addition  where x < ADDS            ADDS  4 2 12 11
//!   removal   where x = ADDS
//!   send      where x ≤ ADDS + SENDS    SENDS 5 10 1 1
//!   round     where x is more, and at most 15
//!   check     where x is 16 or more
//!
//! The numbers of the call:
//!   opening   B by a, 16 rows: 0 65 1 1 1 2 2 2 3 3 3 4 5 8 33 64; from row 2
//!               on 64 in mood 2, and 2 in mood 3
//!             F by b, 16 rows: 0 5041 5040 1 2 6 12 12 24 60 60 120 120 240
//!               240 720
//!             G by c, 16 rows: 0 256 255 1 2 3 6 9 20 20 30 50 100 200 255
//!               255; from row 2 on 255 in mood 3
//!             T by d, 16 rows: 1,000,000,001; 4,294,967,295; 1,000,000,000; in
//!               rows 3 to 5 1,000,000,000 - rest modulo 512; else rest modulo
//!               100,000
//!             messages by e, 8 rows: 0 0 0 1 1 2 65536 4294967295
//!             the mood, which the B and G above are of, is the one numbered
//!               rest of e modulo 8 among 0 0 1 1 2 3 3 3
//!   addition  id by a, as of a removal
//!             S by b, 64 rows: L; now + 240; now + 239; 4,294,967,295; in rows
//!               4 to 15 now + rest modulo 240; else now + rest modulo 3
//!             P by c, 64 rows: 0; 241; 7; 256; else the lesser of F and, in
//!               mood 3, 240, in the others the one numbered rest modulo 8
//!               among 1 2 3 6 12 24 120 240
//!             D by d, 32 rows: 0; P + 1; else, urgent, 1 + rest modulo the
//!               lesser of P and 4; else, in mood 3 or in rows 2 to 9, P; else
//!               1 + rest modulo P; 1 for a modulus of 0
//!   removal   id by a, 64 rows: 0; 32,767; 32,768; 65,537; else 1 + rest
//!               modulo 200 in moods 2 and 3, modulo 12 in 0 and 1
//!   send      the number by a, 32 rows: 0 32767 32768 65535 65536 98304 105536
//!               4294967295; in rows 8 to 15 40,000; else 32,768 + rest modulo
//!               32,768
//!   round     the buffer's length by a, 8 rows: 0; B - 1, or 0 with B = 0; in
//!               rows 2 and 3 B + 3; else B
//!   check     of a plan, as below
//! A further number of a call takes a draw that the call does not use yet, and
//! a further call a share of x.
//!
//! A plan is made from the planner as it stands. On a copy of it, so many
//! rounds are held, one after the other, each with a buffer of 64, by a, 16
//! rows: 0 1 2 2 3 3 4 4 5 5 6 6 7 7 8 8. Those that are not refused are written
//! end to end as packets of their start, the planner's B, and their n numbers.
//! Then one edit is made, by b, 16 rows. Its packet is the one numbered c modulo
//! the count of packets, its number the one numbered d modulo that packet's n,
//! both from 0. With no packets, every row but 0 is row 15; an edit that asks
//! for a number where there is none is none.
//!   row 0      none
//!   rows 1 2   the packet's start is one more
//!   rows 3 4   the packet's start is one less
//!   rows 5 6   the number becomes the id by e, as of a removal
//!   row 7      the number is put in once more, behind itself
//!   rows 8 9   the id by e, as of a removal, is put in before the numbers
//!   row 10     the number is dropped
//!   row 11     the number by e, as of a send, is put in behind the numbers
//!   row 12     bytes are cut off the end, by e, 4 rows: in rows 0 and 1 one,
//!                else 1 + rest modulo 16; all, if there are no more
//!   row 13     of the plan's byte numbered d modulo their count, the digit of
//!                2 to the power of e modulo 8 becomes the other
//!   row 14     the packet and the one behind it change places; if there is
//!                none behind it, none
//!   row 15     a packet with no numbers is put behind all: its start is the
//!                copy's last start + 1 + e modulo 8, its B the planner's
//! A number is stored modulo 65,536. With one put in or dropped, byte 5 is one
//! more or one less.
//!
//! A line is the call as in `vectors/library`, a colon, a blank, and the
//! answer; behind a round's answer its start, n and all places of the buffer,
//! which held 0; behind a check's the round, how many rounds passed, the rule,
//! and how many bytes passed.

use crate::calls::{Calls, Round};
use crate::checker::Finding;
use crate::packet;
use crate::planner::Planner;

const FACTOR: u64 = 16_807;
const MODULUS: u64 = 2_147_483_647;

/// The seeds, from which no draw is ever 0.
pub const SEEDS: std::ops::Range<u64> = 1..MODULUS;

/// The largest number of 32 bits.
const LARGEST: u64 = 4_294_967_295;

const ADDS: [u64; 4] = [4, 2, 12, 11];
const SENDS: [u64; 4] = [5, 10, 1, 1];
const SLOTS: [u64; 16] = [0, 65, 1, 1, 1, 2, 2, 2, 3, 3, 3, 4, 5, 8, 33, 64];
const FRAMES: [u64; 16] = [
    0, 5_041, 5_040, 1, 2, 6, 12, 12, 24, 60, 60, 120, 120, 240, 240, 720,
];
const GAPS: [u64; 16] = [
    0, 256, 255, 1, 2, 3, 6, 9, 20, 20, 30, 50, 100, 200, 255, 255,
];
const MESSAGES: [u64; 8] = [0, 0, 0, 1, 1, 2, 65_536, LARGEST];
const MOODS: [u64; 8] = [0, 0, 1, 1, 2, 3, 3, 3];
const ROUNDS: [u64; 16] = [0, 1, 2, 2, 3, 3, 4, 4, 5, 5, 6, 6, 7, 7, 8, 8];
const PERIODS: [u64; 8] = [1, 2, 3, 6, 12, 24, 120, 240];
const NUMBERS: [u64; 8] = [0, 32_767, 32_768, 65_535, 65_536, 98_304, 105_536, LARGEST];

/// The draws of a step.
struct Draws {
    k: u64,
    a: u64,
    b: u64,
    c: u64,
    d: u64,
    e: u64,
}

/// What was called and answered; `held` says whether the call before was a
/// round that was held.
#[derive(Default)]
struct Seen {
    slots: u64,
    frame: u64,
    last: u64,
    mood: u64,
    held: bool,
}

/// A list in the making.
pub struct List {
    last_draw: u64,
    seen: Seen,
    pub calls: Calls,
}

/// One call and what it answered.
pub struct Step {
    pub line: String,
    pub answer: u32,
    pub round: Option<Round>,
    pub check: Option<Check>,
}

/// What a check was of, by which edit it was made, and what was found.
pub struct Check {
    pub plan: Vec<u8>,
    pub edit: u64,
    pub found: Finding,
}

impl Step {
    fn new(line: String, answer: u32) -> Step {
        Step {
            line,
            answer,
            round: None,
            check: None,
        }
    }

    pub fn text(&self) -> String {
        let answer = match (&self.round, &self.check) {
            (Some(round), _) => round.text(),
            (_, Some(check)) => check.text(),
            _ => self.answer.to_string(),
        };
        format!("{}: {answer}", self.line)
    }
}

impl Check {
    /// The numbers with a blank before each but the first.
    fn text(&self) -> String {
        let found = &self.found;
        let numbers = [found.round(), found.passed, found.rule as usize, found.at];
        let mut text = found.answer.to_string();
        for number in numbers {
            text.push_str(&format!(" {number}"));
        }
        text
    }
}

/// A list of so many calls, a line each.
pub fn text(seed: u64, wanted: usize) -> String {
    let mut list = List::new(seed);
    (0..wanted).map(|_| list.step().text() + "\n").collect()
}

impl List {
    pub fn new(seed: u64) -> List {
        List {
            last_draw: seed,
            seen: Seen::default(),
            calls: Calls::new(),
        }
    }

    fn draw(&mut self) -> u64 {
        self.last_draw = FACTOR * self.last_draw % MODULUS;
        self.last_draw
    }

    /// The next call, made.
    pub fn step(&mut self) -> Step {
        let draws = Draws {
            k: self.draw(),
            a: self.draw(),
            b: self.draw(),
            c: self.draw(),
            d: self.draw(),
            e: self.draw(),
        };
        let step = self.call(&draws);
        self.seen.held = step.round.is_some() && step.answer == 0;
        step
    }

    fn call(&mut self, draws: &Draws) -> Step {
        let between = match (self.seen.slots, self.seen.mood) {
            (0, _) => 4,
            (_, 2) => 128,
            _ => 48,
        };
        let adds = ADDS[self.seen.mood as usize];
        let sends = SENDS[self.seen.mood as usize];
        let x = draws.k / 256 % 22;
        if draws.k % between == 0 {
            self.open(draws)
        } else if x >= 16 {
            self.check(draws)
        } else if x < adds {
            self.add(draws)
        } else if x == adds {
            self.remove(draws)
        } else if x <= adds + sends {
            self.send(draws)
        } else {
            self.round(draws)
        }
    }

    fn open(&mut self, draws: &Draws) -> Step {
        let mood = MOODS[(draws.e / 8 % 8) as usize];
        let slots = slots(draws.a, mood);
        let frame = FRAMES[(draws.b % 16) as usize];
        let gap = gap(draws.c, mood);
        let time = time(draws.d);
        let messages = MESSAGES[(draws.e % 8) as usize];
        let answer = self.calls.open([slots, frame, gap, time, messages]);
        let accepted = u64::from(answer == 0);
        self.seen = Seen {
            slots: slots * accepted,
            frame: frame * accepted,
            last: time * accepted,
            mood,
            held: false,
        };
        Step::new(format!("O,{slots},{frame},{gap},{time},{messages}"), answer)
    }

    fn add(&mut self, draws: &Draws) -> Step {
        let id = self.id(draws.a);
        let start = self.start(draws.b);
        let period = self.period(draws.c);
        let deadline = self.deadline(draws.d, period);
        let answer = self.calls.add([id, start, period, deadline]);
        Step::new(format!("A,{id},{start},{period},{deadline}"), answer)
    }

    fn remove(&mut self, draws: &Draws) -> Step {
        let id = self.id(draws.a);
        Step::new(format!("D,{id}"), self.calls.remove(id))
    }

    fn send(&mut self, draws: &Draws) -> Step {
        let number = number(draws.a);
        Step::new(format!("S,{number}"), self.calls.send(number))
    }

    fn round(&mut self, draws: &Draws) -> Step {
        let slots = self.seen.slots;
        let length = match draws.a % 8 {
            0 => 0,
            1 => slots.saturating_sub(1),
            2..=3 => slots + 3,
            _ => slots,
        };
        let round = self.calls.round(length as usize);
        if round.answer == 0 {
            self.seen.last = round.start;
        }
        Step {
            line: format!("R {length}"),
            answer: round.answer,
            round: Some(round),
            check: None,
        }
    }

    fn check(&mut self, draws: &Draws) -> Step {
        let (plan, edit) = self.plan(draws);
        let found = self.calls.check(&plan);
        let digits: String = plan.iter().map(|byte| format!("{byte:02x}")).collect();
        Step {
            line: format!("C,{digits}"),
            answer: found.answer,
            round: None,
            check: Some(Check { plan, edit, found }),
        }
    }

    /// The planner's own rounds with an edit, and its row.
    fn plan(&self, draws: &Draws) -> (Vec<u8>, u64) {
        let mut copy = self.calls.planner.clone();
        let mut packets = own_packets(&mut copy, ROUNDS[(draws.a % 16) as usize]);
        let count = packets.len();
        let edit = match draws.b % 16 {
            1.. if count == 0 => 15,
            row => row,
        };
        let chosen = draws.c as usize % count.max(1);
        match edit {
            1..=11 => {
                let numbers = (self.id(draws.e), number(draws.e));
                edit_packet(&mut packets[chosen], edit, draws.d, numbers);
            }
            14 if chosen + 1 < count => packets.swap(chosen, chosen + 1),
            15 => {
                let start = bytes(copy.last + 1 + draws.e % 8, 4);
                packets.push([&start, &bytes(copy.slots, 1)[..], &[0]].concat());
            }
            _ => {}
        }
        (edit_bytes(packets.concat(), edit, draws), edit)
    }

    fn id(&self, draw: u64) -> u64 {
        let ids = if self.seen.mood > 1 { 200 } else { 12 };
        match draw % 64 {
            0 => 0,
            1 => 32_767,
            2 => 32_768,
            3 => 65_537,
            _ => 1 + draw / 64 % ids,
        }
    }

    fn start(&self, draw: u64) -> u64 {
        let now = self.seen.last + 1;
        match draw % 64 {
            0 => self.seen.last,
            1 => now + 240,
            2 => now + 239,
            3 => LARGEST,
            4..=15 => now + draw / 64 % 240,
            _ => now + draw / 64 % 3,
        }
    }

    fn period(&self, draw: u64) -> u64 {
        match draw % 64 {
            0 => 0,
            1 => 241,
            2 => 7,
            3 => 256,
            _ if self.seen.mood == 3 => self.seen.frame.min(240),
            _ => self.seen.frame.min(PERIODS[(draw / 64 % 8) as usize]),
        }
    }

    fn deadline(&self, draw: u64, period: u64) -> u64 {
        let urgent = self.seen.mood == 3 && self.seen.held;
        match draw % 32 {
            0 => 0,
            1 => period + 1,
            _ if urgent => 1 + draw / 32 % period.clamp(1, 4),
            _ if self.seen.mood == 3 => period,
            2..=9 => period,
            _ => 1 + draw / 32 % period.max(1),
        }
    }
}

/// So many rounds of a planner, each as its packet.
fn own_packets(planner: &mut Planner, wanted: u64) -> Vec<Vec<u8>> {
    let mut packets = Vec::new();
    for _ in 0..wanted {
        let mut buffer = [0; 64];
        if let Ok((start, n)) = planner.round(&mut buffer) {
            let mut packet = vec![0; packet::IDS_FROM + 2 * n];
            let answer = packet::write(start, planner.slots, &buffer[..n], &mut packet);
            assert_eq!(answer, 0, "a round that is held is a good packet");
            packets.push(packet);
        }
    }
    packets
}

/// The least significant bytes of a number, the most significant of them first.
fn bytes(number: u64, count: usize) -> Vec<u8> {
    number.to_be_bytes()[8 - count..].to_vec()
}

/// The edits of one packet, rows 1 to 11: of its start, or of its numbers.
fn edit_packet(packet: &mut Vec<u8>, edit: u64, draw: u64, (id, message): (u64, u64)) {
    let (head, part) = packet.split_at(packet::IDS_FROM);
    let start = u64::from(u32::from_be_bytes([head[0], head[1], head[2], head[3]]));
    let start = match edit {
        1 | 2 => start + 1,
        3 | 4 => start - 1,
        _ => start,
    };
    let mut numbers: Vec<u64> = packet::ids(part).into_iter().map(u64::from).collect();
    let place = draw as usize % numbers.len().max(1);
    match edit {
        8 | 9 => numbers.insert(0, id),
        11 => numbers.push(message),
        _ if numbers.is_empty() => {}
        5 | 6 => numbers[place] = id,
        7 => numbers.insert(place, numbers[place]),
        10 => drop(numbers.remove(place)),
        _ => {}
    }
    let count = bytes(numbers.len() as u64, 1);
    let part: Vec<u8> = numbers
        .iter()
        .flat_map(|number| bytes(*number, 2))
        .collect();
    *packet = [&bytes(start, 4), &head[4..5], &count, &part].concat();
}

/// The edits of a plan's bytes, rows 12 and 13.
fn edit_bytes(mut plan: Vec<u8>, edit: u64, draws: &Draws) -> Vec<u8> {
    let cut = match draws.e % 4 {
        0..=1 => 1,
        _ => 1 + draws.e / 4 % 16,
    };
    match edit {
        12 => plan.truncate(plan.len().saturating_sub(cut as usize)),
        13 => {
            let place = draws.d as usize % plan.len();
            plan[place] ^= 1 << (draws.e % 8);
        }
        _ => {}
    }
    plan
}

fn slots(draw: u64, mood: u64) -> u64 {
    match (draw % 16, mood) {
        (2.., 2) => 64,
        (2.., 3) => 2,
        (row, _) => SLOTS[row as usize],
    }
}

fn gap(draw: u64, mood: u64) -> u64 {
    match (draw % 16, mood) {
        (2.., 3) => 255,
        (row, _) => GAPS[row as usize],
    }
}

fn time(draw: u64) -> u64 {
    match draw % 16 {
        0 => 1_000_000_001,
        1 => LARGEST,
        2 => 1_000_000_000,
        3..=5 => 1_000_000_000 - draw / 16 % 512,
        _ => draw / 16 % 100_000,
    }
}

fn number(draw: u64) -> u64 {
    match draw % 32 {
        row @ 0..=7 => NUMBERS[row as usize],
        8..=15 => 40_000,
        _ => 32_768 + draw / 32 % 32_768,
    }
}
