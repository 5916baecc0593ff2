// How a round's cost grows: one of streams, slots, busy length and superframe is varied at a time, the number of
// streams both at light and at full load.
use super::limit::Limit;
use super::proved::open;
use super::loads::{busy_length, of_busy_length, Random, GAP, ROUNDS};
use super::tables::Hosts;
use super::{Host, Offer};

pub struct Point {
    varied: &'static str,
    streams: usize,
    slots: u32,
    busy: u32,
    frame: u32,
    pub hosts: Hosts,
}

impl Point {
    // What is varied, and how much there is of each.
    pub fn said(&self) -> String {
        format!("{:<8} {:>7} {:>5} {:>5} {:>5}", self.varied, self.streams, self.slots, self.busy, self.frame)
    }
}

// Every stream at a start that is accepted, with its period for deadline; then a long run of rounds. These are of
// `limit`, which leaves the same bytes and takes less time under an instruction counter.
fn point(varied: &'static str, slots: u32, frame: u32, periods: &[u32]) -> Point {
    let mut random = Random(7);
    let mut p = open(slots, frame, GAP);
    for (i, period) in periods.iter().enumerate() {
        let offer = |start| Offer { id: i as u32 + 1, start, period: *period, deadline: *period };
        let accepted = (0..10_000).any(|_| p.add(offer(1 + random.below(240))) == 0);
        assert!(accepted, "no start is accepted: {varied} {i}");
    }
    let mut going = Limit(p);
    for _ in 0..ROUNDS {
        going.round();
    }
    let busy = busy_length(slots, periods).expect("a busy length");
    Point { varied, streams: periods.len(), slots, busy, frame, hosts: Hosts::of(going.0) }
}

// The sums take the streams in steps of 16, then of 4, then one by one: numbers that leave some over, and that do not.
const STREAMS: [usize; 18] = [1, 7, 8, 9, 15, 16, 17, 31, 32, 33, 47, 48, 55, 56, 57, 62, 63, 64];

// Slots and periods of n streams with a busy length of 5,040, which fewer than seven never have. Seven and eight are
// written out, since such periods are seldom drawn.
fn full(n: usize) -> (u32, Vec<u32>) {
    match n {
        1 => (1, vec![1]),
        7 => (1, vec![2, 3, 7, 126, 144, 210, 240]),
        8 => (1, vec![2, 3, 9, 56, 60, 112, 126, 240]),
        _ => of_busy_length(n, 5040, 5040),
    }
}

pub fn points() -> Vec<Point> {
    let mut all = vec![];
    for n in STREAMS {
        all.push(point("streams", 64, 5040, &vec![240; n]));
    }
    for n in STREAMS {
        let (slots, periods) = full(n);
        all.push(point("full", slots, 5040, &periods));
    }
    for slots in [4, 8, 16, 32, 64] {
        all.push(point("slots", slots, 5040, &[240; 64]));
    }
    for (low, high) in [(2, 8), (30, 60), (200, 300), (1000, 1300), (4800, 5040)] {
        let (slots, periods) = of_busy_length(64, low, high);
        all.push(point("busy", slots, 5040, &periods));
    }
    let mixed: Vec<u32> = (0..64).map(|i| [60, 120, 240][i % 3]).collect();
    for frame in [240, 1200, 5040] {
        all.push(point("frame", 8, frame, &mixed));
    }
    all
}
