// The tables that are measured, made with fixed seeds, after a long run of rounds: 8 and 64 streams at three loads, some of which need
// periods of 1; at light and medium load with no period below 8, so that a lazy round waits; and with long periods alone. Each with a gap
// limit of 200 and, under a name that ends in -g20, of 20. Two more, of 63 streams, have the dearest calls found.
use super::proved::{open, Planner};
use super::{Host, Offer};

pub const FRAME: u32 = 5040;
pub const GAP: u32 = 200;
const SHORT_GAP: u32 = 20;
pub const ROUNDS: u32 = 1000;

pub struct Random(pub u64);

impl Random {
    // 0 to limit - 1.
    pub fn below(&mut self, limit: u32) -> u32 {
        self.0 = self.0.wrapping_mul(6364136223846793005).wrapping_add(1442695040888963407);
        ((self.0 >> 33) % u64::from(limit)) as u32
    }
}

#[derive(Clone)]
pub struct Table {
    pub name: String,
    pub slots: u32,
    pub gap: u32,
    pub busy: u32,
    pub periods: Vec<u32>,
}

fn periods() -> Vec<u32> {
    (1..=240).filter(|p| FRAME % p == 0).collect()
}

// The least length by which all that is released in it, from a common start, can be sent; none above the superframe.
pub fn busy_length(slots: u32, periods: &[u32]) -> Option<u32> {
    let mut t = 1;
    while t <= FRAME {
        let needed = periods.iter().map(|p| t.div_ceil(*p)).sum::<u32>().div_ceil(slots);
        if needed <= t {
            return Some(t);
        }
        t = needed;
    }
    None
}

fn drawn(random: &mut Random, n: usize) -> Vec<u32> {
    let from: Vec<u32> = periods().into_iter().filter(|p| *p >= 8).collect();
    (0..n).map(|_| from[random.below(from.len() as u32) as usize]).collect()
}

fn fewest_slots(periods: &[u32]) -> u32 {
    periods.iter().map(|p| FRAME / p).sum::<u32>().div_ceil(FRAME)
}

// Periods and slots with a busy length from `low` to `high`: n - 2 periods are drawn, the last two tried in all ways from `least` on.
fn table(random: &mut Random, n: usize, load: &str, least: u32, low: u32, high: u32) -> Table {
    loop {
        let drawn = drawn(random, n - 2);
        for last in periods().into_iter().filter(|p| *p >= least) {
            for other in periods().into_iter().filter(|p| least <= *p && *p <= last) {
                let all: Vec<u32> = drawn.iter().copied().chain([other, last]).collect();
                for slots in fewest_slots(&all)..=fewest_slots(&all) + n as u32 {
                    match busy_length(slots, &all) {
                        Some(busy) if low <= busy && busy <= high && slots <= 64 => {
                            return Table { name: format!("{n}-{load}"), slots, gap: GAP, busy, periods: all };
                        }
                        _ => {}
                    }
                }
            }
        }
    }
}

// No period below 60: there is little to send, and little for Algorithm 1 to count.
fn long(random: &mut Random, n: usize) -> Table {
    let from: Vec<u32> = periods().into_iter().filter(|p| *p >= 60).collect();
    let periods: Vec<u32> = (0..n).map(|_| from[random.below(from.len() as u32) as usize]).collect();
    let slots = n as u32 / 8;
    let busy = busy_length(slots, &periods).expect("a busy length");
    Table { name: format!("{n}-long"), slots, gap: GAP, busy, periods }
}

// How many streams there are of each period. They fill one slot, and the busy length is 5,040; without the last stream
// it is 5,014, so that an add of that one tests both rules twice over nearly a superframe. Found by a search.
const FULL_TWICE: [(usize, u32); 19] = [
    (1, 7), (2, 20), (5, 35), (2, 36), (1, 45), (2, 56), (2, 60), (6, 63), (2, 70), (7, 80), (2, 84), (2, 90), (5, 105),
    (4, 112), (2, 126), (11, 144), (2, 168), (3, 210), (2, 240),
];

// The last seven fill one slot, and the busy length is 5,040; each of the others fills a slot of its own, and they are
// all due together.
const FULL_SLOTS: [(usize, u32); 8] = [(56, 1), (1, 2), (1, 3), (1, 7), (1, 126), (1, 144), (1, 210), (1, 240)];

// The sums take longest for 63 streams: three steps of 16, three of 4 and three of one, where 64 are four steps of 16.
fn of_63(load: &str, slots: u32, streams: &[(usize, u32)]) -> Table {
    let periods: Vec<u32> = streams.iter().flat_map(|(n, period)| vec![*period; *n]).collect();
    let busy = busy_length(slots, &periods).expect("a busy length");
    Table { name: format!("63-{load}"), slots, gap: GAP, busy, periods }
}

// Slots and periods of n streams with a busy length in that range.
pub fn of_busy_length(n: usize, low: u32, high: u32) -> (u32, Vec<u32>) {
    let t = table(&mut Random(n as u64), n, "", 1, low, high);
    (t.slots, t.periods)
}

// Each table has a seed of its own, so that one can be made without the others.
pub fn all(only: Option<&str>) -> Vec<Table> {
    let loads = [("light", 1, 2, 8), ("medium", 1, 20, 99), ("full", 1, 4500, FRAME), ("lazy-light", 8, 2, 8), ("lazy-medium", 8, 20, 99)];
    let mut tables = vec![];
    for n in [8, 64] {
        let wanted = |load: &str| only.is_none_or(|name| name.strip_suffix("-g20").unwrap_or(name) == format!("{n}-{load}"));
        for (load, least, low, high) in loads {
            // eight streams with no period below 8 have a busy length of 8 at most
            if wanted(load) && (n, load) != (8, "lazy-medium") {
                tables.push(table(&mut Random(n as u64), n, load, least, low, high));
            }
        }
        if wanted("long") {
            tables.push(long(&mut Random(n as u64), n));
        }
    }
    tables.push(of_63("full", 1, &FULL_TWICE));
    tables.push(of_63("slots", 57, &FULL_SLOTS));
    let short: Vec<Table> = tables.iter().map(|t| Table { name: format!("{}-g20", t.name), gap: SHORT_GAP, ..t.clone() }).collect();
    tables.extend(short);
    tables.retain(|t| only.is_none_or(|name| name == t.name));
    tables
}

impl Table {
    // Adds stream i at a start that is accepted, with a deadline below its period where there is room for that.
    pub fn add(&self, p: &mut Planner, random: &mut Random, i: usize, deadline: Option<u32>) {
        let period = self.periods[i];
        for tries in 0..10_000 {
            let shorter = if self.busy < 100 && tries < 200 { random.below(period / 2 + 1) } else { 0 };
            let start = p.last + 1 + random.below(240);
            let offer = Offer { id: i as u32 + 1, start, period, deadline: deadline.unwrap_or(period - shorter) };
            if p.add(offer) == 0 {
                return;
            }
        }
        panic!("no start is accepted: {} {i}", self.name);
    }

    // All streams, after a long run of rounds.
    pub fn filled(&self) -> Planner {
        let mut random = Random(11);
        let mut p = open(self.slots, FRAME, self.gap);
        for i in 0..self.periods.len() {
            self.add(&mut p, &mut random, i, None);
        }
        for _ in 0..ROUNDS {
            p.round();
        }
        p
    }
}
