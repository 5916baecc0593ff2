// Random calls on random planners, with messages on and off, and on planners with a damage: `limit` must answer as the proved call does and leave the
// same bytes.
// Many streams are due together, released in another order than their ids, since their order shows nothing where all due times differ.
use super::limit::Limit;
use super::proved::{hold, open_at, streams, Planner};
use super::loads::Random;
use super::{Host, Offer};
use planner::raw::BYTES;
use planner::Setting;

const PLANNERS: u32 = 2000;
const CALLS: u32 = 150;

// A place that holds an entry, or one that is free, from x on; x if there is none.
fn place_from(p: &Planner, x: usize, held: bool) -> usize {
    (x..x + 64).map(|y| y % 64).find(|y| (p.queue.ids[*y] != 0) == held).unwrap_or(x)
}

// The releases alone: of a held place, of two of them, of a free place, of two entries that follow each other in a list.
fn damage_releases(p: &mut Planner, random: &mut Random) {
    let (x, y) = (random.below(64) as usize, random.below(64) as usize);
    let (held, other, free) = (place_from(p, x, true), place_from(p, y, true), place_from(p, x, false));
    match random.below(5) {
        0 => p.queue.releases[held] = p.queue.releases[held].wrapping_add(1),
        1 => p.queue.releases[held] = p.queue.releases[held].wrapping_sub(1),
        2 => p.queue.releases.swap(held, other),
        3 => p.queue.releases[free] = random.below(1 << 31),
        _ => p.queue.releases.swap(held, p.queue.next[held] as usize % 64),
    }
}

// Links between nodes below 544, whatever stood there.
fn link(p: &mut Planner, nodes: &[usize]) {
    for pair in nodes.windows(2) {
        let (x, n) = (pair[0] % 544, pair[1] % 544);
        (p.queue.next[x], p.queue.prev[n]) = (n as u16, x as u16);
    }
}

// The order of a list alone, all links matched: two entries exchanged; a free place linked in; the rests of two lists exchanged.
fn damage_lists(p: &mut Planner, random: &mut Random) {
    let (x, y) = (place_from(p, random.below(64) as usize, true), place_from(p, random.below(64) as usize, true));
    let (before, after, after_y) = (p.queue.prev[x] as usize, p.queue.next[x] as usize, p.queue.next[y] as usize);
    match random.below(3) {
        0 => {
            let after_both = p.queue.next[after % 544] as usize;
            link(p, &[before, after, x, after_both]);
        }
        1 => {
            let free = place_from(p, x, false);
            (p.queue.keys[free], p.queue.releases[free]) = (p.queue.keys[x], p.queue.releases[x]);
            link(p, &[x, free, after]);
        }
        _ => {
            link(p, &[x, after_y]);
            link(p, &[y, after]);
        }
    }
}

// The flag, the count of waiting messages or one of them, each at its edges; and B where it may be too small for the flag.
fn damage_messages(p: &mut Planner, random: &mut Random) {
    let any = random.below(1 << 31) * 2 + random.below(2);
    let waiting = random.below(p.waiting.count.clamp(1, 32)) as usize;
    let count = p.waiting.count;
    match random.below(8) {
        0 => p.messages = [0, 1, 2, any][random.below(4) as usize],
        1 => p.waiting.count = [0, 1, 31, 32, 33, 40, any][random.below(7) as usize],
        2 => p.waiting.count = [count.wrapping_sub(1), count + 1][random.below(2) as usize],
        3 => p.waiting.numbers[waiting] = [0, 32_767, 32_768, 65_535, any as u16][random.below(5) as usize],
        4 => p.waiting.numbers[random.below(32) as usize] = any as u16,
        5 => (p.waiting.count, p.waiting.numbers) = (33, [40_000; 32]),
        6 => (p.messages, p.waiting.count) = (0, 1),
        _ => (p.messages, p.slots) = (1, 1 + random.below(2)),
    }
}

fn flip_a_bit(p: &mut Planner, random: &mut Random) {
    let mut bytes = *p.as_bytes();
    let byte = random.below(BYTES as u32) as usize;
    bytes[byte] ^= 1 << random.below(8);
    *p = Planner::from_bytes(&bytes);
}

fn damage(p: &mut Planner, random: &mut Random) {
    let any = |random: &mut Random| random.below(1 << 31) * 2 + random.below(2);
    let (x, y, node) = (random.below(64) as usize, random.below(64) as usize, random.below(544) as usize);
    let used = random.below(p.table.count.clamp(1, 64) as u32) as usize;
    match random.below(34) {
        0 => p.queue.next[node] = random.below(544) as u16,
        1 => p.queue.prev[node] = random.below(544) as u16,
        2 => p.queue.next[x] = random.below(700) as u16,
        3 => p.queue.prev[x] = p.queue.prev[y],
        4 => p.queue.keys[x] = p.queue.keys[x].wrapping_add(1),
        5 => p.queue.keys[x] = p.queue.keys[x].wrapping_add(480),
        6 => p.queue.ids[x] = p.queue.ids[y],
        7 => p.queue.ids[x] = random.below(1 << 16) as u16,
        8 => p.queue.ids.swap(x, y),
        9 => p.table.count = 65,
        10 => p.table.count = any(random) as usize,
        11 => p.table.count = p.table.count.wrapping_sub(1),
        12 => p.table.streams.swap(x, y),
        13 => p.table.streams[used].id = any(random),
        14 => p.table.streams[used].period = [0, 7, 241, any(random)][random.below(4) as usize],
        15 => p.table.streams[used].deadline = [0, 1, 241, any(random)][random.below(4) as usize],
        16 => {
            let releases = [p.last.wrapping_add(240), p.last.wrapping_add(241), 0, u32::MAX, any(random)];
            p.table.streams[used].release = releases[random.below(5) as usize];
        }
        17 => p.slots = [0, 1, 64, 65, any(random)][random.below(5) as usize],
        18 => p.frame = [0, 1, 5040, 5041, any(random)][random.below(5) as usize],
        19 => p.gap = [0, 255, 256, any(random)][random.below(4) as usize],
        20 => p.last = [0, p.last.wrapping_sub(1), p.last.wrapping_add(1), 1_000_000_000, 1_000_000_001, any(random)][random.below(6) as usize],
        21 => (p.queue.next[x], p.queue.prev[x]) = (x as u16, x as u16),
        22 | 23 => damage_lists(p, random),
        24..=27 => damage_releases(p, random),
        28..=32 => damage_messages(p, random),
        _ => flip_a_bit(p, random),
    }
}

// An offer that is due with a stream held, or half a period from now, at any start before that.
fn due_with_others(p: &Planner, id: u32, period: u32, random: &mut Random) -> Offer {
    let now = p.last.wrapping_add(1);
    let s = p.table.streams[random.below(64) as usize];
    let due = if s.id == 0 { now.wrapping_add(period / 2) } else { s.release.wrapping_add(s.deadline) };
    let deadline = 1 + random.below(period.min(due.wrapping_sub(now)).max(1));
    Offer { id, start: due.wrapping_sub(deadline), period, deadline }
}

// An offer that may be refused for any reason but 8.
fn offered(p: &Planner, held_id: u32, random: &mut Random) -> Offer {
    let most = if random.below(20) == 0 { 40_000 } else { 300 };
    let id = if random.below(9) == 0 { held_id } else { random.below(most) };
    let frames = [5040, 2520, 240, 12, 1];
    let frame = if p.frame == 0 || p.frame > 5040 { frames[random.below(5) as usize] } else { p.frame };
    let divisors: Vec<u32> = (1..=240).filter(|d| frame % d == 0).collect();
    let longest = divisors[divisors.len() - 1];
    let period = if random.below(30) == 0 { random.below(300) } else { divisors[random.below(divisors.len() as u32) as usize] };
    let deadline = if random.below(2) == 0 { period } else { random.below(period + 2) };
    // some are due at once and then seldom, which the demand rule allows and the start rule may not
    match random.below(6) {
        0 | 1 => Offer { id, start: p.last.wrapping_add(1), period: longest, deadline: 1 + random.below(2) },
        2 | 3 => due_with_others(p, id, longest, random),
        _ => Offer { id, start: p.last.wrapping_add(random.below(245)), period, deadline },
    }
}

fn add_both(p: &mut Planner, limit: &mut Limit, offer: Offer) -> u32 {
    let answer = p.add(offer);
    assert_eq!(answer, limit.add(offer), "add");
    assert!(p.as_bytes() == limit.0.as_bytes(), "bytes after an add");
    answer
}

fn remove_both(p: &mut Planner, limit: &mut Limit, id: u32) -> u32 {
    let answer = p.remove(id);
    assert_eq!(answer, limit.remove(id), "remove");
    assert!(p.as_bytes() == limit.0.as_bytes(), "bytes after a remove");
    answer
}

// A message, or now and then a number that is none.
fn number_drawn(random: &mut Random) -> u32 {
    match random.below(12) {
        0 => [0, 1, 32_767, 65_536, 98_304, u32::MAX][random.below(6) as usize],
        1 => random.below(1 << 31) * 2,
        2 => [32_768, 65_535][random.below(2) as usize],
        _ => 32_768 + random.below(32_768),
    }
}

fn send_both(p: &mut Planner, limit: &mut Limit, random: &mut Random) -> u32 {
    let number = number_drawn(random);
    let answer = p.send(number);
    assert_eq!(answer, limit.send(number), "send");
    assert!(p.as_bytes() == limit.0.as_bytes(), "bytes after a send");
    answer
}

// The answer, and 1 where ids alone would have put the slots in another order.
fn round_both(p: &mut Planner, limit: &mut Limit, length: usize) -> (u32, u32) {
    let (mut one, mut other) = ([7u16; 64], [7u16; 64]);
    let before = *p;
    let held = hold(p, &mut one[..length]);
    assert_eq!(held, limit.hold(&mut other[..length]), "round");
    assert_eq!(one, other, "ids");
    assert!(p.as_bytes() == limit.0.as_bytes(), "bytes after a round");
    if held.answer != 0 {
        return (held.answer, 0);
    }
    let streams = streams(&before);
    let mut by_id: Vec<(u32, u16)> = streams.iter().filter(|s| s[3] <= held.start).map(|s| (s[3] + s[2], s[0] as u16)).collect();
    by_id.sort_unstable();
    let ids = one[..held.n as usize].iter().filter(|id| **id < 32_768);
    (0, u32::from(by_id.iter().zip(ids).any(|(there, id)| there.1 != *id)))
}

// Makes both the same call.
fn both(p: &mut Planner, limit: &mut Limit, random: &mut Random) -> (u32, u32) {
    let held_id = p.table.streams[random.below(p.table.count.clamp(1, 64) as u32) as usize % 64].id;
    match random.below(8) {
        0 | 1 => (add_both(p, limit, offered(p, held_id, random)), 0),
        2 | 3 => (send_both(p, limit, random), 0),
        4 if random.below(3) == 0 => {
            let id = if random.below(3) == 0 { random.below(300) } else { held_id };
            (remove_both(p, limit, id), 0)
        }
        _ => {
            let length = if random.below(10) == 0 { random.below(64) as usize } else { 64 };
            round_both(p, limit, length)
        }
    }
}

// How often each answer was given, and how many rounds ids alone would have put in another order.
#[derive(Default)]
struct Seen {
    answers: [u32; 31],
    ties: u32,
}

impl Seen {
    fn note(&mut self, (answer, ties): (u32, u32)) {
        self.answers[answer as usize] += 1;
        self.ties += ties;
    }

    fn print(&self, name: &str) {
        let given: Vec<String> = self.answers.iter().enumerate().filter(|a| *a.1 > 0).map(|(a, n)| format!("{a}: {n}")).collect();
        println!("{name:<10} {}; {} rounds that ids alone would order otherwise", given.join(", "), self.ties);
    }
}

// Streams of one period and deadline at any start, or all due with others; most are taken in.
fn fill(p: &mut Planner, limit: &mut Limit, together: bool, random: &mut Random, seen: &mut Seen) {
    let period = p.frame.min(240);
    for _ in 0..80 {
        let id = 1 + random.below(32767);
        let offer = match together {
            true => due_with_others(p, id, period, random),
            false => Offer { id, start: p.last + 1 + random.below(240), period, deadline: period },
        };
        seen.note((add_both(p, limit, offer), 0));
    }
}

pub fn check() {
    let mut random = Random(5);
    let (mut undamaged, mut damaged) = (Seen::default(), Seen::default());
    for k in 0..PLANNERS {
        let frame = [5040, 2520, 240, 12, 1][random.below(5) as usize];
        let last = if k % 20 == 0 { 999_999_000 + random.below(1001) } else { random.below(100_000) };
        let slots = 1 + random.below(if k % 2 == 0 { 4 } else { 64 });
        let messages = slots > 1 && k % 3 != 0;
        let mut p = open_at(Setting { slots, frame, gap: 1 + random.below(255), last, messages });
        let mut limit = Limit(p);
        let filled = k % 2 == 1;
        if filled {
            fill(&mut p, &mut limit, k % 4 == 1, &mut random, &mut undamaged);
        }
        for _ in 0..if filled { CALLS - 80 } else { CALLS } {
            undamaged.note(both(&mut p, &mut limit, &mut random));
            // as many as can wait, and more
            for _ in 0..if messages && random.below(20) == 0 { 34 } else { 0 } {
                undamaged.note((send_both(&mut p, &mut limit, &mut random), 0));
            }
            for _ in 0..4 {
                let mut q = p;
                damage(&mut q, &mut random);
                let mut limit = Limit(q);
                damaged.note(both(&mut q, &mut limit, &mut random));
            }
        }
    }
    println!("limit answers as the proved calls and leaves the same bytes");
    undamaged.print("undamaged");
    damaged.print("damaged");
}
