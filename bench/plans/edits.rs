// Random plans with random edits, of random planners: all checks must give the same verdict.
// A plan is the planner's own rounds, or those of another supplier, who starts a round at any time up to the lazy start, and fills it with packets that
// are released, the earliest due first, most of the time.
use super::loads::Random;
use super::proved::{hold, open_at, Planner, Stream};
use super::{put_packet, verdict, Host, Offer, CHECKS};
use planner::Setting;

const FRAME: u32 = 5040;

fn one_of<T: Copy>(random: &mut Random, values: &[T]) -> T {
    values[random.below(values.len() as u32) as usize]
}

fn planner(random: &mut Random) -> Planner {
    let messages = random.below(3) == 0;
    let (slots, gap) = (1 + u32::from(messages) + random.below(6), 1 + random.below(30));
    let last = if random.below(20) == 0 { 999_999_950 } else { random.below(1000) };
    let mut p = open_at(Setting { slots, frame: FRAME, gap, last, messages });
    let ids = one_of(random, &[30, 32_767]);
    for _ in 0..random.below(24) {
        let period = one_of(random, &[1, 2, 3, 4, 5, 6, 8, 10, 12, 14, 20, 24, 60, 240]);
        let deadline = period - if random.below(2) == 0 { random.below(period) } else { 0 };
        p.add(Offer { id: 1 + random.below(ids), start: p.last + 1 + random.below(12), period, deadline });
    }
    p
}

#[derive(Clone)]
struct Round {
    start: u32,
    slots: u32,
    numbers: Vec<u16>,
}

fn own_rounds(mut p: Planner, random: &mut Random, rounds: u32) -> Vec<Round> {
    let mut buffer = [0u16; 64];
    let mut plan = vec![];
    for _ in 0..rounds {
        if random.below(2) == 0 {
            p.send(32_768 + random.below(32_768));
        }
        let held = hold(&mut p, &mut buffer);
        if held.answer != 0 {
            break;
        }
        plan.push(Round { start: held.start, slots: p.slots, numbers: buffer[..held.n as usize].to_vec() });
    }
    plan
}

// A round of another supplier, and what it leaves.
fn foreign_round(p: &mut Planner, random: &mut Random) -> Round {
    let streams = &mut p.table.streams[..p.table.count];
    let first = streams.iter().map(|s| s.release + s.deadline).min().unwrap_or(u32::MAX);
    let latest = (p.last + 1 + p.gap).min(first.saturating_sub(1)).max(p.last + 1);
    let start = latest - random.below(latest - p.last);
    let mut waiting: Vec<&mut Stream> = streams.iter_mut().filter(|s| s.release <= start).collect();
    waiting.sort_by_key(|s| s.release + s.deadline);
    if random.below(20) == 0 {
        waiting.reverse();
    }
    let mut numbers = vec![];
    for s in waiting.into_iter().take((p.slots - p.messages) as usize) {
        numbers.push(s.id as u16);
        s.release += s.period;
    }
    while numbers.len() < p.slots as usize && random.below(4) == 0 {
        numbers.push((32_768 + random.below(32_768)) as u16);
    }
    p.last = start;
    Round { start, slots: p.slots, numbers }
}

fn foreign_rounds(mut p: Planner, random: &mut Random, rounds: u32) -> Vec<Round> {
    (0..rounds).map(|_| foreign_round(&mut p, random)).collect()
}

fn edit_round(round: &mut Round, random: &mut Random) {
    let place = random.below(round.numbers.len().max(1) as u32) as usize;
    let number = one_of(random, &[0, 1, 2, 3, 17, 32_767, 32_768, 65_535]);
    match random.below(9) {
        0 => round.start = round.start.wrapping_add(1),
        1 => round.start = round.start.wrapping_sub(1),
        2 => round.start = one_of(random, &[0, 1, 1_000_000_000, 1_000_000_001, u32::MAX]),
        3 => round.slots = one_of(random, &[0, 1, round.slots + 1, round.slots - 1, 64, 65, 255]),
        4 if place < round.numbers.len() => round.numbers[place] = number,
        5 if place < round.numbers.len() => drop(round.numbers.remove(place)),
        6 if place < round.numbers.len() => round.numbers.insert(place, round.numbers[place]),
        7 if place < round.numbers.len() => round.numbers.swap(0, place),
        _ => round.numbers.insert(place.min(round.numbers.len()), number),
    }
}

fn edit_rounds(plan: &mut [Round], random: &mut Random) {
    let (x, y) = (random.below(plan.len() as u32) as usize, random.below(plan.len() as u32) as usize);
    match random.below(6) {
        0 => plan.swap(x, y),
        1 => plan[x] = plan[y].clone(),
        _ => edit_round(&mut plan[x], random),
    }
}

fn edit_bytes(bytes: &mut Vec<u8>, random: &mut Random) {
    let at = random.below(bytes.len() as u32) as usize;
    match random.below(5) {
        0 => bytes.truncate(at),
        1 => drop(bytes.remove(at)),
        2 => bytes.insert(at, random.below(256) as u8),
        3 => bytes[at] = random.below(256) as u8,
        _ => bytes[at] ^= 1 << random.below(8),
    }
}

fn plan(p: &Planner, random: &mut Random) -> Vec<u8> {
    let rounds = random.below(30);
    let mut plan = if random.below(2) == 0 { own_rounds(*p, random, rounds) } else { foreign_rounds(*p, random, rounds) };
    for _ in 0..random.below(3) {
        if !plan.is_empty() {
            edit_rounds(&mut plan, random);
        }
    }
    let mut bytes = vec![];
    for round in &plan {
        put_packet(&mut bytes, round.start, round.slots, &round.numbers);
    }
    if !bytes.is_empty() && random.below(5) == 0 {
        edit_bytes(&mut bytes, random);
    }
    bytes
}

// Whether the planner with a bit turned gets 5 and no round; just where a removal of no stream gets 5.
fn is_refused(p: &Planner, bytes: &[u8], random: &mut Random) -> bool {
    let mut damaged = *p.as_bytes();
    damaged[random.below(damaged.len() as u32) as usize] ^= 1 << random.below(8);
    let mut damaged = Planner::from_bytes(&damaged);
    let refused = damaged.remove(0) == 5;
    let verdict = verdict(&damaged, bytes);
    assert_eq!(verdict.answer, if refused { 5 } else { 0 });
    assert!(!refused || verdict.round == 0);
    refused
}

pub fn agree(plans: u32) {
    let mut random = Random(7);
    let (mut sound, mut first, mut later, mut refused) = (0, 0, 0, 0);
    for k in 0..plans {
        let p = planner(&mut random);
        let bytes = plan(&p, &mut random);
        let rounds = CHECKS.map(|(_, check)| check(&p, &bytes));
        assert!(rounds.iter().all(|round| *round == rounds[0]), "plan {k}: {rounds:?}, {p:?}, {bytes:?}");
        match rounds[0] {
            0 => sound += 1,
            1 => first += 1,
            _ => later += 1,
        }
        refused += u32::from(is_refused(&p, &bytes, &mut random));
    }
    println!("{plans} plans, and all checks agree: {sound} sound, {first} break a rule in round 1, {later} in a later one");
    println!("with a bit of the planner turned {refused} of them are refused, 5, as its other calls are");
}
