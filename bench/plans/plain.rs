// The check as it reads in the annex, a rule after the other: the packet is read and tested, then its start, its room, its slots, and what is left.
// A stream is found by a search among the ids, which rise. The planner is taken to be sound.
use super::proved::{Planner, Stream};

struct Round {
    start: u32,
    slots: u32,
    numbers: [u16; 64],
    n: usize,
    // how many of the numbers are ids of streams
    ids: usize,
}

// Annex 10.3: ids, none of them 0 and none twice, and behind them messages.
fn ids_in_front(numbers: &[u16]) -> Option<usize> {
    let ids = numbers.iter().position(|n| *n > 32_767).unwrap_or(numbers.len());
    let good = |k: usize| numbers[k] != 0 && !numbers[..k].contains(&numbers[k]);
    ((0..ids).all(good) && numbers[ids..].iter().all(|n| *n > 32_767)).then_some(ids)
}

// The packet in front, if it is whole and good.
fn read(rest: &[u8]) -> Option<Round> {
    let (header, more) = rest.split_first_chunk::<6>()?;
    let bytes = more.get(..2 * usize::from(header[5]))?;
    let start = u32::from_be_bytes([header[0], header[1], header[2], header[3]]);
    let (slots, n) = (u32::from(header[4]), bytes.len() / 2);
    if start > 1_000_000_000 || slots < 1 || slots > 64 || n > slots as usize {
        return None;
    }
    let mut numbers = [0; 64];
    for (number, pair) in numbers.iter_mut().zip(bytes.chunks_exact(2)) {
        *number = u16::from_be_bytes([pair[0], pair[1]]);
    }
    let ids = ids_in_front(&numbers[..n])?;
    Some(Round { start, slots, numbers, n, ids })
}

// Sends each id's packet, if it may ride.
fn sent(streams: &mut [Stream], ids: &[u16], start: u32) -> Option<()> {
    for id in ids {
        let row = streams.binary_search_by_key(&u32::from(*id), |s| s.id).ok()?;
        let s = &mut streams[row];
        if start < s.release || s.release + s.deadline < start + 1 {
            return None;
        }
        s.release += s.period;
    }
    Some(())
}

// The length of the packet in front and its start, if its round breaks no rule.
fn passed(p: &Planner, streams: &mut [Stream], last: u32, rest: &[u8]) -> Option<(usize, u32)> {
    let round = read(rest)?;
    let start = round.start;
    if round.slots != p.slots || start <= last || start > last + 1 + p.gap || round.ids > (p.slots - p.messages) as usize {
        return None;
    }
    sent(streams, &round.numbers[..round.ids], start)?;
    let left = streams.iter().any(|s| s.release + s.deadline <= start + 1);
    (!left).then_some((6 + 2 * round.n, start))
}

// The number of the first round that breaks a rule, 0 if none does.
pub fn check(p: &Planner, plan: &[u8]) -> u32 {
    let mut table = p.table;
    let streams = &mut table.streams[..p.table.count];
    let (mut last, mut round, mut at) = (p.last, 0, 0);
    while at < plan.len() {
        round += 1;
        let Some((length, start)) = passed(p, streams, last, &plan[at..]) else { return round };
        (last, at) = (start, at + length);
    }
    0
}
