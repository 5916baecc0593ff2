// What writing and reading a packet of the proved library costs, beside two others that test and do the same in Rust:
//   plain    ids met are put into a set of 32,768 bits
//   simple   each id is looked for among those before it
// The proved one has a set of 1,024 bits for the remainders of the ids, and looks for an id among those before it only where its remainder was met.
// So there are packets of ids drawn by chance, and one of 64 ids that have two remainders only, its worst; and packets of 32 ids and 32 messages.
// All run the same packets, in turn in one process, and must agree on each first. A time is of one call, the lower quartile of many short runs.
// With `CALL IDS HOST CALLS` it makes so many calls alone, for counting instructions.
use planner::raw::Header;
use std::hint::black_box;
use std::time::Instant;

const RUNS: usize = 4000;
const PACKETS: usize = 16;
const SLOTS: u32 = 64;
const START: u32 = 123_456_789;

const fn refused(answer: u32) -> Header {
    Header { answer, start: 0, slots: 0, n: 0 }
}

// The library's own calls.
mod proved {
    use planner::raw::{packet_read, packet_write, Header};

    pub fn write(start: u32, slots: u32, ids: &[u16], packet: &mut [u8]) -> u32 {
        // SAFETY: two slices of these lengths, the second borrowed for this call alone.
        unsafe { packet_write(start, slots, ids.as_ptr(), ids.len(), packet.as_mut_ptr(), packet.len()) }
    }

    pub fn read(packet: &[u8]) -> Header {
        // SAFETY: a slice of that length.
        unsafe { packet_read(packet.as_ptr(), packet.len()) }
    }
}

// A writer and a reader over a test of the ids.
fn write_with(good: impl Fn(&[u16]) -> bool, start: u32, slots: u32, ids: &[u16], packet: &mut [u8]) -> u32 {
    if start > 1_000_000_000 || slots < 1 || slots > 64 || ids.len() > slots as usize || !good(ids) {
        return 27;
    }
    let need = 6 + 2 * ids.len();
    if packet.len() < need {
        return 28;
    }
    packet[..4].copy_from_slice(&start.to_be_bytes());
    packet[4] = slots as u8;
    packet[5] = ids.len() as u8;
    for (bytes, id) in packet[6..need].chunks_exact_mut(2).zip(ids) {
        bytes.copy_from_slice(&id.to_be_bytes());
    }
    0
}

fn read_with(good: impl Fn(&[u16]) -> bool, packet: &[u8]) -> Header {
    if packet.len() < 6 || packet.len() != 6 + 2 * usize::from(packet[5]) {
        return refused(26);
    }
    let start = u32::from_be_bytes([packet[0], packet[1], packet[2], packet[3]]);
    let (slots, n) = (u32::from(packet[4]), u32::from(packet[5]));
    if start > 1_000_000_000 || slots < 1 || slots > 64 || n > slots {
        return refused(27);
    }
    let mut ids = [0u16; 64];
    for (id, bytes) in ids.iter_mut().zip(packet[6..].chunks_exact(2)) {
        *id = u16::from_be_bytes([bytes[0], bytes[1]]);
    }
    if !good(&ids[..n as usize]) {
        return refused(27);
    }
    Header { answer: 0, start, slots, n }
}

// The ids of streams in front, if behind them are messages alone.
fn streams_in_front(ids: &[u16]) -> Option<&[u16]> {
    let (streams, messages) = ids.split_at(ids.iter().position(|id| *id > 32_767).unwrap_or(ids.len()));
    messages.iter().all(|id| *id > 32_767).then_some(streams)
}

fn good_by_set(ids: &[u16]) -> bool {
    let Some(streams) = streams_in_front(ids) else { return false };
    let mut met = [0u64; 512];
    for &id in streams {
        if id < 1 {
            return false;
        }
        let (word, bit) = (&mut met[usize::from(id / 64)], 1 << (id % 64));
        if *word & bit != 0 {
            return false;
        }
        *word |= bit;
    }
    true
}

fn good_by_search(ids: &[u16]) -> bool {
    streams_in_front(ids).is_some_and(|streams| streams.iter().enumerate().all(|(k, id)| *id > 0 && !streams[..k].contains(id)))
}

type Write = fn(u32, u32, &[u16], &mut [u8]) -> u32;
type Read = fn(&[u8]) -> Header;

const HOSTS: [(&str, Write, Read); 3] = [
    ("proved", proved::write, proved::read),
    ("plain", |s, b, ids, p| write_with(good_by_set, s, b, ids, p), |p| read_with(good_by_set, p)),
    ("simple", |s, b, ids, p| write_with(good_by_search, s, b, ids, p), |p| read_with(good_by_search, p)),
];

// Packets of so many ids drawn by chance, none twice, or of 64 that are alike: 1,024 apart, with two remainders; or of 32 ids drawn and 32 messages.
// And their bytes.
fn packets(ids: &str) -> (Vec<Vec<u16>>, Vec<Vec<u8>>) {
    if ids == "alike" {
        let ids: Vec<u16> = (0..64).map(|k| 1 + k % 2 + k / 2 * 1024).collect();
        let bytes = agreed(&ids);
        return (vec![ids; PACKETS], vec![bytes; PACKETS]);
    }
    let messages = if ids == "messages" { 32 } else { 0 };
    let n: usize = if ids == "messages" { 32 } else { ids.parse().expect("a count of ids, `alike` or `messages`") };
    let mut x = 1u64;
    let mut draw = || {
        x = x * 16_807 % 2_147_483_647;
        (x % 32_767 + 1) as u16
    };
    let lists: Vec<Vec<u16>> = (0..PACKETS)
        .map(|_| {
            let mut ids = Vec::new();
            while ids.len() < n {
                let id = draw();
                if !ids.contains(&id) {
                    ids.push(id);
                }
            }
            ids.extend((0..messages).map(|_| 32_768 + draw()));
            ids
        })
        .collect();
    let bytes = lists.iter().map(|ids| agreed(ids)).collect();
    (lists, bytes)
}

// The bytes that all write for these ids; each must read them alike, and refuse them alike with the last id put in the first place too.
fn agreed(ids: &[u16]) -> Vec<u8> {
    let all: Vec<Vec<u8>> = HOSTS
        .iter()
        .map(|(name, write, read)| {
            let mut packet = vec![0; 6 + 2 * ids.len()];
            assert_eq!(write(START, SLOTS, ids, &mut packet), 0, "{name}");
            assert_eq!(read(&packet), Header { answer: 0, start: START, slots: SLOTS, n: ids.len() as u32 }, "{name}");
            let mut twice = ids.to_vec();
            twice[0] = *ids.last().unwrap();
            assert_eq!(write(START, SLOTS, &twice, &mut packet.clone()), if ids.len() > 1 { 27 } else { 0 }, "{name}");
            packet
        })
        .collect();
    assert!(all.iter().all(|packet| *packet == all[0]));
    all[0].clone()
}

fn timed(call: impl Fn(usize)) -> f64 {
    let begun = Instant::now();
    for k in 0..PACKETS {
        call(k);
    }
    begun.elapsed().as_nanos() as f64 / PACKETS as f64
}

fn lower_quartile(mut times: Vec<f64>) -> f64 {
    times.sort_by(f64::total_cmp);
    times[times.len() / 4]
}

fn row(call: &str, ids: &str) {
    let (lists, bytes) = packets(ids);
    let mut times = [const { Vec::new() }; HOSTS.len()];
    for _ in 0..RUNS {
        for (times, (_, write, read)) in times.iter_mut().zip(HOSTS) {
            times.push(timed(|k| one_call(call, write, read, &lists[k], &bytes[k])));
        }
    }
    let [proved, plain, simple] = times.map(lower_quartile);
    println!(
        "{call:<6} {ids:>8} ids   proved {proved:>6.1} ns   plain {plain:>6.1}   simple {simple:>6.1}   proved/plain {:.2}   proved/simple {:.2}",
        proved / plain,
        proved / simple
    );
}

fn one_call(call: &str, write: Write, read: Read, ids: &[u16], bytes: &[u8]) {
    if call == "write" {
        let mut packet = [0u8; 134];
        black_box(write(START, SLOTS, black_box(ids), &mut packet));
        black_box(&packet);
    } else {
        black_box(read(black_box(bytes)));
    }
}

fn main() {
    let arguments: Vec<String> = std::env::args().skip(1).collect();
    if let [call, ids, host, calls] = arguments.as_slice() {
        let (lists, bytes) = packets(ids);
        let (_, write, read) = HOSTS.iter().find(|(name, _, _)| name == host).expect("a host of this benchmark");
        for k in 0..calls.parse().unwrap() {
            one_call(call, *write, *read, &lists[k % PACKETS], &bytes[k % PACKETS]);
        }
        return;
    }
    for call in ["write", "read"] {
        for ids in ["2", "8", "64", "alike", "messages"] {
            row(call, ids);
        }
    }
}
