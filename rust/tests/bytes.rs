//! A planner as bytes: handed to another host (Annex 7.38), and damaged (Annex 13.7).

use planner::{raw, Planner, Refusal, Setting, Stream};

// The planner of Annex C.1 with messages on, of which three are sent, after its first round: a slot
// more, which is for messages.
fn kept() -> Planner {
    let setting = Setting { slots: 3, frame: 6, gap: 6, last: 0, messages: true };
    let mut planner = Planner::open(setting).unwrap();
    planner.add(Stream { id: 1, release: 1, period: 3, deadline: 2 }).unwrap();
    planner.add(Stream { id: 2, release: 1, period: 6, deadline: 6 }).unwrap();
    planner.add(Stream { id: 3, release: 2, period: 6, deadline: 5 }).unwrap();
    for message in [40_000, 40_000, 50_000] {
        planner.send(message).unwrap();
    }
    assert_eq!(planner.round(&mut [0; 3]).unwrap().ids, [1, 2, 40_000]);
    planner
}

// Annex 7.38: 3,936 bytes, numbers in the machine's own order; the records as 5.6 leaves them.
#[test]
fn the_layout() {
    assert_eq!(Planner::BYTES, 3_936);
    let planner = kept();
    let bytes = planner.as_bytes();
    let word = |at: usize| u32::from_ne_bytes(bytes[at..at + 4].try_into().unwrap());
    assert_eq!([0, 4, 8, 12, 16].map(word), [3, 6, 6, 1, 2]);
    assert_eq!(word(20), 2);
    let message = |k: usize| u16::from_ne_bytes(bytes[24 + 2 * k..][..2].try_into().unwrap());
    assert_eq!([0, 1].map(message), [40_000, 50_000]);
    assert_eq!(usize::from_ne_bytes(bytes[88..96].try_into().unwrap()), 3);
    let record = |k: usize| [0, 4, 8, 12].map(|field| word(96 + 16 * k + field));
    assert_eq!([0, 1, 2].map(record), [[1, 3, 2, 4], [2, 6, 6, 7], [3, 6, 5, 2]]);
    let raw = planner.as_raw();
    assert_eq!((raw.table.count, raw.table.streams[2].release), (3, 2));
    assert_eq!((raw.messages, raw.waiting.count, raw.waiting.numbers[1]), (1, 2, 50_000));
    // Annex 3.11: an entry for each, under its due time and release
    for stream in planner.streams() {
        let place = raw.queue.ids.iter().position(|id| u32::from(*id) == stream.id).unwrap();
        assert_eq!(raw.queue.keys[place], stream.release + stream.deadline);
        assert_eq!(raw.queue.releases[place], stream.release);
    }
}

// The host that takes over answers as the first one would have, and leaves the same.
#[test]
fn another_host_takes_over() {
    let mut one = kept();
    let handed: Vec<u8> = one.as_bytes().to_vec();
    let bytes: &[u8; Planner::BYTES] = handed.as_slice().try_into().unwrap();
    let mut other = Planner::from_bytes(bytes).unwrap();
    assert!(other.as_bytes() == one.as_bytes());
    for (start, ids) in [(5, &[1, 3, 40_000][..]), (8, &[1, 2, 50_000]), (11, &[1, 3])] {
        for planner in [&mut one, &mut other] {
            let mut buffer = [0; 3];
            let round = planner.round(&mut buffer).unwrap();
            assert_eq!((round.start, round.ids), (start, ids));
        }
    }
    assert!(other.as_bytes() == one.as_bytes());
}

// Every call refuses it with 5, before anything else, and leaves it and the buffer as they were.
fn is_refused_with_5(raw: raw::Planner) {
    let mut planner = Planner::from_raw(raw).unwrap();
    let mut buffer = [7; 64];
    assert_eq!(planner.round(&mut buffer), Err(Refusal::NotSound));
    assert_eq!(planner.round(&mut []), Err(Refusal::NotSound));
    assert_eq!(
        planner.add(Stream { id: 0, release: 0, period: 0, deadline: 0 }),
        Err(Refusal::NotSound)
    );
    assert_eq!(planner.remove(0), Err(Refusal::NotSound));
    for number in [0, 40_000] {
        assert_eq!(planner.send(number), Err(Refusal::NotSound));
    }
    assert_eq!(buffer, [7; 64]);
    assert!(*planner.as_raw() == raw);
    // nothing of it panics
    assert!(planner.streams().len() <= 64 && planner.waiting().len() <= 32);
    let _ = (planner.now(), format!("{planner:?}"));
}

#[test]
fn a_damaged_planner_is_refused() {
    let sound = *kept().as_raw();
    let damages: [fn(&mut raw::Planner); 23] = [
        |p| p.slots = 0,
        |p| p.slots = 65,
        |p| p.slots = 1,
        |p| p.messages = 2,
        |p| p.messages = u32::MAX,
        |p| p.messages = 0,
        |p| p.frame = 5_041,
        |p| p.frame = 4,
        |p| p.gap = 256,
        |p| p.last = u32::MAX,
        |p| p.waiting = raw::Waiting { count: 33, numbers: [40_000; 32] },
        |p| p.waiting = raw::Waiting { count: 40, numbers: [40_000; 32] },
        |p| p.waiting.count = u32::MAX,
        |p| p.waiting.numbers[0] = 32_767,
        |p| p.waiting = raw::Waiting { count: 3, numbers: [0; 32] },
        |p| p.table.count = 65,
        |p| p.table.count = usize::MAX,
        |p| p.table.count = 2,
        |p| p.table.streams[0].id = 2,
        |p| p.table.streams[1].deadline = 7,
        |p| p.queue.keys[0] += 1,
        |p| p.queue.releases[0] += 1,
        |p| p.queue.next[64] = u16::MAX,
    ];
    for damage in damages {
        let mut raw = sound;
        damage(&mut raw);
        is_refused_with_5(raw);
    }
    assert_eq!(Refusal::NotSound.number(), 5);
    let mut whole = Planner::from_raw(sound).unwrap();
    assert_eq!(whole.round(&mut [0; 3]).unwrap().start, 5);
}

// Annex 3.17: alone, with no stream: a slot too few for messages, and one that waits with them off.
#[test]
fn messages_damaged_with_no_stream() {
    let setting = Setting { slots: 2, frame: 6, gap: 6, last: 0, messages: true };
    let mut raw = *Planner::open(setting).unwrap().as_raw();
    raw.slots = 1;
    is_refused_with_5(raw);
    let mut raw = *Planner::open(Setting { messages: false, ..setting }).unwrap().as_raw();
    raw.waiting.count = 1;
    raw.waiting.numbers[0] = 40_000;
    is_refused_with_5(raw);
    // in a place that is free it is nobody's
    raw.waiting.count = 0;
    Planner::from_raw(raw).unwrap().round(&mut [0; 2]).unwrap();
}

// Any bytes are allowed: all of one value, and a planner's moved on by one.
#[test]
fn bytes_of_no_planner_are_refused() {
    for byte in 0..=255 {
        is_refused_with_5(raw::Planner::from_bytes(&[byte; Planner::BYTES]));
    }
    let mut moved = *kept().as_bytes();
    moved.rotate_right(1);
    is_refused_with_5(raw::Planner::from_bytes(&moved));
}

// Annex 13.7: one that was damaged and is still sound is used as it stands.
#[test]
fn a_damage_that_leaves_it_sound_is_not_found() {
    let mut raw = *kept().as_raw();
    raw.table.streams[63].id = 99;
    raw.waiting.numbers[31] = 99;
    raw.waiting.numbers[0] = 60_000;
    raw.gap = 1;
    let mut planner = Planner::from_raw(raw).unwrap();
    // the cap is 2 + 1 + 1; of the streams 1 and 3 are released by then
    let mut buffer = [0; 3];
    let round = planner.round(&mut buffer).unwrap();
    assert_eq!((round.start, round.ids), (4, &[1, 3, 60_000][..]));
}
