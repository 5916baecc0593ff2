//! Each limit of the crate is the annex's, and the library's: what it answers to that number, and
//! to one more.

use planner::*;

// What stands in a setting or a stream beside the limit that is asked for; now is 1.
const LEAST: Setting = Setting { slots: 1, frame: 1, gap: 1, last: 0, messages: false };
const NEW: Stream = Stream { id: 1, release: 1, period: 1, deadline: 1 };

fn number<T>(answer: Result<T, Refusal>) -> u32 {
    answer.map_or_else(Refusal::number, |_| 0)
}

// The limit is the annex's number; with it a call succeeds, and with one more it is refused.
fn asked(limit: u32, annex: u32, refusal: u32, call: impl Fn(u32) -> u32) {
    assert_eq!((limit, call(limit), call(limit + 1)), (annex, 0, refusal));
}

fn offered(frame: u32, stream: Stream) -> u32 {
    number(Planner::open(Setting { frame, ..LEAST }).unwrap().add(stream))
}

// The last of so many streams, added one after the other.
fn last_of(streams: u32) -> u32 {
    let mut planner = Planner::open(Setting { slots: 64, ..LEAST }).unwrap();
    (1..=streams).map(|id| number(planner.add(Stream { id, ..NEW }))).last().unwrap()
}

// Annex 3.6, 1.3 and 7.6.
#[test]
fn limits_of_a_setting() {
    let opened = |setting| number(Planner::open(setting));
    asked(MOST_SLOTS as u32, 64, 1, |slots| opened(Setting { slots, ..LEAST }));
    asked(LONGEST_FRAME, 5_040, 2, |frame| opened(Setting { frame, ..LEAST }));
    asked(LONGEST_GAP, 255, 3, |gap| opened(Setting { gap, ..LEAST }));
    asked(LAST_START, 1_000_000_000, 4, |last| opened(Setting { last, ..LEAST }));
}

// Annex 3.6 to 3.8, 7.12, 7.14, 7.15 and 7.17.
#[test]
fn limits_of_a_stream() {
    asked(LARGEST_ID, 32_767, 6, |id| offered(1, Stream { id, ..NEW }));
    asked(PLACES as u32, 64, 8, last_of);
    asked(LONGEST_PERIOD, 240, 9, |period| offered(period, Stream { period, ..NEW }));
    asked(FURTHEST_RELEASE, 239, 11, |after| offered(1, Stream { release: 1 + after, ..NEW }));
}

// Annex 3.14, 3.15, 7.43 and 7.44.
#[test]
fn limits_of_messages() {
    let last_sent = |message, sends| {
        let mut planner = Planner::open(Setting { slots: 2, messages: true, ..LEAST }).unwrap();
        (0..sends).map(|_| number(planner.send(message))).last().unwrap()
    };
    assert_eq!((LEAST_MESSAGE, LARGEST_ID), (32_768, 32_767));
    assert_eq!((last_sent(LEAST_MESSAGE - 1, 1), last_sent(LEAST_MESSAGE, 1)), (29, 0));
    asked(LARGEST_MESSAGE, 65_535, 29, |message| last_sent(message, 1));
    asked(MOST_WAITING as u32, 32, 30, |sends| last_sent(LEAST_MESSAGE, sends));
}

// Annex 1.3, 7.27: a round at the last start is held, and none later; the gap is 1, so that with no
// stream the start is last + 2.
#[test]
fn the_last_start() {
    asked(LAST_START, 1_000_000_000, 17, |start| {
        let mut planner = Planner::open(Setting { last: start - 2, ..LEAST }).unwrap();
        number(planner.round(&mut [0]))
    });
}

// A buffer of the most slots is enough for every planner, and one that is shorter is not.
#[test]
fn the_longest_buffer() {
    let mut planner = Planner::open(Setting { slots: MOST_SLOTS as u32, ..LEAST }).unwrap();
    assert_eq!(number(planner.round(&mut [0; MOST_SLOTS - 1])), 16);
    assert_eq!(number(planner.round(&mut [0; MOST_SLOTS])), 0);
}

// Annex 10.3: the limits of a packet are those of a planner; 10.2: its most bytes.
#[test]
fn limits_of_a_packet() {
    let written = |start, slots, ids: &[u16], room| {
        let mut buffer = [0; packet::MOST_BYTES];
        number(packet::write(start, slots, ids, &mut buffer[..room]))
    };
    asked(LAST_START, 1_000_000_000, 27, |start| written(start, 1, &[], 6));
    asked(MOST_SLOTS as u32, 64, 27, |slots| written(0, slots, &[], 6));
    // one more is a message, which stands in front of no stream
    asked(LARGEST_ID, 32_767, 27, |id| written(0, 2, &[id as u16, 1], 10));
    let ids: Vec<u16> = (1..=64).collect();
    let answers = [133, packet::MOST_BYTES].map(|room| written(0, 64, &ids, room));
    assert_eq!((packet::MOST_BYTES, answers), (134, [28, 0]));
}

// Annex 9.2, 9.3: the largest value, and the least number above it that has periods, 5,044.
#[test]
fn limits_of_a_superframe() {
    asked(LONGEST_PERIOD, 240, 18, |period| number(superframe(&[period as u8])));
    assert_eq!((superframe(&[240, 7, 9]), LONGEST_FRAME), (Ok(LONGEST_FRAME), 5_040));
    assert_eq!(superframe(&[52, 97]), Err(Refusal::LongFrame));
}
