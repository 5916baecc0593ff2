//! Every refusal of the planner's calls, one by one, with its number of the annex's table 1; each
//! leaves planner and buffer as they were, byte for byte (Annex 7.3, 7.31).

use planner::{Planner, Refusal, Setting, Stream};

const GOOD: Setting = Setting { slots: 2, frame: 12, gap: 9, last: 100, messages: false };
const NEW: Stream = Stream { id: 7, release: 101, period: 12, deadline: 12 };

// Annex 7.6: both ends of each range, and one beyond.
#[test]
fn open_refuses_1_to_4() {
    let opened = |setting| Planner::open(setting).map(|_| ()).map_err(Refusal::number);
    for slots in [0, 65, u32::MAX] {
        assert_eq!(opened(Setting { slots, ..GOOD }), Err(1));
    }
    for frame in [0, 5_041] {
        assert_eq!(opened(Setting { frame, ..GOOD }), Err(2));
    }
    for gap in [0, 256] {
        assert_eq!(opened(Setting { gap, ..GOOD }), Err(3));
    }
    assert_eq!(opened(Setting { last: 1_000_000_001, ..GOOD }), Err(4));
    for (slots, frame, gap, last) in [(1, 1, 1, 0), (64, 5_040, 255, 1_000_000_000)] {
        assert_eq!(opened(Setting { slots, frame, gap, last, messages: false }), Ok(()));
    }
    // the first that applies
    assert_eq!(opened(Setting { slots: 0, frame: 0, gap: 0, last: u32::MAX, ..GOOD }), Err(1));
    assert_eq!(opened(Setting { frame: 0, gap: 0, last: u32::MAX, ..GOOD }), Err(2));
    assert_eq!(opened(Setting { gap: 0, last: u32::MAX, ..GOOD }), Err(3));
    // with messages on B is above 1; 1 comes before 2
    let with_messages = Setting { messages: true, ..GOOD };
    for slots in [0, 1, 65] {
        assert_eq!(opened(Setting { slots, ..with_messages }), Err(1));
        assert_eq!(opened(Setting { slots, frame: 0, ..with_messages }), Err(1));
    }
    for slots in [2, 64] {
        assert_eq!(opened(Setting { slots, ..with_messages }), Ok(()));
        assert_eq!(opened(Setting { slots, frame: 0, ..with_messages }), Err(2));
    }
}

fn refused_add(planner: &mut Planner, stream: Stream) -> Refusal {
    let before = *planner.as_bytes();
    let refusal = planner.add(stream).unwrap_err();
    assert!(*planner.as_bytes() == before, "a refused add changed the planner");
    refusal
}

fn opened() -> Planner {
    Planner::open(GOOD).unwrap()
}

// Annex 7.12, 7.13, 7.15 to 7.17.
#[test]
fn add_refuses_6_7_and_9_to_11() {
    let mut planner = opened();
    planner.add(Stream { id: 1, ..NEW }).unwrap();
    let mut answer = |stream| refused_add(&mut planner, stream).number();
    for id in [0, 32_768, 65_537] {
        assert_eq!(answer(Stream { id, ..NEW }), 6);
    }
    assert_eq!(answer(Stream { id: 1, ..NEW }), 7);
    for period in [0, 5, 24, 241] {
        assert_eq!(answer(Stream { period, ..NEW }), 9);
    }
    for deadline in [0, 13] {
        assert_eq!(answer(Stream { deadline, ..NEW }), 10);
    }
    for release in [100, 341] {
        assert_eq!(answer(Stream { release, ..NEW }), 11);
    }
    // the first that applies
    assert_eq!(answer(Stream { id: 0, release: 0, period: 0, deadline: 0 }), 6);
    assert_eq!(answer(Stream { id: 1, release: 0, period: 0, deadline: 0 }), 7);
    assert_eq!(answer(Stream { release: 0, period: 0, deadline: 0, ..NEW }), 9);
    assert_eq!(answer(Stream { release: 0, deadline: 0, ..NEW }), 10);
    // the ends of the ranges are within them
    planner.add(Stream { id: 32_767, release: 340, period: 12, deadline: 1 }).unwrap();
}

// Annex 7.14; 7 before it, 9 after it.
#[test]
fn add_refuses_8() {
    let mut planner = Planner::open(Setting { slots: 64, ..GOOD }).unwrap();
    for id in 1..=64 {
        planner.add(Stream { id, ..NEW }).unwrap();
    }
    assert_eq!(refused_add(&mut planner, Stream { id: 65, ..NEW }), Refusal::Full);
    assert_eq!(refused_add(&mut planner, Stream { id: 65, period: 0, ..NEW }), Refusal::Full);
    assert_eq!(refused_add(&mut planner, Stream { id: 64, ..NEW }), Refusal::IdTaken);
    assert_eq!(Refusal::Full.number(), 8);
}

// Annex C.4: B = 1, F = 2: two streams of period 2 and deadline 1 are more than one slot carries in
// one unit. C.2: the demand rule is kept, and work was put off.
#[test]
fn add_refuses_12_and_13() {
    let mut planner =
        Planner::open(Setting { slots: 1, frame: 2, gap: 9, last: 0, messages: false }).unwrap();
    planner.add(Stream { id: 1, release: 1, period: 2, deadline: 1 }).unwrap();
    let second = Stream { id: 2, release: 2, period: 2, deadline: 1 };
    assert_eq!(refused_add(&mut planner, second), Refusal::BreaksDemand);

    let mut planner =
        Planner::open(Setting { slots: 1, frame: 10, gap: 20, last: 0, messages: false }).unwrap();
    for id in [1, 2] {
        planner.add(Stream { id, release: 1, period: 10, deadline: 10 }).unwrap();
    }
    planner.round(&mut [0; 1]).unwrap();
    let third = Stream { id: 3, release: 10, period: 10, deadline: 1 };
    assert_eq!(refused_add(&mut planner, third), Refusal::BreaksStart);
    assert_eq!((Refusal::BreaksDemand.number(), Refusal::BreaksStart.number()), (12, 13));
    // Annex 7.4: nothing is kept of it
    planner.add(Stream { release: 11, ..third }).unwrap();
}

// Annex 7.22: 14 for any number that no stream has, and not 6.
#[test]
fn remove_refuses_14() {
    let mut planner = opened();
    planner.add(NEW).unwrap();
    let before = *planner.as_bytes();
    for id in [0, 8, 40_000, 65_543, u32::MAX] {
        assert_eq!(planner.remove(id), Err(Refusal::NoStream));
    }
    assert!(*planner.as_bytes() == before);
    assert_eq!(Refusal::NoStream.number(), 14);
    planner.remove(NEW.id).unwrap();
    assert_eq!(planner.remove(NEW.id), Err(Refusal::NoStream));
}

// Annex 7.26: a buffer shorter than B, also where there is nothing to write; an empty one too.
#[test]
fn round_refuses_16() {
    let mut planner = opened();
    for streams in 0..2 {
        let before = *planner.as_bytes();
        assert_eq!(planner.round(&mut []), Err(Refusal::ShortBuffer), "{streams} streams");
        let mut buffer = [7];
        assert_eq!(planner.round(&mut buffer), Err(Refusal::ShortBuffer));
        assert_eq!(buffer, [7]);
        assert!(*planner.as_bytes() == before);
        if streams == 0 {
            planner.add(NEW).unwrap();
        }
    }
    assert_eq!(Refusal::ShortBuffer.number(), 16);
    assert_eq!(planner.round(&mut [0; 2]).unwrap().ids, [7]);
}

// Annex C.4, the clock's end; 16 comes before 17; 7.4: a stream brings the start back.
#[test]
fn round_refuses_17() {
    let late = Setting { slots: 2, frame: 6, gap: 2, last: 999_999_998, messages: false };
    let mut planner = Planner::open(late).unwrap();
    let before = *planner.as_bytes();
    let mut buffer = [7; 2];
    assert_eq!(planner.round(&mut buffer), Err(Refusal::LateStart));
    assert_eq!(buffer, [7; 2]);
    assert!(*planner.as_bytes() == before);
    assert_eq!(planner.round(&mut [0]), Err(Refusal::ShortBuffer));
    assert_eq!(Refusal::LateStart.number(), 17);
    planner.add(Stream { id: 1, release: 999_999_999, period: 6, deadline: 1 }).unwrap();
    assert_eq!(planner.round(&mut buffer).unwrap().start, 999_999_999);
    let mut planner = Planner::open(Setting { last: 999_999_997, ..late }).unwrap();
    assert_eq!(planner.round(&mut buffer).unwrap().start, 1_000_000_000);
}

fn refused_send(planner: &mut Planner, number: u32) -> Refusal {
    let before = *planner.as_bytes();
    let refusal = planner.send(number).unwrap_err();
    assert!(*planner.as_bytes() == before, "a refused send changed the planner");
    refusal
}

// Annex 7.43, 7.44: 29 before 30, compared as it is passed: 98,304 is 29, though it is 32,768 above
// a multiple of 65,536.
#[test]
fn send_refuses_29_and_30() {
    let no_message = [0, 1, 32_767, 65_536, 98_304, u32::MAX];
    let mut planner = Planner::open(Setting { messages: true, ..GOOD }).unwrap();
    for sent in 0..=32 {
        for number in no_message {
            assert_eq!(refused_send(&mut planner, number), Refusal::BadMessage, "{number}");
        }
        if sent < 32 {
            planner.send(if sent % 2 == 0 { 32_768 } else { 65_535 }).unwrap();
        }
    }
    for number in [32_768, 40_000, 65_535] {
        assert_eq!(refused_send(&mut planner, number), Refusal::WaitingFull);
    }
    assert_eq!((Refusal::BadMessage.number(), Refusal::WaitingFull.number()), (29, 30));
    // with messages off every number
    for number in no_message.into_iter().chain([32_768, 40_000, 65_535]) {
        assert_eq!(refused_send(&mut opened(), number), Refusal::BadMessage);
    }
}

// Table 1: which numbers this crate's calls give; 15 is never given, and 20 to 25 are others'.
#[test]
fn numbers_and_words() {
    let given: Vec<u32> = (0..=100).filter(|n| Refusal::from_number(*n).is_some()).collect();
    let table: Vec<u32> = (1..=14).chain(16..=19).chain(26..=30).collect();
    assert_eq!(given, table);
    for number in given {
        let refusal = Refusal::from_number(number).unwrap();
        assert_eq!(refusal.number(), number);
        assert!(refusal.to_string().starts_with(&format!("{number}: ")));
    }
    let refusal: Box<dyn std::error::Error> = Refusal::BadPeriod.into();
    assert_eq!(refusal.to_string(), "9: P, the period, is not 1 to 240, or does not divide F");
    assert_eq!(Refusal::BadGap.to_string(), "3: G, the gap, is not 1 to 255");
    assert_eq!(format!("{:<22}|", Refusal::IdTaken), "7: a record has the id|");
    assert_eq!(format!("{:<24}|", Refusal::IdTaken), "7: a record has the id  |");
    assert_eq!(Refusal::OtherVersion.to_string(), "the library is of another version");
    assert_eq!(Refusal::from_number(Refusal::OtherVersion.number()), None);
}
