//! Messages beside the streams: Annex 3.14 to 3.17, 7.41 to 7.48 and C.9, with its answers.

use planner::{Planner, Refusal, Setting, Stream};

const ON: Setting = Setting { slots: 2, frame: 6, gap: 6, last: 0, messages: true };

// The next round: its start, and what stands in its slots.
fn held(planner: &mut Planner) -> (u32, Vec<u16>) {
    let mut buffer = [0; 64];
    let round = planner.round(&mut buffer).unwrap();
    assert_eq!([round.streams(), round.messages()].concat(), round.ids);
    (round.start, round.ids.to_vec())
}

// Annex C.9: three slots, of which the streams of C.1 have two: the rounds are those of C.1, and a
// message rides in each while there is one.
#[test]
fn heard_in_the_next_round() {
    let mut planner = Planner::open(Setting { slots: 3, ..ON }).unwrap();
    for (id, release, period, deadline) in [(1, 1, 3, 2), (2, 1, 6, 6), (3, 2, 6, 5)] {
        planner.add(Stream { id, release, period, deadline }).unwrap();
    }
    for message in [40_000, 40_000, 50_000] {
        planner.send(message).unwrap();
    }
    assert_eq!((planner.messages(), planner.waiting()), (true, &[40_000, 40_000, 50_000][..]));
    assert_eq!(held(&mut planner), (2, vec![1, 2, 40_000]));
    assert_eq!(planner.waiting(), [40_000, 50_000]);
    assert_eq!(held(&mut planner), (5, vec![1, 3, 40_000]));
    assert_eq!(held(&mut planner), (8, vec![1, 2, 50_000]));
    assert_eq!(planner.waiting(), []);
    assert_eq!(held(&mut planner), (11, vec![1, 3]));
}

// With no stream a round is held at the cap, and has all of its slots for messages.
#[test]
fn no_stream() {
    let mut planner = Planner::open(ON).unwrap();
    for message in 32_768..32_800 {
        planner.send(message).unwrap();
    }
    for number in [0, 32_767, 98_304] {
        assert_eq!(planner.send(number), Err(Refusal::BadMessage));
    }
    assert_eq!(planner.send(40_000), Err(Refusal::WaitingFull));
    assert_eq!(held(&mut planner), (7, vec![32_768, 32_769]));
    assert_eq!(held(&mut planner), (14, vec![32_770, 32_771]));
    planner.send(40_000).unwrap();
    let last: Vec<u16> = (0..15).flat_map(|_| held(&mut planner).1).skip(27).collect();
    assert_eq!(last, [32_799, 40_000]);
    assert_eq!(held(&mut planner), (126, vec![]));
}

// Annex 3.16, C.9: with messages on the streams have a slot fewer, which may hold rounds earlier.
#[test]
fn rounds_with_a_slot_fewer() {
    let streams = [1, 2].map(|id| Stream { id, release: 1, period: 2, deadline: 2 });
    for (messages, expected) in [
        (true, [(1, vec![1]), (2, vec![2]), (3, vec![1]), (4, vec![2])]),
        (false, [2, 4, 6, 8].map(|start| (start, vec![1, 2]))),
    ] {
        let setting = Setting { frame: 2, gap: 1, messages, ..ON };
        let mut planner = Planner::open(setting).unwrap();
        streams.iter().for_each(|stream| planner.add(*stream).unwrap());
        assert_eq!([(); 4].map(|()| held(&mut planner)), expected);
    }
}

// Annex 3.16, C.9: a stream may be refused with messages on that is accepted with them off.
#[test]
fn a_stream_that_fits_with_messages_off() {
    let setting = Setting { frame: 2, gap: 9, ..ON };
    for (messages, expected) in [(true, Err(Refusal::BreaksDemand)), (false, Ok(()))] {
        let mut planner = Planner::open(Setting { messages, ..setting }).unwrap();
        planner.add(Stream { id: 1, release: 1, period: 2, deadline: 1 }).unwrap();
        let second = Stream { id: 2, release: 1, period: 2, deadline: 1 };
        assert_eq!(planner.add(second), expected);
    }
}

// Annex 7.47: what a refused round would have listed waits on, and so does all where a stream comes
// or goes.
#[test]
fn messages_wait_on() {
    let mut planner = Planner::open(Setting { last: 999_999_993, ..ON }).unwrap();
    planner.send(65_535).unwrap();
    planner.send(32_768).unwrap();
    assert_eq!(planner.round(&mut [0]), Err(Refusal::ShortBuffer));
    let stream = Stream { id: 9, release: 999_999_994, period: 6, deadline: 6 };
    planner.add(stream).unwrap();
    planner.remove(9).unwrap();
    assert_eq!(planner.waiting(), [65_535, 32_768]);
    assert_eq!(held(&mut planner), (1_000_000_000, vec![65_535, 32_768]));
    // C.9: after a 17 too, until a stream brings the start back
    let setting = Setting { gap: 2, last: 999_999_998, ..ON };
    let mut planner = Planner::open(setting).unwrap();
    planner.send(40_000).unwrap();
    assert_eq!(planner.round(&mut [0; 2]), Err(Refusal::LateStart));
    assert_eq!(planner.waiting(), [40_000]);
    planner.add(Stream { id: 1, release: 999_999_999, period: 1, deadline: 1 }).unwrap();
    assert_eq!(held(&mut planner), (999_999_999, vec![1, 40_000]));
}

// Annex 7.46: every slot that the streams leave free, and not only the one kept; the later elements
// of the buffer are untouched.
#[test]
fn every_free_slot() {
    let mut planner = Planner::open(Setting { slots: 4, ..ON }).unwrap();
    planner.add(Stream { id: 7, release: 1, period: 6, deadline: 6 }).unwrap();
    for message in 50_000..50_005 {
        planner.send(message).unwrap();
    }
    let mut buffer = [7; 5];
    let round = planner.round(&mut buffer).unwrap();
    assert_eq!((round.start, round.streams(), round.messages().len()), (6, &[7][..], 3));
    assert_eq!(buffer, [7, 50_000, 50_001, 50_002, 7]);
    assert_eq!(planner.waiting(), [50_003, 50_004]);
}

// Annex 7.48: with the same streams, and messages on in both, rounds have the same starts and ids
// whether messages wait or not.
#[test]
fn no_round_is_brought_forward() {
    let mut quiet = Planner::open(Setting { slots: 3, frame: 12, gap: 9, ..ON }).unwrap();
    for (id, release, period, deadline) in
        [(1, 1, 3, 3), (2, 1, 6, 4), (3, 2, 4, 4), (4, 1, 12, 12)]
    {
        quiet.add(Stream { id, release, period, deadline }).unwrap();
    }
    let mut busy = quiet.clone();
    for turn in 0..40 {
        while busy.send(33_000 + turn).is_ok() {}
        let (mut one, mut other) = ([0; 64], [0; 64]);
        let (one, other) = (quiet.round(&mut one).unwrap(), busy.round(&mut other).unwrap());
        assert_eq!((one.start, one.ids), (other.start, other.streams()));
        assert_eq!(other.ids.len(), 3);
    }
}

// Annex 7.7, 7.8: opening again leaves nothing waiting.
#[test]
fn an_opening_has_nothing_waiting() {
    let mut planner = Planner::open(ON).unwrap();
    planner.send(40_000).unwrap();
    planner = Planner::open(ON).unwrap();
    assert_eq!((planner.messages(), planner.waiting()), (true, &[][..]));
    assert_eq!(planner.as_raw().messages, 1);
}

// Annex 7.5: as the library sees it, any number but 0 is on, and the planner keeps 0 or 1.
#[test]
fn any_number_but_0_is_on() {
    for (messages, kept) in [(0, 0), (1, 1), (2, 1), (256, 1), (65_536, 1), (u32::MAX, 1)] {
        let mut raw = planner::raw::Planner::ZEROS;
        // SAFETY: a planner of our own, written before it is lent, which nobody else has.
        let answer = unsafe { planner::raw::planner_open(&mut raw, 2, 6, 6, 0, messages) };
        assert_eq!((answer, raw.messages), (0, kept));
        // SAFETY: as above.
        let answer = unsafe { planner::raw::planner_open(&mut raw, 1, 6, 6, 0, messages) };
        assert_eq!((answer, raw.messages), (kept, 0));
    }
}
