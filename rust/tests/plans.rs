//! The plan checker: Annex chapter 14, each rule kept and broken by one unit, with verdicts by hand.

use planner::Verdict::{self, Breaks, Sound};
use planner::{packet, raw, Planner, Refusal, Setting, Stream};

const SETTING: Setting = Setting { slots: 2, frame: 6, gap: 6, last: 0, messages: false };

// Annex C.1: three streams, whose first packets are due at 3, 7 and 7.
fn planner_with(setting: Setting) -> Planner {
    let mut planner = Planner::open(setting).unwrap();
    for (id, release, period, deadline) in [(1, 1, 3, 2), (2, 1, 6, 6), (3, 2, 6, 5)] {
        planner.add(Stream { id, release, period, deadline }).unwrap();
    }
    planner
}

// A round's packet, good or not.
fn bytes(start: u32, slots: u8, numbers: &[u16]) -> Vec<u8> {
    let head = [&start.to_be_bytes()[..], &[slots, numbers.len() as u8]].concat();
    head.into_iter().chain(numbers.iter().flat_map(|number| number.to_be_bytes())).collect()
}

fn plan(rounds: &[(u32, &[u16])]) -> Vec<u8> {
    rounds.iter().flat_map(|(start, numbers)| bytes(*start, 2, numbers)).collect()
}

// The verdict; the planner is as it was.
fn verdict(planner: &Planner, plan: &[u8]) -> Verdict {
    let before = *planner.as_bytes();
    let verdict = planner.check(plan).unwrap();
    assert!(*planner.as_bytes() == before, "a check changed the planner");
    verdict
}

fn verdict_of(rounds: &[(u32, &[u16])]) -> Verdict {
    verdict(&planner_with(SETTING), &plan(rounds))
}

// Annex 14.10, 14.14: the planner's own rounds, eager ones, slots in another order.
#[test]
fn sound_plans() {
    assert_eq!(verdict_of(&[]), Sound);
    assert_eq!(verdict_of(&[(2, &[1, 2]), (5, &[1, 3]), (8, &[1, 2])]), Sound);
    assert_eq!(verdict_of(&[(2, &[2, 1]), (5, &[3, 1]), (8, &[2, 1])]), Sound);
    assert_eq!(verdict_of(&[(1, &[1, 2]), (2, &[3]), (3, &[]), (4, &[1]), (7, &[1, 2])]), Sound);
}

// Annex 14.3: bytes that are cut short, a packet that is not good, another B.
#[test]
fn rule_1() {
    let planner = planner_with(SETTING);
    let own = plan(&[(2, &[1, 2]), (5, &[1, 3])]);
    for length in 0..=own.len() {
        let expected = match length {
            0 | 10 | 20 => Sound,
            1..=9 => Breaks { round: 1 },
            _ => Breaks { round: 2 },
        };
        assert_eq!(verdict(&planner, &own[..length]), expected, "{length} bytes");
    }
    let not_good: [&[u16]; 6] =
        [&[1, 1], &[0, 1], &[1, 0], &[40_000, 1], &[1, 2, 3], &[1, 2, 40_000]];
    for numbers in not_good {
        assert_eq!(verdict_of(&[(2, numbers)]), Breaks { round: 1 }, "{numbers:?}");
        assert_eq!(verdict_of(&[(2, &[1, 2]), (5, numbers)]), Breaks { round: 2 }, "{numbers:?}");
    }
    for slots in [0, 1, 3, 64, 65, 255] {
        let expected = Breaks { round: 1 };
        assert_eq!(verdict(&planner, &bytes(2, slots, &[1])), expected, "{slots} slots");
    }
    let end = Setting { last: 999_999_999, ..SETTING };
    let planner = Planner::open(end).unwrap();
    assert_eq!(verdict(&planner, &plan(&[(1_000_000_000, &[])])), Sound);
    assert_eq!(verdict(&planner, &plan(&[(1_000_000_001, &[])])), Breaks { round: 1 });
}

// Annex 14.4: after the last start, and at most a gap after its end.
#[test]
fn rule_2() {
    assert_eq!(verdict_of(&[(0, &[])]), Breaks { round: 1 });
    assert_eq!(verdict_of(&[(2, &[1, 2]), (2, &[])]), Breaks { round: 2 });
    assert_eq!(verdict_of(&[(2, &[1, 2]), (3, &[])]), Sound);
    // with no stream nothing but the gap says how late
    let planner = Planner::open(Setting { last: 10, ..SETTING }).unwrap();
    assert_eq!(verdict(&planner, &plan(&[(17, &[]), (24, &[])])), Sound);
    assert_eq!(verdict(&planner, &plan(&[(18, &[])])), Breaks { round: 1 });
    assert_eq!(verdict(&planner, &plan(&[(17, &[]), (25, &[])])), Breaks { round: 2 });
    assert_eq!(verdict(&planner, &plan(&[(10, &[])])), Breaks { round: 1 });
}

// Annex 14.5: with messages on the streams have a slot fewer; messages are skipped, off and on.
#[test]
fn rule_3() {
    let on = planner_with(Setting { slots: 3, messages: true, ..SETTING });
    let one = |numbers: &[u16]| verdict(&on, &bytes(2, 3, numbers));
    assert_eq!(one(&[1, 2, 40_000]), Sound);
    assert_eq!(one(&[1, 2]), Sound);
    assert_eq!(one(&[1, 2, 3]), Breaks { round: 1 });
    assert_eq!(one(&[1, 65_535, 65_535]), Sound);
    assert_eq!(verdict_of(&[(2, &[1, 40_000]), (5, &[1, 3]), (6, &[2, 32_768])]), Sound);
}

// Annex 14.6: an id that no stream has; a packet that is not released; one that is late.
#[test]
fn rule_4() {
    assert_eq!(verdict_of(&[(2, &[1, 4])]), Breaks { round: 1 });
    assert_eq!(verdict_of(&[(1, &[1, 3])]), Breaks { round: 1 });
    assert_eq!(verdict_of(&[(2, &[1, 3])]), Sound);
    assert_eq!(verdict_of(&[(2, &[1]), (3, &[1])]), Breaks { round: 2 });
    assert_eq!(verdict_of(&[(2, &[1]), (4, &[1])]), Sound);
    // stream 1 is due at 3, and again at 6
    assert_eq!(verdict_of(&[(3, &[1, 2])]), Breaks { round: 1 });
    assert_eq!(verdict_of(&[(2, &[1, 2]), (6, &[1, 3])]), Breaks { round: 2 });
}

// Annex 14.7: what is due by the end of a round is in it, of every stream.
#[test]
fn rule_5() {
    assert_eq!(verdict_of(&[(2, &[2])]), Breaks { round: 1 });
    assert_eq!(verdict_of(&[(1, &[2]), (2, &[1])]), Sound);
    assert_eq!(verdict_of(&[(2, &[1]), (5, &[1, 2]), (6, &[])]), Breaks { round: 3 });
    assert_eq!(verdict_of(&[(2, &[1]), (5, &[1, 2]), (6, &[3])]), Sound);
}

// Annex 14.12: a planner that is not sound has no verdict, whatever the bytes.
#[test]
fn not_sound() {
    let mut damaged = *planner_with(SETTING).as_raw();
    damaged.table.streams[0].period = 4;
    for raw in [raw::Planner::ZEROS, damaged] {
        let planner = Planner::from_raw(raw).unwrap();
        for plan in [plan(&[]), plan(&[(2, &[1, 2])]), vec![7]] {
            assert_eq!(planner.check(&plan), Err(Refusal::NotSound));
        }
    }
}

// Annex 12.32: a planner's own rounds, as packets, with messages or without; with a byte cut off the
// last round is the one that breaks.
#[test]
fn own_rounds_pass() {
    for messages in [false, true] {
        let setting = Setting { slots: 3, frame: 12, gap: 9, last: 500, messages };
        let mut planner = Planner::open(setting).unwrap();
        for (id, release, period, deadline) in [(9, 501, 3, 3), (2, 510, 6, 4), (30_000, 502, 4, 4)]
        {
            planner.add(Stream { id, release, period, deadline }).unwrap();
        }
        let (begun, mut plan) = (planner.clone(), vec![]);
        for turn in 1..=200 {
            let (mut ids, mut buffer) = ([0; 3], [0; packet::MOST_BYTES]);
            if messages {
                planner.send(40_000 + turn).unwrap();
            }
            let round = planner.round(&mut ids).unwrap();
            plan.extend(packet::write(round.start, 3, round.ids, &mut buffer).unwrap());
            assert_eq!(verdict(&begun, &plan), Sound);
            assert_eq!(verdict(&begun, &plan[..plan.len() - 1]), Breaks { round: turn });
        }
    }
}
