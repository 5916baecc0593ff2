//! The worked examples of the annex, appendix C, with its answers.

mod lines;

use lines::run;
use planner::{Planner, Setting, Stream};

#[test]
fn three_rounds_of_c_1() {
    run(&[
        ("O,2,6,6,0", "O,0"),
        ("A,1,1,3,2", "A,1,0"),
        ("A,2,1,6,6", "A,2,0"),
        ("A,3,2,6,5", "A,3,0"),
        ("R", "R,0,2,2,1,2"),
        ("R", "R,0,5,2,1,3"),
        ("R", "R,0,8,2,1,2"),
        ("D,9", "D,9,14"),
    ]);
}

#[test]
fn work_put_off_of_c_2() {
    run(&[
        ("O,1,10,20,0", "O,0"),
        ("A,1,1,10,10", "A,1,0"),
        ("A,2,1,10,10", "A,2,0"),
        ("R", "R,0,9,1,1"),
        ("A,3,10,10,1", "A,3,13"),
        ("A,3,11,10,1", "A,3,0"),
        ("R", "R,0,10,1,2"),
        ("R", "R,0,11,1,3"),
        ("R", "R,0,19,1,1"),
    ]);
}

#[test]
fn station_of_c_3() {
    run(&[
        ("R", "R,5"),
        ("O,0,12,9,0", "O,1"),
        ("O,2,12,9,0", "O,0"),
        ("R", "R,0,10,0"),
        ("A,1,11,3,3", "A,1,0"),
        ("A,2,11,6,4", "A,2,0"),
        ("A,3,12,4,4", "A,3,0"),
        ("A,4,11,12,12", "A,4,0"),
        ("R", "R,0,13,2,1,2"),
        ("R", "R,0,15,2,3,1"),
        ("R", "R,0,19,2,3,1"),
        ("R", "R,0,20,2,2,4"),
        ("A,5,22,3,1", "A,5,0"),
        ("A,6,22,4,2", "A,6,0"),
        ("D,4", "D,4,0"),
        ("R", "R,0,22,2,1,5"),
        ("A,7,23,12,1", "A,7,13"),
        ("A,7,24,12,1", "A,7,0"),
        ("R", "R,0,23,2,3,6"),
        ("R", "R,0,24,2,7,1"),
        ("A,8,25,1,1", "A,8,12"),
        ("A,8,400,12,12", "A,8,11"),
        ("D,4", "D,4,14"),
    ]);
}

#[test]
fn other_cases_of_c_4() {
    // no stream; then one, and none again
    run(&[
        ("O,2,6,6,0", "O,0"),
        ("R", "R,0,7,0"),
        ("R", "R,0,14,0"),
        ("R", "R,0,21,0"),
        ("A,1,22,3,2", "A,1,0"),
        ("R", "R,0,23,1,1"),
        ("D,1", "D,1,0"),
        ("R", "R,0,30,0"),
    ]);
    // the clock's end
    run(&[
        ("O,1,1,1,999999999", "O,0"),
        ("A,1,1000000000,1,1", "A,1,0"),
        ("R", "R,0,1000000000,1,1"),
        ("R", "R,17"),
    ]);
    // three due together, the longest deadline first
    run(&[
        ("O,2,12,20,0", "O,0"),
        ("A,1,5,12,4", "A,1,0"),
        ("A,2,3,12,6", "A,2,0"),
        ("A,3,1,12,8", "A,3,0"),
        ("R", "R,0,7,2,3,2"),
        ("R", "R,0,8,1,1"),
    ]);
}

// Annex 5.6, 7.20, 7.30: the numbers and the records after each call of C.1, worked out by hand.
#[test]
fn what_is_kept() {
    let mut planner =
        Planner::open(Setting { slots: 2, frame: 6, gap: 6, last: 0, messages: false }).unwrap();
    assert_eq!((planner.slots(), planner.frame(), planner.gap()), (2, 6, 6));
    assert_eq!((planner.last(), planner.now()), (0, 1));
    assert_eq!((planner.messages(), planner.waiting()), (false, &[][..]));
    assert_eq!(planner.streams().len(), 0);
    // not in the order of their ids
    planner.add(Stream { id: 3, release: 2, period: 6, deadline: 5 }).unwrap();
    planner.add(Stream { id: 1, release: 1, period: 3, deadline: 2 }).unwrap();
    planner.add(Stream { id: 2, release: 1, period: 6, deadline: 6 }).unwrap();
    let releases = |planner: &Planner| -> Vec<(u32, u32)> {
        planner.streams().map(|stream| (stream.id, stream.release)).collect()
    };
    assert_eq!(releases(&planner), [(1, 1), (2, 1), (3, 2)]);
    for (start, kept) in [
        (2, [(1, 4), (2, 7), (3, 2)]),
        (5, [(1, 7), (2, 7), (3, 8)]),
        (8, [(1, 10), (2, 13), (3, 8)]),
    ] {
        assert_eq!(planner.round(&mut [0; 64]).unwrap().start, start);
        assert_eq!((planner.last(), planner.now()), (start, start + 1));
        assert_eq!(releases(&planner), kept);
    }
    planner.remove(2).unwrap();
    let kept: Vec<Stream> = planner.streams().collect();
    let first = Stream { id: 1, release: 10, period: 3, deadline: 2 };
    assert_eq!(kept, [first, Stream { id: 3, release: 8, period: 6, deadline: 5 }]);
}

// Annex 7.24, 7.29: the ids stand at the front of the buffer, and the later elements are untouched.
#[test]
fn ids_are_the_buffers_front() {
    let mut planner =
        Planner::open(Setting { slots: 2, frame: 12, gap: 20, last: 0, messages: false }).unwrap();
    planner.add(Stream { id: 32_767, release: 1, period: 12, deadline: 12 }).unwrap();
    let mut buffer = [7; 3];
    let round = planner.round(&mut buffer).unwrap();
    assert_eq!((round.start, round.ids), (12, &[32_767][..]));
    assert_eq!(buffer, [32_767, 7, 7]);
}

// Annex 12.24: a planner that is cloned answers as the first one does, and is another one.
#[test]
fn a_clone_is_another_planner() {
    let mut one =
        Planner::open(Setting { slots: 1, frame: 12, gap: 20, last: 0, messages: false }).unwrap();
    for id in [9, 4, 7] {
        one.add(Stream { id, release: 1, period: 12, deadline: 8 }).unwrap();
    }
    let mut other = one.clone();
    for expected in [(6, 4), (7, 7), (8, 9)] {
        for planner in [&mut one, &mut other] {
            let mut buffer = [0];
            let round = planner.round(&mut buffer).unwrap();
            assert_eq!((round.start, round.ids), (expected.0, &[expected.1][..]));
        }
    }
}
