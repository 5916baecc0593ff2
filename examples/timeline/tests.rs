//! Whole runs: wrong ones are errors, and good ones are drawn without text
//! over text.

use crate::{drawn, drawn_plan};

/// A run's lines, written with " / " between.
fn fault(script: &str, answers: &str) -> Option<String> {
    let lines = |text: &str| text.replace(" / ", "\n").into_bytes();
    drawn(&lines(script), &lines(answers)).err()
}

const SCRIPT: &str = "O,2,6,6,0 / A,1,1,3,2 / A,2,1,6,6 / A,3,2,6,5 / R / R / R";
const ADDED: &str = "O,0 / A,1,0 / A,2,0 / A,3,0";

#[test]
fn the_three_rounds_are_no_fault() {
    let answers = format!("{ADDED} / R,0,2,2,1,2 / R,0,5,2,1,3 / R,0,8,2,1,2");
    assert_eq!(fault(SCRIPT, &answers), None);
}

#[test]
fn a_wrong_round_is_an_error_that_names_its_line() {
    let wrong = [
        ("R,0,2,2,1,9 / R,5 / R,5", "line 5: no stream 9 is held"),
        ("R,0,1,1,3 / R,5 / R,5", "line 5: stream 3 cannot ride at 1"),
        (
            "R,0,2,2,1,1 / R,5 / R,5",
            "line 5: stream 1 cannot ride at 2",
        ),
        (
            "R,0,3,1,2 / R,5 / R,5",
            "line 5: stream 1 has a packet late",
        ),
        (
            "R,0,3,2,2,1 / R,5 / R,5",
            "line 5: stream 1 cannot ride at 3",
        ),
        ("R,0,2,3,1,2,3 / R,5 / R,5", "line 5: 3 ids in 2 slots"),
        ("R,0,0,1,1 / R,5 / R,5", "line 5: a round at 0"),
        ("R,0,8,1,1 / R,5 / R,5", "line 5: a round at 8"),
        ("R,0,2,2,1,2 / R,0,2,0 / R,5", "line 6: a round at 2"),
        (
            "R,0,2,2,1,2 / R,0,5,2,1,2 / R,5",
            "line 6: stream 2 cannot ride",
        ),
    ];
    for (rounds, begin) in wrong {
        let fault = fault(SCRIPT, &format!("{ADDED} / {rounds}"));
        let fault = fault.unwrap_or_else(|| panic!("{rounds} is drawn"));
        assert!(fault.starts_with(begin), "{rounds}: {fault}");
    }
}

#[test]
fn other_wrong_answers_are_errors_that_name_their_lines() {
    let wrong = [
        ("R", "R,0,2,0", "line 1:"),
        (
            "O,1,1,1,0 / O,0,1,1,0 / R",
            "O,0 / O,1 / R,0,2,0",
            "line 3:",
        ),
        ("O,1,1,1,0 / D,1", "O,0 / D,1,0", "line 2:"),
        (
            "O,1,1,1,0 / A,1,1,1,1 / A,1,1,1,1",
            "O,0 / A,1,0 / A,1,0",
            "line 3:",
        ),
        ("O,1,1,1,0 / A,1,0,1,1", "O,0 / A,1,0", "line 2:"),
        ("O,1,1,1,0 / x", "O,0 / E,20,1", "line 2:"),
    ];
    for (script, answers, begin) in wrong {
        let fault = fault(script, answers);
        let fault = fault.unwrap_or_else(|| panic!("{script} is drawn"));
        assert!(fault.starts_with(begin), "{script}: {fault}");
    }
}

#[test]
fn the_examples_have_no_text_over_text() {
    let examples = [
        (
            include_bytes!("../station/script").as_slice(),
            include_bytes!("../station/answers").as_slice(),
        ),
        (
            include_bytes!("../../vectors/ties/script"),
            include_bytes!("../../vectors/ties/script.answers"),
        ),
        (b"", b""),
        (b"O,0,0,0,0\nR\n", b"O,1\nR,5\n"),
        (b"O,1,12,255,0\nR\nR\n", b"O,0\nR,0,256,0\nR,0,512,0\n"),
    ];
    for (script, answers) in examples {
        let (picture, height) = drawn(script, answers).expect("a good run");
        assert_eq!(picture.faults(height), Vec::<String>::new());
    }
}

/// A plan of the acceptance examples, from the planner of most of them.
macro_rules! plan {
    ($name:literal) => {
        include_bytes!(concat!("../acceptance/", $name, "/plan")).as_slice()
    };
}

const PLANNER: &[u8] = include_bytes!("../acceptance/01-own-rounds/planner");

fn plan_fault(plan: &[u8], verdict: &str) -> Option<String> {
    let rounds = "R,0,2,2,1,2 / R,0,5,2,1,3 / R,0,8,2,1,2 / R,0,11,2,1,3";
    let answers = format!("{ADDED} / {rounds}\n").replace(" / ", "\n");
    match drawn_plan(PLANNER, answers.as_bytes(), plan, verdict.as_bytes()) {
        Ok((picture, height)) => picture.faults(height).into_iter().next(),
        Err(fault) => Some(fault),
    }
}

#[test]
fn plans_are_drawn_with_no_text_over_text() {
    let breaks = |content: &str, rule: &str| {
        format!("round 2 breaks a rule: {content}; rule {rule}, in many, many words (14)")
    };
    let good = [
        (plan!("01-own-rounds"), String::from("sound, 3 rounds")),
        (plan!("02-early-rounds"), String::from("sound, 3 rounds")),
        (plan!("03-with-messages"), String::from("sound, 3 rounds")),
        (plan!("05-no-rounds"), String::from("sound, 0 rounds")),
        (plan!("08-past-the-gap"), breaks("start 10, ids 1 3", "2")),
        (plan!("09-start-again"), breaks("start 2, no ids", "2")),
        (plan!("10-id-not-held"), breaks("start 5, ids 1 4", "4")),
        (plan!("11-unreleased"), breaks("start 3, ids 1 3", "4")),
        (plan!("13-due-packet-left"), breaks("start 6, ids 3", "5")),
        (
            b"\0\0\0\x02\x02\x02\0\x01\0\x02\0",
            breaks("1 byte left", "1"),
        ),
    ];
    for (plan, verdict) in good {
        assert_eq!(plan_fault(plan, &verdict), None, "{verdict}");
    }
}

#[test]
fn a_verdict_that_the_rounds_do_not_bear_out_is_an_error() {
    let breaks = "round 2 breaks a rule: start 5, ids 1 3; rule 4, and why";
    let wrong = [
        (
            plan!("13-due-packet-left"),
            "sound, 3 rounds",
            "round 2 passes, but",
        ),
        (
            plan!("11-unreleased"),
            "sound, 2 rounds",
            "round 2 passes, but",
        ),
        (
            plan!("01-own-rounds"),
            breaks,
            "round 2 is said to break rule 4",
        ),
        (
            plan!("05-no-rounds"),
            "sound, 1 round",
            "the plan has fewer packets",
        ),
        (
            plan!("01-own-rounds"),
            "refused, 5: no",
            "'refused, 5: no' is no",
        ),
    ];
    for (plan, verdict, begin) in wrong {
        let fault = plan_fault(plan, verdict);
        let fault = fault.unwrap_or_else(|| panic!("{verdict} is drawn"));
        assert!(fault.starts_with(begin), "{verdict}: {fault}");
    }
}
