//! Calls and answers as the lines of the annex's chapter 11, so that a test reads as its appendix C.

use planner::{Planner, Refusal, Setting, Stream, MOST_SLOTS};

fn number(answer: Result<(), Refusal>) -> u32 {
    answer.map_or_else(Refusal::number, |()| 0)
}

// Annex 11.17, 11.18: a round's line.
fn held(planner: &mut Planner) -> String {
    let mut buffer = [0; MOST_SLOTS];
    match planner.round(&mut buffer) {
        Err(refusal) => format!("R,{}", refusal.number()),
        Ok(round) => {
            let ids: String = round.ids.iter().map(|id| format!(",{id}")).collect();
            format!("R,0,{},{}{ids}", round.start, round.ids.len())
        }
    }
}

/// Annex 11.12 to 11.18: the answer to a line that is a command. A refused O leaves no planner, and
/// without one the answer is 5 (Annex 11.10).
pub fn answer(kept: &mut Option<Planner>, line: &str) -> String {
    let mut fields = line.split(',');
    let letter = fields.next().unwrap();
    let numbers: Vec<u32> = fields.map(|field| field.parse().unwrap()).collect();
    match (letter, &numbers[..], kept.as_mut()) {
        ("O", &[slots, frame, gap, last], _) => {
            let opened = Planner::open(Setting { slots, frame, gap, last, messages: false });
            let answer = number(opened.as_ref().map(|_| ()).map_err(|refusal| *refusal));
            *kept = opened.ok();
            format!("O,{answer}")
        }
        ("A", &[id, release, period, deadline], Some(planner)) => {
            format!("A,{id},{}", number(planner.add(Stream { id, release, period, deadline })))
        }
        ("D", &[id], Some(planner)) => format!("D,{id},{}", number(planner.remove(id))),
        ("R", [], Some(planner)) => held(planner),
        ("A" | "D", &[id, ..], None) => format!("{letter},{id},5"),
        ("R", [], None) => "R,5".to_string(),
        _ => panic!("no command: {line}"),
    }
}

/// Runs lines, each with the answer that the annex gives.
pub fn run(lines: &[(&str, &str)]) {
    let mut kept = None;
    for (count, (line, expected)) in lines.iter().enumerate() {
        assert_eq!(answer(&mut kept, line), *expected, "line {} is {line}", count + 1);
    }
}
