//! A host that answers in lines, as the annex's chapter 11 has them: the planner's part of its worked
//! example C.1, with one refusal at the end.

use planner::{Planner, Refusal, Setting, Stream, MOST_SLOTS};

fn number(answer: Result<(), Refusal>) -> u32 {
    answer.map_or_else(Refusal::number, |()| 0)
}

fn add(planner: &mut Planner, id: u32, release: u32, period: u32, deadline: u32) {
    let answer = planner.add(Stream { id, release, period, deadline });
    println!("A,{id},{}", number(answer));
}

fn hold(planner: &mut Planner) -> Result<(), Refusal> {
    let mut buffer = [0; MOST_SLOTS];
    let round = planner.round(&mut buffer)?;
    print!("R,0,{},{}", round.start, round.ids.len());
    for id in round.ids {
        print!(",{id}");
    }
    println!();
    Ok(())
}

fn main() -> Result<(), Refusal> {
    let mut planner =
        Planner::open(Setting { slots: 2, frame: 6, gap: 6, last: 0, messages: false })?;
    println!("O,0");
    add(&mut planner, 1, 1, 3, 2);
    add(&mut planner, 2, 1, 6, 6);
    add(&mut planner, 3, 2, 6, 5);
    for _ in 0..3 {
        hold(&mut planner)?;
    }
    println!("D,9,{}", number(planner.remove(9)));
    Ok(())
}
