//! Plans that somebody else made, checked: the planner's own rounds, the same with a round a unit
//! late and with the last byte missing, no bytes, and a planner that is not open. A line each with
//! the verdict; `examples/c/plan.c` writes the same.

use planner::packet::{self, MOST_BYTES};
use planner::{raw, Planner, Refusal, Setting, Stream, Verdict};

fn print_verdict(plan: &str, verdict: Result<Verdict, Refusal>) {
    match verdict {
        Ok(Verdict::Sound) => println!("{plan}: sound"),
        Ok(Verdict::Breaks { round }) => println!("{plan}: round {round} breaks a rule"),
        Err(refusal) => println!("{plan}: refused, {refusal}"),
    }
}

/// Packets laid end to end, two slots each.
fn plan(rounds: &[(u32, [u16; 2])]) -> Result<Vec<u8>, Refusal> {
    let mut plan = vec![];
    for (start, ids) in rounds {
        plan.extend(packet::write(*start, 2, ids, &mut [0; MOST_BYTES])?);
    }
    Ok(plan)
}

fn main() -> Result<(), Refusal> {
    let setting = Setting { slots: 2, frame: 6, gap: 6, last: 0, messages: false };
    let mut planner = Planner::open(setting)?;
    planner.add(Stream { id: 1, release: 1, period: 3, deadline: 2 })?;
    planner.add(Stream { id: 2, release: 1, period: 6, deadline: 6 })?;
    planner.add(Stream { id: 3, release: 2, period: 6, deadline: 5 })?;

    let own = plan(&[(2, [1, 2]), (5, [1, 3]), (8, [1, 2])])?;
    let late = plan(&[(2, [1, 2]), (6, [1, 3]), (8, [1, 2])])?;
    print_verdict("its own rounds", planner.check(&own));
    print_verdict("the second a unit late", planner.check(&late));
    print_verdict("the last byte missing", planner.check(&own[..own.len() - 1]));
    print_verdict("no bytes", planner.check(&[]));
    print_verdict("not open", Planner::from_raw(raw::Planner::ZEROS)?.check(&own));
    Ok(())
}
