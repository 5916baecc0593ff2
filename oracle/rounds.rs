//! Counts the rounds of a script that show the order among packets due
//! together, or the cap: those that would be held otherwise by due time and
//! then id alone, or with the gap counted from a round's start.

use crate::count;
use crate::planner::Planner;
use crate::program::{self, Program};

/// R lines, those of them held, and of these the ones that would have other
/// ids, or the same ids in another order, by due time and then id alone, and
/// the ones at L + 1 + G, each of which would be held at L + G if the gap were
/// counted from a round's start.
#[derive(Default)]
pub struct Rounds {
    asked: u64,
    pub held: u64,
    other_ids: u64,
    other_order: u64,
    pub at_cap: u64,
    at_cap_with_streams: u64,
}

impl Rounds {
    /// The counts over a script. Each round is answered a second time from the
    /// planner that it found; the script goes on with the first answer.
    pub fn of(script: &[u8]) -> Rounds {
        let mut program = Program::new();
        let mut rounds = Rounds::default();
        for line in program::lines(script) {
            let before = program.planner.clone();
            let printed = program.line(line);
            if !printed.starts_with('R') {
                continue;
            }
            rounds.asked += 1;
            if count::number(&printed) == 0 {
                rounds.add(&before, program.planner.last);
            }
        }
        rounds
    }

    /// Counts one held round, by the planner before it and its start.
    fn add(&mut self, before: &Planner, start: u64) {
        self.held += 1;
        self.add_order(before.slot_ids(start), before.slot_ids_by_due_then_id(start));
        if start == before.cap() {
            self.at_cap += 1;
            self.at_cap_with_streams += u64::from(!before.streams.is_empty());
        }
    }

    /// Counts its ids against those by due time and then id alone.
    fn add_order(&mut self, mut ids: Vec<u64>, mut ids_before: Vec<u64>) {
        if ids == ids_before {
            return;
        }
        ids.sort_unstable();
        ids_before.sort_unstable();
        if ids == ids_before {
            self.other_order += 1;
        } else {
            self.other_ids += 1;
        }
    }

    /// How many held rounds would be listed otherwise.
    pub fn listed_otherwise(&self) -> u64 {
        self.other_ids + self.other_order
    }

    /// The counts as text, a line for each.
    pub fn text(&self) -> String {
        format!(
            "{:>9} R lines\n{:>9} held\n{:>9} of these with other ids by due time, then id\n\
             {:>9} of these with the same ids in another order\n\
             {:>9} of these at the cap\n{:>9} of these at the cap, with streams\n",
            self.asked,
            self.held,
            self.other_ids,
            self.other_order,
            self.at_cap,
            self.at_cap_with_streams
        )
    }
}
