//! Every refusal that a call of this crate gives, a line each: its number and its words.

use planner::Refusal;

fn main() {
    for number in 1..=30 {
        if let Some(refusal) = Refusal::from_number(number) {
            println!("{refusal}");
        }
    }
}
