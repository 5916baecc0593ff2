//! A second implementation of the planner, the command program, the packet on
//! air and the plan checker, to test the first against: written from the
//! owner's papers, never from the code, all but the checker before this annex
//! (docs/ANNEX.md). The clauses that its comments give were put in afterwards.

mod calls;
mod cases;
mod checker;
mod count;
mod generate;
mod packet;
mod planner;
mod program;
mod random_calls;
mod rounds;
mod selftest;

use std::io::{self, Read, Write};
use std::process::ExitCode;

const USAGE: &str = "\
oracle run                  answers the commands on standard input
oracle generate SEED LINES  prints a random script of that many lines
oracle count                counts the answers in an output on standard input
oracle rounds               counts the rounds of a script on standard input that
                            would list other ids, or the same in another order,
                            by due time and then id alone, and those at the cap
oracle pack START B [ID ..] writes the packet of a round, as bytes; if it is
                            refused, the answer to standard error alone
oracle unpack               reads a packet on standard input and prints
                            ANSWER,START,B,N and ,ID for each id
oracle cases                answers the lines of vectors/library on standard
                            input, those of crates/packet_cases among them
oracle calls SEED N         prints a list of N random calls on one planner with
                            their answers, as crates/random_calls does; SEED
                            is 1 to 2,147,483,646
oracle selftest             checks the worked cases and itself
";

fn main() -> ExitCode {
    let arguments: Vec<String> = std::env::args().skip(1).collect();
    let words: Vec<&str> = arguments.iter().map(String::as_str).collect();
    match words.as_slice() {
        ["run"] => print(program::run(&input()).as_bytes()),
        ["count"] => {
            let output = input();
            let text = String::from_utf8_lossy(&output);
            print(count::Counts::of(&text).text().as_bytes())
        }
        ["rounds"] => print(rounds::Rounds::of(&input()).text().as_bytes()),
        ["generate", seed, lines] => match (seed.parse(), lines.parse()) {
            (Ok(seed), Ok(lines)) => print(&generate::script(seed, lines)),
            _ => usage(),
        },
        ["calls", seed, wanted] => match (seed.parse(), wanted.parse()) {
            (Ok(seed), Ok(wanted)) if random_calls::SEEDS.contains(&seed) => {
                print(random_calls::text(seed, wanted).as_bytes())
            }
            _ => usage(),
        },
        ["pack", start, slots, ids @ ..] => pack(start, slots, ids),
        ["unpack"] => print(packet::text(&input()).as_bytes()),
        ["cases"] => print(cases::answers(&String::from_utf8_lossy(&input())).as_bytes()),
        ["selftest"] => selftest::run(),
        _ => usage(),
    }
}

/// Prints the packet of these values, or its refusal. The start and B are
/// 32-bit numbers and the ids 16-bit numbers; anything else is no packet at
/// all.
fn pack(start: &str, slots: &str, ids: &[&str]) -> ExitCode {
    let ids: Result<Vec<u16>, _> = ids.iter().map(|id| id.parse()).collect();
    let (Ok(start), Ok(slots), Ok(ids)) = (start.parse::<u32>(), slots.parse::<u32>(), ids) else {
        return usage();
    };
    let mut bytes = vec![0; packet::IDS_FROM + 2 * ids.len()];
    match packet::write(start.into(), slots.into(), &ids, &mut bytes) {
        0 => print(&bytes),
        answer => {
            eprintln!("{answer}");
            ExitCode::FAILURE
        }
    }
}

/// All of standard input, as bytes.
fn input() -> Vec<u8> {
    let mut bytes = Vec::new();
    io::stdin()
        .read_to_end(&mut bytes)
        .expect("standard input can be read");
    bytes
}

/// Prints bytes as they are.
fn print(bytes: &[u8]) -> ExitCode {
    match io::stdout().write_all(bytes) {
        Ok(()) => ExitCode::SUCCESS,
        Err(_) => ExitCode::FAILURE,
    }
}

fn usage() -> ExitCode {
    eprint!("{USAGE}");
    ExitCode::from(2)
}
