// What checking a plan costs with the proved library, beside the same check by hand in Rust:
//   hand     made for speed
//   plain    a rule after the other, as the annex has them
// The plans are the planner's own rounds as packets, from the tables of bench/calls on. All must give the same verdict before anything is timed.
// The two by hand take the planner to be sound, the library tests that once a call; so a cost is of a round: the cost of a plan, less that of a plan
// of no bytes, by the rounds of the plan.
//   make FOLDER          makes the plans there, which the next two read
//   time FOLDER          rounds checked a second
//   count FOLDER TABLE   makes each check once, for counting instructions
//   agree PLANS          random plans with random edits, whose verdicts must be the same; and the library's, with a planner damaged, must be 5 just
//                        where its other calls answer 5
use std::hint::black_box;
use std::time::{Duration, Instant};

#[path = "plans/edits.rs"]
mod edits;
#[path = "plans/hand.rs"]
mod hand;
#[path = "plans/plain.rs"]
mod plain;

// shared with bench/calls, which uses more of them
#[allow(dead_code)]
#[path = "planner/host.rs"]
mod host;
#[allow(dead_code)]
#[path = "planner/loads.rs"]
mod loads;
#[allow(dead_code)]
#[path = "planner/proved.rs"]
mod proved;

use host::{mixed, Host, Offer};
use planner::raw;
use proved::{hold, Planner};

const TABLES: [&str; 7] = ["8-light", "8-full", "64-light", "64-full", "64-messages", "64-alike", "63-slots"];
const LENGTHS: [usize; 4] = [0, 1_000, 10_000, 100_000];

// The number of the first round that breaks a rule, 0 if none does; the planner is sound.
type Check = fn(&Planner, &[u8]) -> u32;
const CHECKS: [(&str, Check); 3] = [("proved", proved_check), ("hand", hand::check), ("plain", plain::check)];

fn verdict(p: &Planner, plan: &[u8]) -> raw::Verdict {
    // SAFETY: a planner and a slice of that length, both borrowed.
    unsafe { raw::planner_check(p, plan.as_ptr(), plan.len()) }
}

fn proved_check(p: &Planner, plan: &[u8]) -> u32 {
    let verdict = verdict(p, plan);
    assert_eq!(verdict.answer, 0, "a sound planner");
    verdict.round
}

// A round as a packet, behind those before.
pub fn put_packet(plan: &mut Vec<u8>, start: u32, slots: u32, numbers: &[u16]) {
    plan.extend(start.to_be_bytes());
    plan.extend([slots as u8, numbers.len() as u8]);
    plan.extend(numbers.iter().flat_map(|number| number.to_be_bytes()));
}

// A planner, and rounds as packets.
struct Plan {
    planner: Planner,
    bytes: Vec<u8>,
}

impl Plan {
    // The planner's own rounds, the most that are measured. With messages, 32 of them wait before each.
    fn of(planner: Planner) -> Plan {
        let (mut going, mut bytes, mut buffer) = (planner, Vec::new(), [0u16; 64]);
        for _ in 0..LENGTHS[LENGTHS.len() - 1] {
            if planner.messages == 1 {
                going.fill_waiting();
            }
            let held = hold(&mut going, &mut buffer);
            assert_eq!(held.answer, 0);
            put_packet(&mut bytes, held.start, planner.slots, &buffer[..held.n as usize]);
        }
        Plan { planner, bytes }
    }

    // The first rounds of one that was made.
    fn read(folder: &str, table: &str, rounds: usize) -> Plan {
        let file = std::fs::read(format!("{folder}/{table}")).expect("a plan that was made");
        let (planner, bytes) = file.split_first_chunk::<{ raw::BYTES }>().expect("a planner's bytes");
        let length = (0..rounds).fold(0, |at, _| at + 6 + 2 * usize::from(bytes[at + 5]));
        Plan { planner: Planner::from_bytes(planner), bytes: bytes[..length].to_vec() }
    }

    fn write(&self, folder: &str, table: &str) {
        let file = [&self.planner.as_bytes()[..], &self.bytes].concat();
        std::fs::write(format!("{folder}/{table}"), file).expect("a plan is written");
    }

    // How many numbers are in a round, ids and messages.
    fn numbers(&self, rounds: usize) -> f64 {
        (self.bytes.len() - 6 * rounds) as f64 / 2.0 / rounds.max(1) as f64
    }
}

// Ids 1, 2, 1,025, 1,026 and so on for 1, 2, 3 and 4: they have two remainders by 1,024, the worst for the proved check. They rise as those before.
fn with_alike_ids(mut p: Planner) -> Planner {
    let alike = |id: u32| 1 + (id - 1) % 2 + (id - 1) / 2 * 1024;
    p.table.streams.iter_mut().filter(|s| s.id > 0).for_each(|s| s.id = alike(s.id));
    p.queue.ids.iter_mut().filter(|id| **id > 0).for_each(|id| *id = alike(u32::from(*id)) as u16);
    p
}

// The planner of a table of bench/calls; 64-messages is 64-light with a slot more, for messages, 64-alike 64-light with other ids.
fn planner_of(table: &str) -> Planner {
    let of = |name: &str| loads::all(Some(name)).first().expect("a table").filled();
    match table {
        "64-messages" => {
            let light = of("64-light");
            Planner { slots: light.slots + 1, messages: 1, ..light }
        }
        "64-alike" => with_alike_ids(of("64-light")),
        _ => of(table),
    }
}

#[inline(never)]
fn counted(check: Check, p: &Planner, plan: &[u8]) -> u32 {
    check(p, plan)
}

// The end of a count, for the counter to find.
#[inline(never)]
#[no_mangle]
extern "C" fn run_ended() {
    black_box(());
}

// Each line says whose check of what has been made.
fn count(folder: &str, table: &str) {
    for rounds in LENGTHS {
        let plan = Plan::read(folder, table, rounds);
        for (name, check) in CHECKS {
            assert_eq!(counted(black_box(check), &plan.planner, &plan.bytes), 0, "{name}");
            println!("{table} {rounds} {:.1} {name}", plan.numbers(rounds));
            run_ended();
        }
    }
}

fn seconds(check: Check, plan: &Plan) -> f64 {
    let began = Instant::now();
    assert_eq!(black_box(check)(&plan.planner, black_box(&plan.bytes)), 0);
    began.elapsed().as_secs_f64()
}

// The checks are made in turn, for two seconds; the lower quartile of each one's times counts.
fn row(folder: &str, table: &str, rounds: usize) {
    let plan = Plan::read(folder, table, rounds);
    let none = Plan { planner: plan.planner, bytes: vec![] };
    let mut times = [const { Vec::new() }; CHECKS.len()];
    let began = Instant::now();
    while began.elapsed() < Duration::from_secs(2) {
        for (times, (_, check)) in times.iter_mut().zip(CHECKS) {
            times.push(seconds(check, &plan) - seconds(check, &none));
        }
    }
    print!("{table:<12} {rounds:>7} {:>8.1}", plan.numbers(rounds));
    let times = times.map(|mut times| {
        times.sort_by(f64::total_cmp);
        times[times.len() / 4]
    });
    for time in times {
        print!(" {:>11.2}", rounds as f64 / time / 1e6);
    }
    println!(" {:>12.2} {:>12.2}", times[0] / times[1], times[0] / times[2]);
}

fn main() {
    let words: Vec<String> = std::env::args().skip(1).collect();
    let words: Vec<&str> = words.iter().map(String::as_str).collect();
    match words[..] {
        ["make", folder] => TABLES.iter().for_each(|table| Plan::of(planner_of(table)).write(folder, table)),
        ["time", folder] => {
            println!("millions of rounds checked a second; the ratios are of times");
            print!("{:<12} {:>7} {:>8}", "table", "rounds", "numbers");
            println!(" {:>11} {:>11} {:>11} {:>12} {:>12}", "proved", "hand", "plain", "proved/hand", "proved/plain");
            for table in TABLES {
                for rounds in &LENGTHS[1..] {
                    row(folder, table, *rounds);
                }
            }
        }
        ["count", folder, table] => count(folder, table),
        ["agree", plans] => edits::agree(plans.parse().expect("how many plans")),
        _ => panic!("words: make FOLDER, time FOLDER, count FOLDER TABLE, or agree PLANS"),
    }
}
