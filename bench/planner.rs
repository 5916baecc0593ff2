// What a call of the proved planner costs, everything tested, beside others that do the same work on the same tables:
//   limit      the same full test of the same bytes, by hand in unchecked Rust: what a proved call is held to;
//   fast       the Blink paper's Algorithms 1 to 4 on a bucket queue made for speed, with nothing tested;
//   plain      the same algorithms as they stand there, with nothing tested;
//   analytic   the sums of the rules, with a division for each stream and each length that can matter.
// All must answer alike, and `limit` must leave the very bytes that the proved call leaves, before anything is timed. Messages are known to the first
// two alone.
// Short batches of each are taken in turn, in one process; a time is per call, the lower quartile of its batches.
//   TABLE            that table alone
//   growth           rounds where one of streams, slots, busy length and superframe is varied, streams at two loads
//   tables           the tables' periods
//   check            random calls and damaged planners, the proved calls beside `limit`
//   TABLE count TURNS   runs each call alone, for counting instructions; with growth for TABLE its rounds
use std::hint::black_box;
use std::time::{Duration, Instant};

#[path = "planner/analytic.rs"]
mod analytic;
#[path = "planner/check.rs"]
mod check;
#[path = "planner/fast.rs"]
mod fast;
#[path = "planner/growth.rs"]
mod growth;
#[path = "planner/host.rs"]
mod host;
#[path = "planner/limit.rs"]
mod limit;
#[path = "planner/loads.rs"]
mod loads;
#[path = "planner/plain.rs"]
mod plain;
#[path = "planner/proved.rs"]
mod proved;
#[path = "planner/tables.rs"]
mod tables;

use host::{mixed, Host, Offer};
use tables::{Case, Hosts};

#[derive(Clone, Copy)]
pub enum Call {
    Round,
    // with 32 messages waiting
    FullRound,
    Add(Offer),
    Remove(u32),
    Send(u32),
}

impl Call {
    pub fn of<H: Host>(self, host: &mut H) -> u32 {
        match self {
            Call::Round | Call::FullRound => host.round(),
            Call::Add(offer) => host.add(offer),
            Call::Remove(id) => host.remove(id),
            Call::Send(number) => host.send(number),
        }
    }

    fn is_round(self) -> bool {
        matches!(self, Call::Round | Call::FullRound)
    }

    fn has_messages(self) -> bool {
        matches!(self, Call::FullRound | Call::Send(_))
    }

    // What stands before each call of a run and is not part of it.
    fn prepare<H: Host>(self, host: &mut H) {
        if matches!(self, Call::FullRound) {
            host.fill_waiting();
        }
    }
}

// The rounds of a run follow each other; every other call is made of a fresh copy.
fn run<H: Host>(going: &mut H, call: Call, turns: u32) -> u32 {
    (0..turns).fold(0u32, |sum, _| {
        call.prepare(going);
        let answer = if call.is_round() { call.of(going) } else { call.of(black_box(&mut going.clone())) };
        sum.wrapping_mul(31).wrapping_add(answer)
    })
}

fn copies<H: Host>(host: &H, turns: u32) {
    for _ in 0..turns {
        black_box(black_box(host).clone());
    }
}

fn nanoseconds(turns: u32, work: impl FnOnce(u32)) -> f64 {
    let began = Instant::now();
    work(black_box(turns));
    began.elapsed().as_nanos() as f64 / f64::from(turns)
}

// A host in the midst of its batches: its times so far, and those of the copies that its calls are made of.
struct Timed<H: Host> {
    going: H,
    turns: u32,
    calls: Vec<f64>,
    copies: Vec<f64>,
}

fn lower_quartile(times: &[f64]) -> f64 {
    let mut times = times.to_vec();
    times.sort_by(f64::total_cmp);
    times.get(times.len() / 4).copied().unwrap_or(0.0)
}

impl<H: Host> Timed<H> {
    // A batch of calls takes about 30 microseconds; of calls that take longer there are two.
    fn of(host: &H, call: Call) -> Timed<H> {
        let mut trial = host.clone();
        let once = nanoseconds(3, |n| {
            black_box(run(&mut trial, call, n));
        });
        Timed { going: host.clone(), turns: ((30_000.0 / once) as u32).clamp(2, 64), calls: vec![], copies: vec![] }
    }

    fn batch(&mut self, call: Call) {
        if !call.is_round() {
            self.copies.push(nanoseconds(self.turns, |n| copies(&self.going, n)));
        }
        self.calls.push(nanoseconds(self.turns, |n| {
            black_box(run(&mut self.going, call, n));
        }));
    }

    fn time(&self) -> f64 {
        lower_quartile(&self.calls) - lower_quartile(&self.copies)
    }
}

// Whether there are batches to be taken still.
fn goes_on(batches: u32, began: Instant) -> bool {
    batches < 40 || (batches < 1000 && began.elapsed() < Duration::from_millis(400))
}

// Nanoseconds of proved, limit, fast, plain and analytic.
fn times(hosts: &Hosts, call: Call) -> [f64; 5] {
    let mut proved = Timed::of(&hosts.proved, call);
    let mut limit = Timed::of(&hosts.limit, call);
    let mut fast = Timed::of(&hosts.fast, call);
    let mut plain = Timed::of(&hosts.plain, call);
    let mut analytic = Timed::of(&hosts.analytic, call);
    let began = Instant::now();
    let mut batches = 0;
    while goes_on(batches, began) {
        proved.batch(call);
        limit.batch(call);
        fast.batch(call);
        plain.batch(call);
        if batches % 20 == 0 {
            analytic.batch(call);
        }
        batches += 1;
    }
    [proved.time(), limit.time(), fast.time(), plain.time(), analytic.time()]
}

// Those of proved and limit alone, for what is about messages.
fn times_with_messages(hosts: &Hosts, call: Call) -> [f64; 2] {
    let mut proved = Timed::of(&hosts.proved, call);
    let mut limit = Timed::of(&hosts.limit, call);
    let began = Instant::now();
    let mut batches = 0;
    while goes_on(batches, began) {
        proved.batch(call);
        limit.batch(call);
        batches += 1;
    }
    [proved.time(), limit.time()]
}

// Whether all answer alike, and `limit` leaves the same bytes, call by call.
fn compare(hosts: &Hosts, call: Call, name: &str) {
    let mut h = hosts.clone();
    for turn in 0..if call.is_round() { 400 } else { 1 } {
        call.prepare(&mut h.proved);
        call.prepare(&mut h.limit);
        let answer = call.of(&mut h.proved);
        assert_eq!(answer, call.of(&mut h.limit), "limit, {name}");
        assert!(h.proved.as_bytes() == h.limit.0.as_bytes(), "limit's bytes, {name}");
        if call.has_messages() {
            continue;
        }
        assert_eq!(answer, call.of(&mut h.fast), "fast, {name}");
        assert_eq!(answer, call.of(&mut h.plain), "plain, {name}");
        if turn < 8 {
            assert_eq!(answer, call.of(&mut h.analytic), "analytic, {name}");
        }
    }
}

// What a row says of a call: nanoseconds and ratios.
fn measure(table: &str, busy: u32, case: &Case) {
    compare(&case.hosts, case.call, &format!("{table} {}", case.name));
    print!("{table:<18} {busy:>5} {:<17}", case.name);
    if case.call.has_messages() {
        let [proved, limit] = times_with_messages(&case.hosts, case.call);
        println!(" {proved:>8.0} {limit:>8.0} {:>8} {:>8} {:>9} {:>8.2} {:>8} {:>8} {:>9}", "-", "-", "-", proved / limit, "-", "-", "-");
        return;
    }
    let [proved, limit, fast, plain, analytic] = times(&case.hosts, case.call);
    let ratio = |other: f64| proved / other;
    print!(" {proved:>8.0} {limit:>8.0} {fast:>8.0} {plain:>8.0}");
    // the analytic way has nothing to compute when a stream goes
    match case.call {
        Call::Remove(_) => print!(" {:>9}", "-"),
        _ => print!(" {analytic:>9.0}"),
    }
    print!(" {:>8.2} {:>8.2} {:>8.2}", ratio(limit), ratio(fast), ratio(plain));
    match case.call {
        Call::Remove(_) => println!(" {:>9}", "-"),
        _ => println!(" {:>9.4}", ratio(analytic)),
    }
}

// A round's cost where one thing is varied.
fn growth() {
    println!("{:<8} {:>7} {:>5} {:>5} {:>5} {:>8} {:>8} {:>8} {:>8}", "varied", "streams", "slots", "busy", "frame", "proved", "limit", "fast", "plain");
    for p in growth::points() {
        compare(&p.hosts, Call::Round, &p.said());
        let [proved, limit, fast, plain, _] = times(&p.hosts, Call::Round);
        println!("{} {proved:>8.0} {limit:>8.0} {fast:>8.0} {plain:>8.0}", p.said());
    }
}

// One call, under a name that an instruction counter can be told; and the end of a run of calls.
#[inline(never)]
fn counted<H: Host>(host: &mut H, call: Call) -> u32 {
    call.of(host)
}

#[inline(never)]
#[no_mangle]
extern "C" fn run_ended() {
    black_box(());
}

fn count<H: Host>(host: &H, name: &str, case: &str, call: Call, turns: u32) {
    let mut going = host.clone();
    let mut sum = 0u32;
    for _ in 0..turns {
        if !call.is_round() {
            going = black_box(host.clone());
        }
        call.prepare(&mut going);
        sum = sum.wrapping_add(counted(&mut going, call));
    }
    black_box(sum);
    println!("{name} {case}");
    run_ended();
}

fn count_all(hosts: &Hosts, case: &str, call: Call, turns: u32) {
    count(&hosts.proved, "proved", case, call, turns);
    count(&hosts.limit, "limit", case, call, turns);
    if call.has_messages() {
        return;
    }
    count(&hosts.fast, "fast", case, call, turns);
    count(&hosts.plain, "plain", case, call, turns);
}

fn main() {
    let words: Vec<String> = std::env::args().skip(1).collect();
    if let [table, _, turns] = &words[..] {
        let turns = turns.parse().expect("turns");
        if table == "growth" {
            for p in &growth::points() {
                count_all(&p.hosts, &p.said(), Call::Round, turns);
            }
            return;
        }
        for case in &loads::all(Some(table)).first().expect("a table").cases() {
            count_all(&case.hosts, case.name, case.call, turns);
        }
        return;
    }
    match words.first().map(String::as_str) {
        Some("growth") => return growth(),
        Some("check") => return check::check(),
        Some("tables") => {
            for t in loads::all(None) {
                println!("{:<18} slots {:>2}, gap {:>3}, busy {:>4}, periods {:?}", t.name, t.slots, t.gap, t.busy, t.periods);
            }
            return;
        }
        _ => {}
    }
    let wanted = loads::all(words.first().map(String::as_str));
    assert!(!wanted.is_empty(), "no such table: the word `tables` lists them");
    println!(
        "{:<18} {:>5} {:<17} {:>8} {:>8} {:>8} {:>8} {:>9} {:>8} {:>8} {:>8} {:>9}",
        "table", "busy", "call", "proved", "limit", "fast", "plain", "analytic", "/limit", "/fast", "/plain", "/analytic"
    );
    for table in &wanted {
        for case in &table.cases() {
            measure(&table.name, table.busy, case);
        }
    }
}
