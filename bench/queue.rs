// What a call of the proved queue costs, beside a plain bucket queue that checks nothing: no test of the queue, no refusals, no bounds.
// Both are built for release and run the same sequences with 63 or 64 entries, in turn in one process. Their checksums must agree first.
// A time is per turn, the lower quartile of many short runs. That of runs of no turns, which only fill the queue, is taken off.
// With `KIND HOST TURNS` it makes that run alone, for counting instructions.
use std::hint::black_box;
use std::process::exit;
use std::time::Instant;

const TURNS: u32 = 500;
const RUNS: usize = 600;

// The proved runs, in crates/queue_runs.
mod proved {
    extern "C" {
        pub fn run_soundness(turns: u32) -> u32;
        pub fn run_insert_delete(turns: u32) -> u32;
        pub fn run_move(turns: u32) -> u32;
        pub fn run_next(turns: u32) -> u32;
    }
}

// A plain queue of the same layout: places 0 to 63, then the heads of 480 buckets, each a doubly linked list ordered by release, then id.
mod plain {
    pub struct Queue {
        ids: [u16; 64],
        keys: [u32; 64],
        next: [u16; 544],
        prev: [u16; 544],
        releases: [u32; 64],
    }

    // Reads and writes with no test of the index, as in C.
    fn get<T: Copy>(of: &[T], i: usize) -> T {
        unsafe { *of.get_unchecked(i) }
    }

    fn set<T>(of: &mut [T], i: usize, value: T) {
        unsafe { *of.get_unchecked_mut(i) = value }
    }

    fn head_of(key: u32) -> usize {
        64 + key as usize % 480
    }

    impl Queue {
        pub fn empty() -> Queue {
            let alone = std::array::from_fn(|x| x as u16);
            Queue { ids: [0; 64], keys: [0; 64], next: alone, prev: alone, releases: [0; 64] }
        }

        // The place of an id, which must be there; of id 0, the first free place.
        fn place_of(&self, id: u32) -> usize {
            let mut x = 0;
            while get(&self.ids, x) as u32 != id {
                x += 1;
            }
            x
        }

        // Release and id of a place in one number.
        fn rank(&self, x: usize) -> u64 {
            u64::from(get(&self.releases, x)) << 16 | u64::from(get(&self.ids, x))
        }

        // Links a place into its bucket before the first later release, or larger id of the same release.
        fn link(&mut self, x: usize) {
            let own = self.rank(x);
            let mut n = get(&self.next, head_of(get(&self.keys, x))) as usize;
            while n < 64 && self.rank(n) < own {
                n = get(&self.next, n) as usize;
            }
            let p = get(&self.prev, n);
            set(&mut self.next, p as usize, x as u16);
            set(&mut self.next, x, n as u16);
            set(&mut self.prev, n, x as u16);
            set(&mut self.prev, x, p);
        }

        fn unlink(&mut self, x: usize) {
            let p = get(&self.prev, x);
            let n = get(&self.next, x);
            set(&mut self.next, p as usize, n);
            set(&mut self.prev, n as usize, p);
        }

        pub fn insert(&mut self, id: u32, key: u32, release: u32) {
            let x = self.place_of(0);
            set(&mut self.ids, x, id as u16);
            set(&mut self.keys, x, key);
            set(&mut self.releases, x, release);
            self.link(x);
        }

        pub fn delete(&mut self, id: u32) {
            let x = self.place_of(id);
            self.unlink(x);
            set(&mut self.ids, x, 0);
        }

        pub fn move_by(&mut self, id: u32, amount: u32) {
            let x = self.place_of(id);
            self.unlink(x);
            let (key, release) = (get(&self.keys, x) + amount, get(&self.releases, x) + amount);
            set(&mut self.keys, x, key);
            set(&mut self.releases, x, release);
            self.link(x);
        }

        // Without a branch, so that the compiler can take several places at once.
        fn least_key(&self) -> u32 {
            let places = self.ids.iter().zip(&self.keys);
            places.map(|(id, key)| if *id == 0 { u32::MAX } else { *key }).fold(u32::MAX, u32::min)
        }

        // The first entry after a key, a release and an id, or zeros.
        pub fn next(&self, key: u32, release: u32, id: u32) -> (u32, u32, u32) {
            let mut head = head_of(key.max(self.least_key()));
            for _ in 0..480 {
                let mut n = get(&self.next, head) as usize;
                while n < 64 {
                    let there = (get(&self.keys, n), get(&self.releases, n), get(&self.ids, n) as u32);
                    if there > (key, release, id) {
                        return there;
                    }
                    n = get(&self.next, n) as usize;
                }
                head = if head == 543 { 64 } else { head + 1 };
            }
            (0, 0, 0)
        }
    }
}

// The same sequences over the plain queue; a call of the proved one that is not refused answers 0.
mod runs {
    use super::plain::Queue;

    fn mix(sum: u32, x: u32) -> u32 {
        (sum % 65536 * 31 + x % 65536) % 65536
    }

    fn filled(n: u32) -> Queue {
        let mut q = Queue::empty();
        for id in 1..=n {
            q.insert(id, 1000 + id % 32 * 13, id % 37);
        }
        q
    }

    fn walk_sum(q: &Queue, turns: u32) -> u32 {
        let (mut sum, mut key, mut release, mut id) = (0, 0, 0, 0);
        for _ in 0..turns {
            (key, release, id) = q.next(key, release, id);
            sum = mix(mix(mix(sum, key), release), id);
        }
        sum
    }

    // A plain queue has no test: this is only the checksum of a test that holds at every turn.
    pub fn soundness(turns: u32) -> u32 {
        (0..turns).fold(0, |sum, _| mix(sum, 1))
    }

    pub fn insert_delete(turns: u32) -> u32 {
        let mut q = filled(63);
        for i in 0..turns {
            q.insert(64, 1000 + i % 400, i % 37);
            q.delete(64);
        }
        mix(0, walk_sum(&q, 64))
    }

    pub fn move_by(turns: u32) -> u32 {
        let mut q = filled(64);
        for i in 0..turns {
            q.move_by(i % 64 + 1, 7);
        }
        mix(0, walk_sum(&q, 65))
    }

    pub fn next(turns: u32) -> u32 {
        walk_sum(&filled(64), turns)
    }
}

struct Kind {
    name: &'static str,
    proved: unsafe extern "C" fn(u32) -> u32,
    plain: fn(u32) -> u32,
    has_plain_call: bool,
}

impl Kind {
    // The proved runs take every number of turns.
    fn run_proved(&self, turns: u32) -> u32 {
        unsafe { (self.proved)(turns) }
    }

    fn run_plain(&self, turns: u32) -> u32 {
        (self.plain)(turns)
    }

    fn agrees(&self) -> bool {
        [0, 1, 63, 64, 65, 1000, 10_000].iter().all(|t| self.run_proved(*t) == self.run_plain(*t))
    }

    // The proved and the plain run, timed one after the other.
    fn time(&self, times: &mut Times) {
        times.proved.take(|turns| self.run_proved(turns));
        times.plain.take(|turns| self.run_plain(turns));
    }

    fn print_row(&self, times: &Times) {
        let (proved, plain) = (times.proved.per_turn(), times.plain.per_turn());
        if self.has_plain_call {
            println!("{:<20} {:>10.1} {:>13.1} {:>7.1}", self.name, proved, plain, proved / plain);
        } else {
            println!("{:<20} {:>10.1} {:>13} {:>7}", self.name, proved, "-", "-");
        }
    }
}

// Nanoseconds of runs, and of runs of no turns.
#[derive(Default)]
struct Runs {
    whole: Vec<f64>,
    empty: Vec<f64>,
}

impl Runs {
    fn take(&mut self, run: impl Fn(u32) -> u32) {
        self.whole.push(nanoseconds(&run, TURNS));
        self.empty.push(nanoseconds(&run, 0));
    }

    fn per_turn(&self) -> f64 {
        (lower_quartile(&self.whole) - lower_quartile(&self.empty)) / f64::from(TURNS)
    }
}

#[derive(Default)]
struct Times {
    proved: Runs,
    plain: Runs,
}

// Every kind has one run in each round, so a slow spell of the machine meets all rows alike.
fn measure<const N: usize>(kinds: &[Kind; N]) -> [Times; N] {
    let mut times = std::array::from_fn(|_| Times::default());
    for _ in 0..RUNS {
        for (kind, its_times) in kinds.iter().zip(&mut times) {
            kind.time(its_times);
        }
    }
    times
}

fn nanoseconds(run: &impl Fn(u32) -> u32, turns: u32) -> f64 {
    let start = Instant::now();
    black_box(run(black_box(turns)));
    start.elapsed().as_nanos() as f64
}

fn lower_quartile(times: &[f64]) -> f64 {
    let mut times = times.to_vec();
    times.sort_by(f64::total_cmp);
    times[times.len() / 4]
}

fn main() {
    let kinds = [
        Kind { name: "soundness test", proved: proved::run_soundness, plain: runs::soundness, has_plain_call: false },
        Kind { name: "insert and delete", proved: proved::run_insert_delete, plain: runs::insert_delete, has_plain_call: true },
        Kind { name: "move", proved: proved::run_move, plain: runs::move_by, has_plain_call: true },
        Kind { name: "next", proved: proved::run_next, plain: runs::next, has_plain_call: true },
    ];
    let words: Vec<String> = std::env::args().skip(1).collect();
    if let [name, host, turns] = &words[..] {
        let kind = kinds.iter().find(|k| k.name == name).expect("a kind");
        let turns = turns.parse().expect("turns");
        println!("{}", if host == "proved" { kind.run_proved(turns) } else { kind.run_plain(turns) });
        return;
    }
    for kind in &kinds {
        if !kind.agrees() {
            println!("{}: the checksums differ", kind.name);
            exit(1);
        }
    }
    let times = measure(&kinds);
    println!("{:<20} {:>10} {:>13} {:>7}", "operation", "proved ns", "unchecked ns", "ratio");
    for (kind, its_times) in kinds.iter().zip(&times) {
        kind.print_row(its_times);
    }
}
