//! Random scripts for the command program. A script is a row of stretches of
//! different kinds, each begun with an O line. The oracle's own program runs
//! alongside, so that a stretch knows now, the ids held and the answers.

use crate::count;
use crate::planner::{Planner, Stream, LAST_START};
use crate::program::Program;

/// Of a hundred lines, about so many are damaged.
const DAMAGED: u64 = 7;

/// The splitmix64 sequence of a seed.
pub struct Random(u64);

impl Random {
    pub fn new(seed: u64) -> Random {
        Random(seed)
    }

    pub fn next(&mut self) -> u64 {
        self.0 = self.0.wrapping_add(0x9e37_79b9_7f4a_7c15);
        let mut z = self.0;
        z = (z ^ (z >> 30)).wrapping_mul(0xbf58_476d_1ce4_e5b9);
        z = (z ^ (z >> 27)).wrapping_mul(0x94d0_49bb_1331_11eb);
        z ^ (z >> 31)
    }

    /// A number from 0 to n - 1.
    pub fn below(&mut self, n: u64) -> u64 {
        self.next() % n
    }

    /// A number from a to b.
    pub fn between(&mut self, a: u64, b: u64) -> u64 {
        a + self.below(b - a + 1)
    }

    /// True so many times in a hundred.
    pub fn chance(&mut self, percent: u64) -> bool {
        self.below(100) < percent
    }

    /// Puts a list in a random order.
    fn shuffle<T>(&mut self, list: &mut [T]) {
        for last in (1..list.len()).rev() {
            let other = self.between(0, last as u64) as usize;
            list.swap(last, other);
        }
    }

    /// One of a list.
    pub fn pick<T: Copy>(&mut self, list: &[T]) -> T {
        list[self.below(list.len() as u64) as usize]
    }
}

/// A script in the making.
struct Script {
    random: Random,
    program: Program,
    lines: Vec<Vec<u8>>,
    wanted: usize,
}

/// The kinds of stretches.
const KINDS: [fn(&mut Script); 26] = [
    uniform,
    uniform,
    demand_edge,
    demand_edge,
    start_edge,
    start_edge,
    crowd,
    wide,
    busy,
    busy,
    busy,
    clock_end,
    long_runs,
    churn,
    bad_values,
    closed,
    no_stream,
    no_stream,
    no_stream,
    no_stream_at_end,
    no_stream_at_end,
    near_cap,
    ties,
    ties,
    ties,
    ties,
];

/// A script of so many lines, the same for the same seed. One script in four
/// lacks the last LF.
pub fn script(seed: u64, wanted: usize) -> Vec<u8> {
    let mut script = Script {
        random: Random::new(seed),
        program: Program::new(),
        lines: Vec::new(),
        wanted,
    };
    let unended = script.random.chance(25);
    before_the_first_open(&mut script);
    while !script.full() {
        for kind in script.shuffled_kinds() {
            kind(&mut script);
        }
    }
    let mut bytes = script.lines.join(&b'\n');
    if wanted > 0 && !(unended && script.lines.last().is_some_and(|line| !line.is_empty())) {
        bytes.push(b'\n');
    }
    bytes
}

impl Script {
    fn full(&self) -> bool {
        self.lines.len() >= self.wanted
    }

    fn planner(&self) -> &Planner {
        &self.program.planner
    }

    fn now(&self) -> u64 {
        self.planner().now()
    }

    fn shuffled_kinds(&mut self) -> Vec<fn(&mut Script)> {
        let mut kinds = KINDS.to_vec();
        self.random.shuffle(&mut kinds);
        kinds
    }

    /// Writes a line as it is and returns the answer; nothing once the script
    /// is full.
    fn put(&mut self, line: Vec<u8>) -> usize {
        if self.full() {
            return 20;
        }
        let printed = self.program.line(&line);
        self.lines.push(line);
        count::number(&printed)
    }

    /// Writes a line, now and then with damaged lines made of it before it.
    fn say(&mut self, line: String) -> usize {
        while self.random.chance(DAMAGED) {
            let damaged = damaged(&mut self.random, line.as_bytes());
            self.put(damaged);
        }
        self.put(line.into_bytes())
    }

    fn open(&mut self, slots: u64, superframe: u64, gap: u64, time: u64) -> usize {
        self.say(format!("O,{slots},{superframe},{gap},{time}"))
    }

    fn add(&mut self, id: u64, start: u64, period: u64, deadline: u64) -> usize {
        self.say(format!("A,{id},{start},{period},{deadline}"))
    }

    fn remove(&mut self, id: u64) -> usize {
        self.say(format!("D,{id}"))
    }

    fn round(&mut self) -> usize {
        self.say(String::from("R"))
    }

    /// Rounds until one is refused, at most so many.
    fn rounds(&mut self, most: u64) -> usize {
        for _ in 0..most {
            let answer = self.round();
            if answer != 0 {
                return answer;
            }
        }
        0
    }

    /// Some rounds, from none to so many.
    fn some_rounds(&mut self, most: u64) {
        let rounds = self.random.between(0, most);
        self.rounds(rounds);
    }

    /// A good id not held.
    fn free_id(&mut self) -> u64 {
        let most = self.random.pick(&[99, 99, 999, 32_767]);
        loop {
            let id = self.random.between(1, most);
            if !self.planner().holds(id) {
                return id;
            }
        }
    }

    /// An id held, if there is one.
    fn held_id(&mut self) -> Option<u64> {
        let ids: Vec<u64> = self.planner().streams.iter().map(|s| s.id).collect();
        (!ids.is_empty()).then(|| self.random.pick(&ids))
    }

    /// A period that divides F, from the least to the most given, 1 if none.
    fn period(&mut self, least: u64, most: u64) -> u64 {
        let periods = divisors(self.planner().superframe, least, most);
        if periods.is_empty() {
            1
        } else {
            self.random.pick(&periods)
        }
    }

    fn deadline(&mut self, period: u64) -> u64 {
        match self.random.below(6) {
            0 => 1,
            1 | 2 => period,
            _ => self.random.between(1, period),
        }
    }

    /// A start from now to now + 239, its two ends and the near more often.
    fn start(&mut self) -> u64 {
        let after = match self.random.below(10) {
            0 | 1 => 0,
            2 => 239,
            3..=5 => self.random.between(0, 8),
            _ => self.random.between(0, 239),
        };
        self.now() + after
    }

    /// Offers any well-formed stream.
    fn add_any(&mut self, least: u64, most: u64) -> usize {
        let id = self.free_id();
        let start = self.start();
        let period = self.period(least, most);
        let deadline = self.deadline(period);
        self.add(id, start, period, deadline)
    }

    /// Offers a stream due one after its release, which is now or soon after.
    fn add_urgent(&mut self) -> usize {
        let period = self.period(1, 240);
        let (id, start) = (self.free_id(), self.now() + self.random.between(0, 3));
        self.add(id, start, period, 1)
    }

    /// Removes a stream held, if there is one.
    fn remove_any(&mut self) {
        if let Some(id) = self.held_id() {
            self.remove(id);
        }
    }

    /// Offers a stream with the longest deadline that is refused and then with
    /// the shortest that is not; with the longest of all if all are refused.
    fn add_at_least_deadline(&mut self, start: u64, period: u64) -> usize {
        let id = self.free_id();
        let planner = self.planner().clone();
        let fits = |d| planner.clone().add(id, start, period, d) == 0;
        let least = first(1, period, fits);
        if 1 < least && least <= period {
            self.add(id, start, period, least - 1);
        }
        self.add(id, start, period, least.min(period))
    }

    /// Offers a stream with the latest start that is refused and then with the
    /// earliest that is not; with the latest of all if all are refused.
    fn add_at_least_start(&mut self, period: u64, deadline: u64) -> usize {
        let id = self.free_id();
        let now = self.now();
        let planner = self.planner().clone();
        let fits = |s| planner.clone().add(id, s, period, deadline) == 0;
        let least = first(now, now + 239, fits);
        if now < least && least <= now + 239 {
            self.add(id, least - 1, period, deadline);
        }
        self.add(id, least.min(now + 239), period, deadline)
    }

    /// A time to open at: mostly any, often 0 or near a power of two.
    fn time(&mut self) -> u64 {
        match self.random.below(6) {
            0 => 0,
            1 => self.random.between(0, 1_000),
            2 => (1 << self.random.between(10, 29)) - self.random.between(0, 300),
            _ => self.random.between(0, LAST_START - 100_000),
        }
    }

    fn gap(&mut self) -> u64 {
        match self.random.below(6) {
            0 => 1,
            1 => 255,
            2 => self.random.between(1, 10),
            _ => self.random.between(1, 255),
        }
    }

    /// One line of a refusal here and there.
    fn stray(&mut self) {
        match self.random.below(8) {
            0 => self.bad_add(6),
            1 => self.bad_add(7),
            2 => self.bad_add(9),
            3 => self.bad_add(10),
            4 | 5 => self.bad_add(11),
            _ => self.bad_remove(),
        }
    }

    /// A remove of an id that is not held, impossible ids among them.
    fn bad_remove(&mut self) {
        let free = self.free_id();
        let held = self.held_id().unwrap_or(1);
        let list = [free, free, 0, 32_768, 65_535, 65_536 + held, 4_294_967_295];
        let id = self.random.pick(&list);
        self.remove(id);
    }

    /// An add with the condition of one refusal of 6, 7, 9, 10 and 11, at
    /// times with that of a later one too.
    fn bad_add(&mut self, refusal: u32) {
        let mut id = self.free_id();
        let mut start = self.start();
        let mut period = self.period(1, 240);
        let mut deadline = self.deadline(period);
        let also = self.random.chance(25);
        for fault in [6, 7, 9, 10, 11] {
            if fault != refusal && !(also && fault > refusal && self.random.chance(50)) {
                continue;
            }
            match fault {
                6 => id = self.bad_id(),
                7 => id = self.held_id().unwrap_or(id),
                9 => period = self.bad_period(),
                10 => deadline = self.bad_deadline(period),
                _ => start = self.bad_start(),
            }
        }
        self.add(id, start, period, deadline);
    }

    fn bad_id(&mut self) -> u64 {
        let held = self.held_id().unwrap_or(1);
        let list = [
            0,
            32_768,
            40_000,
            65_535,
            65_536,
            65_537,
            65_536 + held,
            4_294_967_295,
        ];
        self.random.pick(&list)
    }

    /// 0, above 240 (a divisor of F or not) or not a divisor of F.
    fn bad_period(&mut self) -> u64 {
        let superframe = self.planner().superframe;
        let odd: Vec<u64> = (1..=240).filter(|p| superframe % p != 0).collect();
        match self.random.below(4) {
            0 => 0,
            1 => self
                .random
                .pick(&[241, 252, 256, 257, 5_040, 65_537, 4_294_967_295]),
            2 => (241..=superframe)
                .find(|p| superframe % p == 0)
                .unwrap_or(241),
            _ if odd.is_empty() => 0,
            _ => self.random.pick(&odd),
        }
    }

    fn bad_deadline(&mut self, period: u64) -> u64 {
        let above = period.min(4_294_967_294) + 1;
        self.random.pick(&[0, 0, above, above, 241, 4_294_967_295])
    }

    /// Before now or after now + 239.
    fn bad_start(&mut self) -> u64 {
        let now = self.now();
        let far = [
            0,
            now / 2,
            now + 1_000,
            2_000_000_000,
            4_294_967_295,
            4_294_967_056,
        ];
        match self.random.below(3) {
            0 => now - 1,
            1 => now + 240,
            _ => self.random.pick(&far),
        }
    }
}

/// The divisors of F within bounds.
fn divisors(superframe: u64, least: u64, most: u64) -> Vec<u64> {
    (least.max(1)..=most.min(240))
        .filter(|period| superframe % period == 0)
        .collect()
}

/// The first number from a to b that fits, b + 1 if none, where every number
/// after one that fits does too.
fn first(a: u64, b: u64, fits: impl Fn(u64) -> bool) -> u64 {
    let (mut low, mut high) = (a, b + 1);
    while low < high {
        let middle = (low + high) / 2;
        if fits(middle) {
            high = middle;
        } else {
            low = middle + 1;
        }
    }
    low
}

/// The planner is closed before any O: some lines that get 5.
fn before_the_first_open(script: &mut Script) {
    if script.random.chance(50) {
        script.round();
        script.remove(1);
        script.add(1, 1, 1, 1);
    }
}

/// Uniform tables: any streams, removals and rounds in any order.
fn uniform(script: &mut Script) {
    let frames = [
        1, 2, 6, 12, 20, 24, 30, 36, 48, 60, 84, 90, 120, 210, 240, 360, 420, 720,
    ];
    let superframe = match script.random.below(8) {
        0 => script.random.between(1, 1_000),
        _ => script.random.pick(&frames),
    };
    let slots = script.random.pick(&[1, 1, 2, 2, 3, 4, 5, 7]);
    let (gap, time) = (script.gap(), script.time());
    script.open(slots, superframe, gap, time);
    for _ in 0..script.random.between(20, 80) {
        match script.random.below(20) {
            0..=7 => drop(script.add_any(1, 240)),
            8..=10 => script.remove_any(),
            11 => script.stray(),
            _ => script.some_rounds(3),
        }
    }
}

/// Tables on the edge of the demand rule: streams until one gets 12, the
/// shortest deadline that is taken, and the same again after rounds.
fn demand_edge(script: &mut Script) {
    let superframe = script
        .random
        .pick(&[4, 6, 12, 18, 24, 30, 40, 60, 100, 120, 180, 240, 480]);
    let slots = script.random.pick(&[1, 1, 1, 2, 2, 3, 5]);
    let (gap, time) = (script.gap(), script.time());
    script.open(slots, superframe, gap, time);
    for _ in 0..script.random.between(2, 4) {
        for _ in 0..40 {
            if script.add_any(2, 60) == 12 {
                break;
            }
        }
        for _ in 0..script.random.between(1, 3) {
            let start = script.start();
            let period = script.period(2, 240);
            script.add_at_least_deadline(start, period);
        }
        script.some_rounds(12);
        for _ in 0..script.random.between(1, 4) {
            script.remove_any();
        }
        script.some_rounds(2);
    }
}

/// Tables on the edge of the start rule: lazy rounds put work off, then short
/// deadlines are offered, at the first start and deadline that go in.
fn start_edge(script: &mut Script) {
    let period = script.random.pick(&[6, 8, 10, 12, 15, 20, 24, 30, 40, 60]);
    let superframe = period * script.random.between(1, 4);
    let slots = script.random.between(1, 4);
    let gap = script.random.between(period.min(200), 255);
    let time = script.time();
    script.open(slots, superframe, gap, time);
    for _ in 0..script.random.between(1, period / 2) * slots {
        let start = script.now() + script.random.between(0, 1);
        let id = script.free_id();
        script.add(id, start, period, period);
    }
    for _ in 0..script.random.between(4, 9) {
        script.some_rounds(3);
        offer_on_start_edge(script, period);
        if script.random.chance(50) {
            script.remove_any();
        }
    }
}

/// One offer with a short deadline at now or soon after.
fn offer_on_start_edge(script: &mut Script, most: u64) {
    let period = script.period(most / 2, 240);
    let short = script.random.between(1, 3).min(period);
    match script.random.below(3) {
        0 => drop(script.add_at_least_start(period, short)),
        1 => {
            let start = script.now() + script.random.between(0, 2);
            script.add_at_least_deadline(start, period);
        }
        _ => {
            for after in 0..4 {
                let (id, start) = (script.free_id(), script.now() + after);
                if script.add(id, start, period, short) == 0 {
                    break;
                }
            }
        }
    }
}

/// 64 streams and a 65th, which gets 8; with 64 held, 7 is still given for an
/// id held and 8 for one with a bad period.
fn crowd(script: &mut Script) {
    let superframe = script
        .random
        .pick(&[120, 144, 180, 240, 240, 480, 720, 5_040]);
    let slots = script.random.pick(&[1, 1, 2, 3, 8]);
    let (gap, time) = (script.gap(), script.time());
    script.open(slots, superframe, gap, time);
    for _ in 0..80 {
        if script.planner().streams.len() == 64 || script.full() {
            break;
        }
        let (id, start, period) = (script.free_id(), script.start(), script.period(80, 240));
        script.add(id, start, period, period);
    }
    for _ in 0..script.random.between(1, 3) {
        script.add_any(1, 240);
        script.bad_add(7);
        script.bad_add(9);
        script.some_rounds(8);
        script.remove_any();
        script.add_any(100, 240);
        script.add_any(1, 240);
        script.some_rounds(4);
    }
}

/// Many slots: rounds with up to 64 ids.
fn wide(script: &mut Script) {
    let superframe = script.random.pick(&[1, 2, 3, 4, 6, 12, 24, 60]);
    let slots = script.random.pick(&[16, 30, 32, 48, 60, 62, 63, 64, 64]);
    let gap = script.gap();
    let time = script.time();
    script.open(slots, superframe, gap, time);
    let streams = script.random.between(slots.saturating_sub(3), 65);
    let start = script.start();
    for _ in 0..streams {
        let (id, period) = (script.free_id(), script.period(1, 24));
        let near = start.min(script.now() + 239 - period) + script.random.between(0, 1) * period;
        let deadline = script.random.pick(&[period, period, period, 1]);
        script.add(id, near, period, deadline);
    }
    for _ in 0..script.random.between(2, 5) {
        script.rounds(4);
        script.remove_any();
        script.add_any(1, 240);
    }
}

/// Busy lengths near F: a load at or near B and F mostly 5,040, first packets
/// released nearly together and not soon, so that the time that decides may
/// lie far off. The last streams are offered at the edge.
fn busy(script: &mut Script) {
    let superframe = script
        .random
        .pick(&[5_040, 5_040, 5_040, 2_520, 1_680, 1_260, 4_620]);
    let slots = script.random.pick(&[1, 1, 1, 1, 2, 3]);
    let gap = script.random.pick(&[1, 60, 255, 255, 255, 255]);
    let time = script.time();
    script.open(slots, superframe, gap, time);
    let period = script.period(20, 240);
    let exact = superframe / period;
    let room = script.random.pick(&[0, exact, exact, exact - 1]);
    fill(script, room);
    if script.random.chance(40) {
        let start = script.start();
        script.add_at_least_deadline(start, period);
    }
    script.some_rounds(6);
    for _ in 0..script.random.between(1, 3) {
        match script.random.below(4) {
            0 => drop(script.add_any(100, 240)),
            1 => drop(script.add_at_least_start(period, period)),
            _ => {
                let start = script.start();
                script.add_at_least_deadline(start, period);
            }
        }
        script.some_rounds(4);
        if script.random.chance(60) {
            script.remove_any();
            script.some_rounds(4);
        }
    }
}

/// Streams of a load that leaves room for so many packets in a superframe, or
/// some more.
fn fill(script: &mut Script, room: u64) {
    let Planner {
        slots, superframe, ..
    } = *script.planner();
    let share = script.random.pick(&[4, 6, 10, 20]);
    let shortest = script.random.pick(&[2, 3, 5, 7, 12]);
    let spread = script.random.pick(&[0, 0, 0, 1, 8, 40]);
    let near = script.now() + script.random.pick(&[0, 10, 100, 199]);
    let cuts = script.random.pick(&[0, 0, 50]);
    for _ in 0..40 {
        let left = (slots * superframe).saturating_sub(load(script.planner()) + room);
        let list = fitting(superframe, shortest, left, share);
        if list.is_empty() || script.planner().streams.len() == 64 || script.full() {
            break;
        }
        let period = script.random.pick(&list);
        let (id, start) = (script.free_id(), near + script.random.between(0, spread));
        if script.random.chance(cuts) {
            let deadline = period - script.random.between(0, period / 10);
            if script.add(id, start, period, deadline) == 0 {
                continue;
            }
        }
        script.add(id, start, period, period);
    }
}

/// Periods that send at most so many packets in a superframe as are left: if
/// one or two can use up what is left, those, else those with a share of it,
/// else the shortest.
fn fitting(superframe: u64, shortest: u64, left: u64, share: u64) -> Vec<u64> {
    let fitting: Vec<u64> = divisors(superframe, shortest, 240)
        .into_iter()
        .filter(|period| superframe / period <= left)
        .collect();
    let sent: Vec<u64> = fitting.iter().map(|period| superframe / period).collect();
    let choose = |fits: &dyn Fn(u64) -> bool| -> Vec<u64> {
        let pairs = fitting.iter().zip(&sent);
        pairs.filter(|(_, n)| fits(**n)).map(|(p, _)| *p).collect()
    };
    let one = choose(&|n| n == left);
    let two = choose(&|n| sent.contains(&(left - n)) && left * 8 <= superframe);
    let some = choose(&|n| n * share >= left);
    let shortest = fitting[..fitting.len().min(4)].to_vec();
    let lists = [one, two, some, shortest];
    lists
        .into_iter()
        .find(|list| !list.is_empty())
        .unwrap_or_default()
}

/// The packets of a superframe: the sum of F / P.
fn load(planner: &Planner) -> u64 {
    let packets = |stream: &Stream| planner.superframe / stream.period;
    planner.streams.iter().map(packets).sum()
}

/// Times near the clock's end: rounds until 17, which is not final, since an
/// urgent stream may bring the start back.
fn clock_end(script: &mut Script) {
    let time = match script.random.below(4) {
        0 => LAST_START,
        1 => LAST_START - script.random.between(0, 5),
        _ => LAST_START - script.random.between(0, 300),
    };
    let superframe = script.random.pick(&[1, 6, 12, 60, 120, 240]);
    let slots = script.random.between(1, 3);
    let far = script.random.between(60, 255);
    let gap = script.gap();
    let gap = script.random.pick(&[gap, far]);
    script.open(slots, superframe, gap, time);
    if script.random.chance(30) {
        script.round();
    }
    for _ in 0..script.random.between(1, 8) {
        script.add_any(1, 240);
    }
    for _ in 0..script.random.between(2, 5) {
        script.rounds(60);
        script.round();
        script.add_urgent();
        script.some_rounds(3);
        script.stray();
        script.remove_any();
    }
}

/// Long runs of rounds between changes.
fn long_runs(script: &mut Script) {
    let superframe = script.random.pick(&[12, 20, 60, 84, 120, 240, 360]);
    let slots = script.random.between(1, 4);
    let (gap, time) = (script.gap(), script.time());
    script.open(slots, superframe, gap, time);
    for _ in 0..script.random.between(2, 4) {
        for _ in 0..script.random.between(1, 5) {
            script.add_any(3, 240);
        }
        let rounds = script.random.between(20, 60);
        script.rounds(rounds);
        script.remove_any();
    }
}

/// Removals and re-adds of the same ids, with and without rounds between.
fn churn(script: &mut Script) {
    let superframe = script.random.pick(&[12, 24, 60, 120, 240]);
    let slots = script.random.between(1, 3);
    let (gap, time) = (script.gap(), script.time());
    script.open(slots, superframe, gap, time);
    for _ in 0..script.random.between(4, 12) {
        script.add_any(6, 240);
    }
    for _ in 0..script.random.between(6, 14) {
        let Some(id) = script.held_id() else {
            script.add_any(6, 240);
            continue;
        };
        script.remove(id);
        if script.random.chance(40) {
            script.remove(id);
        }
        script.some_rounds(3);
        let (start, period) = (script.start(), script.period(2, 240));
        let deadline = script.deadline(period);
        script.add(id, start, period, deadline);
        if script.random.chance(30) {
            script.add(id, start, period, deadline);
        }
        script.some_rounds(2);
    }
}

/// Values on both sides of every bound of the add, the remove and the open.
fn bad_values(script: &mut Script) {
    let superframe = script
        .random
        .pick(&[1, 7, 12, 60, 240, 241, 720, 1_024, 5_039, 5_040]);
    let slots = script.random.pick(&[1, 2, 64]);
    let gap = script.random.pick(&[1, 254, 255]);
    let time = script.time();
    script.open(slots, superframe, gap, time);
    for id in [1, 32_767] {
        let (start, period) = (
            script.now() + 239 * script.random.below(2),
            script.period(1, 240),
        );
        script.add(id, start, period, period);
    }
    for _ in 0..script.random.between(2, 3) {
        for refusal in [6, 7, 9, 10, 11] {
            script.bad_add(refusal);
        }
        script.bad_remove();
        script.round();
    }
    let largest = 4_294_967_295_u64;
    if script.random.chance(20) {
        script.add(largest, largest, largest, largest);
    }
    bad_open(script);
}

/// An O that is refused with one of 1 to 4, at times with a later fault too.
fn bad_open(script: &mut Script) {
    let refusal = script.random.between(1, 4);
    let also = script.random.chance(25);
    let mut values = [
        script.random.between(1, 64),
        script.random.between(1, 5_040),
        script.gap(),
        script.time(),
    ];
    let bad: [[u64; 4]; 4] = [
        [0, 65, 65_537, 4_294_967_295],
        [0, 5_041, 65_537, 4_294_967_295],
        [0, 256, 257, 4_294_967_295],
        [LAST_START + 1, LAST_START + 1, 2_000_000_000, 4_294_967_295],
    ];
    for fault in 1..=4 {
        if fault == refusal || (also && fault > refusal && script.random.chance(50)) {
            values[fault as usize - 1] = script.random.pick(&bad[fault as usize - 1]);
        }
    }
    let [slots, superframe, gap, time] = values;
    script.open(slots, superframe, gap, time);
}

/// Refused O lines, and commands on the closed planner, good and bad ones.
fn closed(script: &mut Script) {
    for _ in 0..script.random.between(3, 6) {
        bad_open(script);
        for _ in 0..script.random.between(0, 4) {
            match script.random.below(5) {
                0 => drop(script.round()),
                1 => drop(script.remove(1)),
                2 => drop(script.remove(0)),
                3 => drop(script.add(1, 1, 1, 1)),
                _ => drop(script.add(0, 0, 0, 0)),
            }
        }
    }
}

/// Rounds with no stream held, which the gap alone forces: before the first
/// add and after the last removal, a few times over.
fn no_stream(script: &mut Script) {
    let superframe = script.random.pick(&[1, 12, 60, 240]);
    let slots = script.random.pick(&[1, 2, 64]);
    let (gap, time) = (script.gap(), script.time());
    script.open(slots, superframe, gap, time);
    script.some_rounds(8);
    for _ in 0..script.random.between(1, 3) {
        for _ in 0..script.random.between(1, 4) {
            script.add_any(1, 240);
        }
        script.some_rounds(4);
        none_left(script);
        script.some_rounds(8);
        script.stray();
    }
}

/// The same at the clock's end: empty rounds until 17, an urgent stream that
/// brings the start back, and 17 again without it.
fn no_stream_at_end(script: &mut Script) {
    let superframe = script.random.pick(&[1, 12, 60, 240]);
    let slots = script.random.between(1, 3);
    let gap = script.gap();
    let rounds = script.random.between(0, 12);
    let short = script.random.pick(&[0, 1, gap]);
    let time = LAST_START - (gap + 1) * rounds - short;
    script.open(slots, superframe, gap, time);
    script.rounds(rounds + 1);
    for _ in 0..script.random.between(1, 3) {
        script.add_urgent();
        script.some_rounds(2);
        none_left(script);
        script.rounds(2);
    }
}

/// Rounds near the cap: what is due next could wait until one before L + 1 + G,
/// until that time, or one longer, so that one unit decides whether the gap
/// forces the round.
fn near_cap(script: &mut Script) {
    let superframe = script.random.pick(&[60, 120, 240, 480, 720]);
    let slots = script.random.pick(&[1, 1, 2, 3]);
    let (gap, time) = (script.gap(), script.time());
    script.open(slots, superframe, gap, time);
    for _ in 0..script.random.between(8, 16) {
        add_near_cap(script);
        script.some_rounds(3);
        if script.random.chance(60) {
            script.remove_any();
        }
    }
}

/// Offers a stream due one unit after such a time.
fn add_near_cap(script: &mut Script) {
    let (id, period) = (script.free_id(), script.period(20, 240));
    let ahead = script.planner().gap + script.random.between(0, 2);
    let longest = ahead.min(period).max(1);
    let shortest = ahead.saturating_sub(239).clamp(1, longest);
    let deadline = script.random.between(shortest, longest);
    let start = script.now() + ahead - deadline;
    script.add(id, start, period, deadline);
}

/// Packets due together and released apart, and rounds with few slots, so
/// that the order among them shows. The ties come again a period later, and
/// are changed by a removal or by one more stream due with another.
fn ties(script: &mut Script) {
    let period = script
        .random
        .pick(&[6, 8, 10, 12, 12, 20, 24, 30, 60, 120, 240]);
    let superframe = period * script.random.between(1, 2);
    let slots = script.random.pick(&[1, 1, 1, 2, 2, 3]);
    let (any, far) = (script.gap(), script.random.between(period, 255));
    let (gap, time) = (script.random.pick(&[any, far, far]), script.time());
    script.open(slots, superframe, gap, time);
    let due = script.now() + script.random.between(period / 2, period);
    add_tied(script, due, period);
    for _ in 0..script.random.between(2, 4) {
        let rounds = script.random.between(4, 14);
        script.rounds(rounds);
        if script.random.chance(50) {
            script.remove_any();
        }
        for _ in 0..script.random.between(0, 2) {
            add_to_tie(script);
        }
    }
}

/// Streams of one period, all due first at one time. Mostly the larger ids are
/// released earlier, at times by chance; some are alike but for the id.
fn add_tied(script: &mut Script, due: u64, period: u64) {
    let most = period.min(due - script.now());
    let mut streams: Vec<(u64, u64)> = Vec::new();
    for _ in 0..script.random.between(3, 8) {
        let (id, deadline) = (script.free_id(), script.random.between(most / 2, most));
        match streams.last() {
            Some((_, last)) if script.random.chance(20) => streams.push((id, *last)),
            _ => streams.push((id, deadline)),
        }
    }
    if script.random.chance(80) {
        let (mut ids, mut deadlines): (Vec<u64>, Vec<u64>) = streams.into_iter().unzip();
        ids.sort_unstable();
        deadlines.sort_unstable();
        streams = ids.into_iter().zip(deadlines).collect();
        script.random.shuffle(&mut streams);
    }
    for (id, deadline) in streams {
        script.add(id, due - deadline, period, deadline);
    }
}

/// Offers a stream due together with one that is held, mostly of its period.
fn add_to_tie(script: &mut Script) {
    let held = script.planner().streams.clone();
    if held.is_empty() {
        return;
    }
    let with = &held[script.random.below(held.len() as u64) as usize];
    let other = script.period(2, 240);
    let period = script.random.pick(&[with.period, with.period, other]);
    let longest = period.min(with.due() - script.now());
    let deadline = script.random.between(1, longest);
    let id = script.free_id();
    script.add(id, with.due() - deadline, period, deadline);
}

/// Removes every stream, at times with a round between.
fn none_left(script: &mut Script) {
    while let Some(id) = script.held_id() {
        if script.full() {
            return;
        }
        script.remove(id);
        if script.random.chance(30) {
            script.round();
        }
    }
}

/// A damaged line made of a good one; nearly every one gets E,20.
fn damaged(random: &mut Random, line: &[u8]) -> Vec<u8> {
    match random.below(16) {
        0 => Vec::new(),
        1 => [line, b"\r"].concat(),
        2 => with_byte(random, line, 0),
        3 => {
            let blank = random.pick(b" \t\x0b\x0c\r");
            with_byte(random, line, blank)
        }
        4 => {
            let high = random.between(128, 255) as u8;
            with_byte(random, line, high)
        }
        5 => {
            let before: &[u8] = random.pick(&[b"\xef\xbb\xbf", b" ", b",", b"\0", b"\""]);
            [before, line].concat()
        }
        6 => line.to_ascii_lowercase(),
        7..=9 => bad_number(random, line),
        10 | 11 => bad_fields(random, line),
        12 | 13 => long_line(random, line),
        14 => other_byte(random, line),
        _ => fixed(random),
    }
}

/// The line with one byte put in somewhere.
fn with_byte(random: &mut Random, line: &[u8], byte: u8) -> Vec<u8> {
    let place = random.between(0, line.len() as u64) as usize;
    [&line[..place], &[byte], &line[place..]].concat()
}

/// The line with one byte changed to any other but LF.
fn other_byte(random: &mut Random, line: &[u8]) -> Vec<u8> {
    let mut changed = line.to_vec();
    let place = random.below(line.len() as u64) as usize;
    let byte = random.below(256) as u8;
    changed[place] = if byte == b'\n' { b'X' } else { byte };
    changed
}

/// The line with one number written as a number may not be.
fn bad_number(random: &mut Random, line: &[u8]) -> Vec<u8> {
    let text = String::from_utf8_lossy(line).into_owned();
    let mut fields: Vec<String> = text.split(',').map(String::from).collect();
    if fields.len() < 2 {
        fields = vec![String::from("D"), String::from("7")];
    }
    let place = random.between(1, fields.len() as u64 - 1) as usize;
    let number = fields[place].clone();
    let value: u64 = number.parse().unwrap_or(1);
    fields[place] = match random.below(14) {
        0 => format!("0{number}"),
        1 => format!("000{number}"),
        2 => format!("+{number}"),
        3 => format!("-{number}"),
        4 => String::from("4294967296"),
        5 => (value + (1 << 32)).to_string(),
        6 => (u128::from(value) + (1 << 64)).to_string(),
        7 => String::from("99999999999999999999"),
        8 => String::new(),
        9 => format!("{number}.0"),
        10 => format!("0x{number}"),
        11 => format!("\"{number}\""),
        12 => format!("{number}e0"),
        _ => format!("{number}_0"),
    };
    fields.join(",").into_bytes()
}

/// The line with too many or too few fields, or parted otherwise.
fn bad_fields(random: &mut Random, line: &[u8]) -> Vec<u8> {
    let last = line.iter().rposition(|byte| *byte == b',');
    match random.below(8) {
        0 => [line, b","].concat(),
        1 => [line, b",0"].concat(),
        2 => [line, b",1,2,3"].concat(),
        3 => with_byte(random, line, b','),
        4 => line[..last.unwrap_or(0)].to_vec(),
        5 => line[..last.map_or(0, |place| place + 1)].to_vec(),
        6 => String::from_utf8_lossy(line).replace(',', ";").into_bytes(),
        _ => [&[random.pick(b"BCEFGXZ0,")], &line[1..]].concat(),
    }
}

/// A line of 63, 64, 65 or some hundred bytes: a good line with something
/// after it, before it, or zeros before its last number.
fn long_line(random: &mut Random, line: &[u8]) -> Vec<u8> {
    let hundreds = random.between(66, 600);
    let length = random.pick(&[62, 63, 64, 65, 63, 64, 65, 127, 128, 256, hundreds]) as usize;
    let filler = vec![random.pick(b" 0,RX\0\xff"); length.saturating_sub(line.len())];
    match random.below(5) {
        0 => [line, &filler].concat(),
        1 => [&filler, line].concat(),
        // A good line begins where 63 or so many bytes are cut off.
        2 => [&vec![random.pick(b" 0,RX\0\xff"); length], line].concat(),
        3 => {
            let place = line
                .iter()
                .rposition(|byte| *byte == b',')
                .map_or(1, |p| p + 1);
            let zeros = vec![b'0'; filler.len()];
            [&line[..place], &zeros, &line[place..]].concat()
        }
        _ => {
            let bytes: Vec<u8> = (0..length).map(|_| random.below(256) as u8).collect();
            bytes.into_iter().filter(|byte| *byte != b'\n').collect()
        }
    }
}

/// Lines that are nearly commands.
fn fixed(random: &mut Random) -> Vec<u8> {
    let lines: [&[u8]; 26] = [
        b"O",
        b"A",
        b"D",
        b"O,",
        b"A,",
        b"D,",
        b"R,",
        b"R,0",
        b"RR",
        b"R ",
        b" R",
        b"r",
        b"X",
        b",",
        b",,,,",
        b"O,,,,",
        b"A,,,,",
        b"O,1,1,1",
        b"O,1,1,1,0,0",
        b"A,1,1,1",
        b"A,1,1,1,1,1",
        b"D,1,1",
        b"E,20",
        b"G,1",
        b"0",
        b"D,-0",
    ];
    random.pick(&lines).to_vec()
}
