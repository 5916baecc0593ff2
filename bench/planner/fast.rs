// The Blink paper's Algorithms 1 to 4 with nothing tested, as `plain`, on a queue made for speed: links of 8 bits, heads and places apart, no
// modulo in a walk, no keys kept, empty buckets passed eight at a time. Due times are looked at over a busy length from the first one on.
use super::{mixed, Host, Offer};

const BUCKETS: usize = 480;
const NONE: u8 = 255;

fn get<T: Copy>(of: &[T], i: usize) -> T {
    unsafe { *of.get_unchecked(i) }
}

fn set<T>(of: &mut [T], i: usize, value: T) {
    unsafe { *of.get_unchecked_mut(i) = value }
}

// The first place of each bucket and the place after each place, 255 where there is none. Buckets are singly linked.
#[derive(Clone, Copy)]
#[repr(align(8))]
struct Buckets {
    heads: [u8; BUCKETS],
    next: [u8; 64],
}

fn bucket_after(bucket: usize, amount: usize) -> usize {
    let sum = bucket + amount;
    if sum >= BUCKETS {
        sum - BUCKETS
    } else {
        sum
    }
}

impl Buckets {
    fn empty() -> Buckets {
        Buckets { heads: [NONE; BUCKETS], next: [NONE; 64] }
    }

    fn push(&mut self, x: usize, bucket: usize) {
        set(&mut self.next, x, get(&self.heads, bucket));
        set(&mut self.heads, bucket, x as u8);
    }

    // How far on from a bucket the next one is that is not empty, that bucket itself included. One of them is not.
    fn distance(&self, bucket: usize) -> usize {
        let words: &[u64; BUCKETS / 8] = unsafe { &*self.heads.as_ptr().cast() };
        let (mut word, within) = (bucket / 8, bucket % 8);
        let mut filled = !get(words, word) & 0x8080_8080_8080_8080 & (u64::MAX << (8 * within));
        let mut far = 0;
        while filled == 0 {
            far += 8;
            word = if word + 1 == BUCKETS / 8 { 0 } else { word + 1 };
            filled = !get(words, word) & 0x8080_8080_8080_8080;
        }
        far + filled.trailing_zeros() as usize / 8 - within
    }

    // Moves all places of a bucket on by their periods, and counts them.
    fn pass(&mut self, bucket: usize, periods: &[u8; 64]) -> u32 {
        let mut x = get(&self.heads, bucket);
        set(&mut self.heads, bucket, NONE);
        let mut n = 0;
        while x != NONE {
            let after = get(&self.next, x as usize);
            self.push(x as usize, bucket_after(bucket, get(periods, x as usize) as usize));
            n += 1;
            x = after;
        }
        n
    }
}

#[derive(Clone)]
pub struct Fast {
    slots: u32,
    frame: u32,
    gap: u32,
    last: u32,
    busy: u32,
    // packets a superframe; and the sum of 1/D
    load: u32,
    tight: f64,
    // no due time is below `low`, whose bucket is `bucket`
    low: u32,
    bucket: usize,
    ids: [u16; 64],
    periods: [u8; 64],
    deadlines: [u8; 64],
    releases: [u32; 64],
    queue: Buckets,
}

impl Fast {
    pub fn of(slots: u32, frame: u32, gap: u32, last: u32, streams: &[[u32; 4]]) -> Fast {
        let (ids, periods, deadlines, releases) = ([0; 64], [0; 64], [0; 64], [0; 64]);
        let (low, bucket, queue) = (u32::MAX, 0, Buckets::empty());
        let mut p = Fast { slots, frame, gap, last, busy: 0, load: 0, tight: 0.0, low, bucket, ids, periods, deadlines, releases, queue };
        for [id, period, deadline, release] in streams {
            p.take_in(Offer { id: *id, start: *release, period: *period, deadline: *deadline });
        }
        p.busy = p.busy_length();
        p
    }

    // In order of releases, then ids, within the bucket, so that ties go as Annex 5.2 says.
    fn file_in_order(&mut self, x: usize, bucket: usize) {
        let rank = |x: usize| u64::from(get(&self.releases, x)) << 16 | u64::from(get(&self.ids, x));
        let own = rank(x);
        let mut before = NONE;
        let mut n = get(&self.queue.heads, bucket);
        while n != NONE && rank(n as usize) < own {
            before = n;
            n = get(&self.queue.next, n as usize);
        }
        set(&mut self.queue.next, x, n);
        if before == NONE {
            set(&mut self.queue.heads, bucket, x as u8);
        } else {
            set(&mut self.queue.next, before as usize, x as u8);
        }
    }

    fn unlink(&mut self, x: usize, before: u8, bucket: usize) {
        let after = get(&self.queue.next, x);
        if before == NONE {
            set(&mut self.queue.heads, bucket, after);
        } else {
            set(&mut self.queue.next, before as usize, after);
        }
    }

    fn take_in(&mut self, o: Offer) -> usize {
        let mut x = 0;
        while get(&self.ids, x) != 0 {
            x += 1;
        }
        set(&mut self.ids, x, o.id as u16);
        set(&mut self.periods, x, o.period as u8);
        set(&mut self.deadlines, x, o.deadline as u8);
        set(&mut self.releases, x, o.start);
        self.load += self.frame / o.period;
        self.tight += 1.0 / f64::from(o.deadline);
        let due = o.start + o.deadline;
        let bucket = due as usize % BUCKETS;
        if due < self.low {
            self.low = due;
            self.bucket = bucket;
        }
        self.file_in_order(x, bucket);
        x
    }

    fn take_out(&mut self, x: usize) {
        let deadline = u32::from(get(&self.deadlines, x));
        let bucket = (get(&self.releases, x) + deadline) as usize % BUCKETS;
        let mut before = NONE;
        let mut n = get(&self.queue.heads, bucket);
        while n as usize != x {
            before = n;
            n = get(&self.queue.next, n as usize);
        }
        self.unlink(x, before, bucket);
        set(&mut self.ids, x, 0);
        self.load -= self.frame / u32::from(get(&self.periods, x));
        self.tight -= 1.0 / f64::from(deadline);
    }

    // FINDMIN: `low` goes up to the first due time.
    fn least(&mut self) {
        let far = self.queue.distance(self.bucket);
        self.low += far as u32;
        self.bucket = bucket_after(self.bucket, far);
    }

    // Algorithm 1: the least slack of the due times of a busy length from the first one on.
    fn least_slack(&self) -> i32 {
        let mut q = self.queue;
        let (mut t, mut bucket) = (self.low, self.bucket);
        let end = t + self.busy;
        let (mut demand, mut slack) = (0, i32::MAX);
        loop {
            let far = q.distance(bucket);
            t += far as u32;
            if t >= end {
                return slack;
            }
            bucket = bucket_after(bucket, far);
            demand += q.pass(bucket, &self.periods);
            slack = slack.min(((t - self.last) * self.slots) as i32 - demand as i32);
        }
    }

    // The streams in a queue of their own, in the buckets given.
    fn filed_at(&self, bucket_of: impl Fn(usize) -> usize) -> Buckets {
        let mut q = Buckets::empty();
        for x in 0..64 {
            if get(&self.ids, x) != 0 {
                q.push(x, bucket_of(x));
            }
        }
        q
    }

    // Algorithm 3, from release time to release time: between two of them nothing is released.
    fn busy_length(&self) -> u32 {
        if self.load == 0 {
            return 1;
        }
        let mut q = self.filed_at(|_| 0);
        let (mut t, mut bucket, mut released) = (0, 0, 0);
        loop {
            released += q.pass(bucket, &self.periods);
            let far = q.distance(bucket);
            if released <= self.slots * (t + far as u32) {
                return released.div_ceil(self.slots).max(t + 1);
            }
            t += far as u32;
            bucket = bucket_after(bucket, far);
        }
    }

    // Algorithm 4, with its two tests before the loop.
    fn admits(&mut self) -> bool {
        if self.load > self.slots * self.frame {
            return false;
        }
        self.busy = self.busy_length();
        if self.tight <= f64::from(self.slots) {
            return true;
        }
        let mut q = self.filed_at(|x| get(&self.deadlines, x) as usize);
        let (mut demand, mut t, mut bucket) = (0, 0, 0);
        loop {
            let far = q.distance(bucket);
            t += far as u32;
            if t > self.busy {
                return true;
            }
            bucket = bucket_after(bucket, far);
            demand += q.pass(bucket, &self.periods);
            if demand > t * self.slots {
                return false;
            }
        }
    }
}

impl Host for Fast {
    // Algorithms 1 and 2. A packet released by the start is due within 239 of the first due time.
    fn round(&mut self) -> u32 {
        let mut buffer = [0u16; 64];
        self.least();
        let start = self.last + (self.least_slack() as u32 / self.slots).min(self.gap + 1);
        let (mut n, slots) = (0, self.slots as usize);
        let (mut key, mut bucket) = (self.low, self.bucket);
        let horizon = key + 239;
        while n < slots {
            let far = self.queue.distance(bucket);
            key += far as u32;
            if key > horizon {
                break;
            }
            bucket = bucket_after(bucket, far);
            let mut before = NONE;
            let mut x = get(&self.queue.heads, bucket);
            while x != NONE && n < slots {
                let place = x as usize;
                let after = get(&self.queue.next, place);
                let release = get(&self.releases, place);
                if release <= start {
                    set(&mut buffer, n, get(&self.ids, place));
                    n += 1;
                    let period = get(&self.periods, place);
                    set(&mut self.releases, place, release + u32::from(period));
                    self.unlink(place, before, bucket);
                    self.file_in_order(place, bucket_after(bucket, period as usize));
                } else {
                    before = x;
                }
                x = after;
            }
            key += 1;
            bucket = bucket_after(bucket, 1);
        }
        self.last = start;
        mixed(start, &buffer[..n])
    }

    // Algorithms 3 and 4, and Algorithm 1 once more for the start rule (Annex 4.4), which the Blink paper has not.
    fn add(&mut self, offer: Offer) -> u32 {
        let (busy, low, bucket) = (self.busy, self.low, self.bucket);
        let x = self.take_in(offer);
        let answer = if !self.admits() {
            12
        } else if {
            self.least();
            self.least_slack() < self.slots as i32
        } {
            13
        } else {
            return 0;
        };
        self.take_out(x);
        (self.busy, self.low, self.bucket) = (busy, low, bucket);
        answer
    }

    fn remove(&mut self, id: u32) -> u32 {
        let mut x = 0;
        while u32::from(get(&self.ids, x)) != id {
            x += 1;
        }
        self.take_out(x);
        self.busy = self.busy_length();
        0
    }
}
