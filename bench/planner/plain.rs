// The Blink paper's Algorithms 1 to 4 with nothing tested, neither the planner nor what is offered, and no index.
// The queue is the one of its section 5.1; lists are in order of releases, then ids, where slots are given, so that ties go as Annex 5.2 says.
use super::{mixed, Host, Offer};

const BUCKETS: usize = 480;

fn get<T: Copy>(of: &[T], i: usize) -> T {
    unsafe { *of.get_unchecked(i) }
}

fn set<T>(of: &mut [T], i: usize, value: T) {
    unsafe { *of.get_unchecked_mut(i) = value }
}

// Nodes 0 to 63 are streams' places, node 64 + b is the head of bucket b. No key is below `low`, whose bucket is `head`.
#[derive(Clone)]
struct Buckets {
    keys: [u32; 64],
    next: [u16; 64 + BUCKETS],
    prev: [u16; 64 + BUCKETS],
    low: u32,
    head: usize,
}

impl Buckets {
    fn empty() -> Buckets {
        let alone = std::array::from_fn(|x| x as u16);
        Buckets { keys: [0; 64], next: alone, prev: alone, low: u32::MAX, head: 0 }
    }

    fn head_of(key: u32) -> usize {
        64 + key as usize % BUCKETS
    }

    fn link_before(&mut self, x: usize, n: usize) {
        let p = get(&self.prev, n);
        set(&mut self.next, p as usize, x as u16);
        set(&mut self.next, x, n as u16);
        set(&mut self.prev, n, x as u16);
        set(&mut self.prev, x, p);
    }

    fn unlink(&mut self, x: usize) {
        let (p, n) = (get(&self.prev, x), get(&self.next, x));
        set(&mut self.next, p as usize, n);
        set(&mut self.prev, n as usize, p);
    }

    fn set_key(&mut self, x: usize, key: u32) {
        set(&mut self.keys, x, key);
        if key < self.low {
            self.low = key;
            self.head = Buckets::head_of(key);
        }
    }

    fn file(&mut self, x: usize, key: u32) {
        self.set_key(x, key);
        self.link_before(x, Buckets::head_of(key));
    }

    // In the order of releases and ids within the bucket.
    fn file_in_order(&mut self, x: usize, key: u32, releases: &[u32; 64], ids: &[u16; 64]) {
        self.set_key(x, key);
        let mut n = get(&self.next, Buckets::head_of(key)) as usize;
        while n < 64 && (get(releases, n), get(ids, n)) < (get(releases, x), get(ids, x)) {
            n = get(&self.next, n) as usize;
        }
        self.link_before(x, n);
    }

    // FINDMIN
    fn least(&mut self) -> usize {
        loop {
            let x = get(&self.next, self.head) as usize;
            if x < 64 {
                return x;
            }
            self.low += 1;
            self.head = if self.head + 1 == 64 + BUCKETS { 64 } else { self.head + 1 };
        }
    }

    // DECREASEKEY, where no order within a bucket is needed
    fn delay(&mut self, x: usize, amount: u32) {
        self.unlink(x);
        let key = get(&self.keys, x) + amount;
        set(&mut self.keys, x, key);
        self.link_before(x, Buckets::head_of(key));
    }
}

#[derive(Clone)]
pub struct Plain {
    slots: u32,
    frame: u32,
    gap: u32,
    last: u32,
    busy: u32,
    // packets a superframe; and the sum of 1/D
    load: u32,
    tight: f64,
    ids: [u16; 64],
    periods: [u32; 64],
    deadlines: [u32; 64],
    releases: [u32; 64],
    queue: Buckets,
}

impl Plain {
    pub fn of(slots: u32, frame: u32, gap: u32, last: u32, streams: &[[u32; 4]]) -> Plain {
        let none = [0; 64];
        let queue = Buckets::empty();
        let mut p = Plain { slots, frame, gap, last, busy: 0, load: 0, tight: 0.0, ids: [0; 64], periods: none, deadlines: none, releases: none, queue };
        for [id, period, deadline, release] in streams {
            p.take_in(Offer { id: *id, start: *release, period: *period, deadline: *deadline });
        }
        p.busy = p.busy_length();
        p
    }

    fn take_in(&mut self, o: Offer) -> usize {
        let mut x = 0;
        while get(&self.ids, x) != 0 {
            x += 1;
        }
        set(&mut self.ids, x, o.id as u16);
        set(&mut self.periods, x, o.period);
        set(&mut self.deadlines, x, o.deadline);
        set(&mut self.releases, x, o.start);
        self.load += self.frame / o.period;
        self.tight += 1.0 / f64::from(o.deadline);
        self.queue.file_in_order(x, o.start + o.deadline, &self.releases, &self.ids);
        x
    }

    fn take_out(&mut self, x: usize) {
        self.queue.unlink(x);
        set(&mut self.ids, x, 0);
        self.load -= self.frame / get(&self.periods, x);
        self.tight -= 1.0 / f64::from(get(&self.deadlines, x));
    }

    // The streams in a queue of their own, at keys that all begin at 0 or at the deadlines.
    fn filed_at(&self, key_of: impl Fn(usize) -> u32) -> Buckets {
        let mut q = Buckets::empty();
        for x in 0..64 {
            if get(&self.ids, x) != 0 {
                q.file(x, key_of(x));
            }
        }
        q
    }

    // Algorithm 1: the least slack of all due times up to the horizon.
    fn least_slack(&self) -> i32 {
        let mut q = self.queue.clone();
        let horizon = self.last + self.gap + self.busy + 2;
        let (mut demand, mut slack) = (0i32, i32::MAX);
        let mut x = q.least();
        let mut t = get(&q.keys, x);
        while t <= horizon {
            demand += 1;
            q.delay(x, get(&self.periods, x));
            x = q.least();
            let due = get(&q.keys, x);
            if due > t {
                slack = slack.min(((t - self.last) * self.slots) as i32 - demand);
            }
            t = due;
        }
        slack
    }

    // Algorithm 3.
    fn busy_length(&self) -> u32 {
        let mut q = self.filed_at(|_| 0);
        let (mut t, mut c) = (0, 0);
        let mut x = q.least();
        loop {
            let release = get(&q.keys, x);
            if !(release == 0 || (release < t && c == 0) || (release <= t && c > 0)) {
                break;
            }
            if c + 1 == self.slots {
                t += 1;
                c = 0;
            } else {
                c += 1;
            }
            q.delay(x, get(&self.periods, x));
            x = q.least();
        }
        if c > 0 {
            t + 1
        } else {
            t
        }
    }

    // Algorithm 4, with its two tests before the loop; the busy length is taken where it is first needed.
    fn admits(&mut self) -> bool {
        if self.load > self.slots * self.frame {
            return false;
        }
        self.busy = self.busy_length();
        if self.tight <= f64::from(self.slots) {
            return true;
        }
        let mut q = self.filed_at(|x| get(&self.deadlines, x));
        let (mut demand, mut available, mut t) = (0, 0, 0);
        while demand <= available {
            let x = q.least();
            let due = get(&q.keys, x);
            if due > t {
                if due > self.busy {
                    return true;
                }
                t = due;
                available = t * self.slots;
            }
            demand += 1;
            q.delay(x, get(&self.periods, x));
        }
        false
    }
}

impl Host for Plain {
    // Algorithms 1 and 2.
    fn round(&mut self) -> u32 {
        let mut buffer = [0u16; 64];
        let start = self.last + (self.least_slack() as u32 / self.slots).min(self.gap + 1);
        let mut n = 0;
        self.queue.least();
        let (mut key, mut head) = (self.queue.low, self.queue.head);
        let horizon = key + 239;
        while n < self.slots as usize && key <= horizon {
            let mut x = get(&self.queue.next, head) as usize;
            while x < 64 && n < self.slots as usize {
                let after = get(&self.queue.next, x) as usize;
                let release = get(&self.releases, x);
                if release <= start {
                    set(&mut buffer, n, get(&self.ids, x));
                    n += 1;
                    let period = get(&self.periods, x);
                    set(&mut self.releases, x, release + period);
                    self.queue.unlink(x);
                    self.queue.file_in_order(x, key + period, &self.releases, &self.ids);
                }
                x = after;
            }
            key += 1;
            head = if head + 1 == 64 + BUCKETS { 64 } else { head + 1 };
        }
        self.last = start;
        mixed(start, &buffer[..n])
    }

    // Algorithms 3 and 4, and Algorithm 1 once more for the start rule (Annex 4.4), which the Blink paper has not.
    fn add(&mut self, offer: Offer) -> u32 {
        let busy = self.busy;
        let x = self.take_in(offer);
        let answer = if !self.admits() {
            12
        } else if self.least_slack() < self.slots as i32 {
            13
        } else {
            return 0;
        };
        self.take_out(x);
        self.busy = busy;
        answer
    }

    fn remove(&mut self, id: u32) -> u32 {
        let mut x = 0;
        while u32::from(get(&self.ids, x)) != id {
            x += 1;
        }
        self.take_out(x);
        self.busy = self.busy_length();
        0
    }
}
