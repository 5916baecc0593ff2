//! The planner, literal and slow: every rule is summed with divisions, for
//! every length, at every call. Numbers are 64 bits wide, so no sum can pass
//! its type. It shares nothing with the program it checks.

/// Annex 1.3: the last start of a round.
pub const LAST_START: u64 = 1_000_000_000;

/// Annex 3.6: the most streams that a planner holds.
const MOST_STREAMS: usize = 64;

/// Annex 3.15: the most messages that wait.
const MOST_WAITING: usize = 32;

/// Lengths looked at beyond those that are enough (see `demand_rule` and
/// `times`); none of the rules needs it.
const MARGIN: u64 = 480;

/// Annex 3.2: a stream with its first unserved packet, of which the release is
/// kept; it is due at the release plus D.
#[derive(Clone, Debug, PartialEq, Eq)]
pub struct Stream {
    pub id: u64,
    pub period: u64,
    pub deadline: u64,
    pub release: u64,
}

impl Stream {
    pub fn due(&self) -> u64 {
        self.release + self.deadline
    }

    /// Annex 2.3: the unserved packet may ride in a round at s if it is
    /// released at s or before and due at s + 1 or later.
    pub fn may_ride(&self, s: u64) -> bool {
        self.release <= s && self.due() >= s + 1
    }
}

/// Annex 3.14: the numbers that are messages.
fn is_message(number: u64) -> bool {
    (32_768..=65_535).contains(&number)
}

/// Annex 3.15: the waiting messages, in the order in which they were sent:
/// they stand in the first of 32 places, as many as the count says.
#[derive(Clone, Debug, PartialEq, Eq)]
pub struct Waiting {
    pub count: u64,
    pub numbers: [u64; MOST_WAITING],
}

impl Waiting {
    /// Those of a list, which has at most 32.
    fn of(list: &[u64]) -> Waiting {
        let mut numbers = [0; MOST_WAITING];
        numbers[..list.len()].copy_from_slice(list);
        Waiting {
            count: list.len() as u64,
            numbers,
        }
    }

    /// The list of them; of a count above 32 all places.
    fn list(&self) -> &[u64] {
        &self.numbers[..MOST_WAITING.min(self.count as usize)]
    }

    /// Annex 3.17: at most so many by the count itself, each a message.
    fn in_range(&self, most: usize) -> bool {
        self.count <= most as u64 && self.list().iter().all(|number| is_message(*number))
    }
}

/// Annex 3.1: B, F, G, whether messages are on (1) or off (0), the last
/// round's start L, the waiting messages, and the streams, each with its first
/// unserved packet.
#[derive(Clone, Debug, PartialEq, Eq)]
pub struct Planner {
    pub slots: u64,
    pub superframe: u64,
    pub gap: u64,
    pub messages: u64,
    pub last: u64,
    pub waiting: Waiting,
    pub streams: Vec<Stream>,
}

impl Planner {
    /// Annex 3.12: the closed planner, every number 0, messages off, no stream
    /// and nothing waiting.
    pub fn closed() -> Planner {
        Planner {
            slots: 0,
            superframe: 0,
            gap: 0,
            messages: 0,
            last: 0,
            waiting: Waiting::of(&[]),
            streams: Vec::new(),
        }
    }

    /// Annex 7.5 to 7.8: 1 for B, 2 for F, 3 for G out of range, 4 for T above
    /// 1,000,000,000. Messages are off with 0 and on with any other number,
    /// and 1 is also for B = 1 with them on, which leaves no slot to streams.
    /// The new planner has L = T and nothing waiting; refused, it is the
    /// closed one.
    pub fn open(slots: u64, superframe: u64, gap: u64, time: u64, on: u64) -> (Planner, u32) {
        let messages = u64::from(on != 0);
        let answer = if !(1..=64).contains(&slots) || (slots == 1 && on != 0) {
            1
        } else if !(1..=5_040).contains(&superframe) {
            2
        } else if !(1..=255).contains(&gap) {
            3
        } else if time > LAST_START {
            4
        } else {
            0
        };
        if answer != 0 {
            return (Planner::closed(), answer);
        }
        let planner = Planner {
            slots,
            superframe,
            gap,
            messages,
            last: time,
            waiting: Waiting::of(&[]),
            streams: Vec::new(),
        };
        (planner, 0)
    }

    /// A planner made by these operations is sound or closed, so the closed
    /// one is the only one that is not sound. (`sound` states it in full.)
    pub fn is_closed(&self) -> bool {
        self.slots == 0
    }

    /// Annex 3.4: now, the end of the last round.
    pub fn now(&self) -> u64 {
        self.last + 1
    }

    /// Annex 3.16: the slots for streams, which every rule and every plan
    /// counts: B, less the one that is kept with messages on.
    pub fn stream_slots(&self) -> u64 {
        self.slots - self.messages
    }

    pub fn holds(&self, id: u64) -> bool {
        self.streams.iter().any(|stream| stream.id == id)
    }

    /// The add: 0 with the stream held, or a refusal with nothing changed.
    pub fn add(&mut self, id: u64, start: u64, period: u64, deadline: u64) -> u32 {
        let answer = self.add_refusal(id, start, period, deadline);
        if answer == 0 {
            *self = self.with(id, start, period, deadline);
        }
        answer
    }

    /// Annex 7.11 to 7.19: the first of these refusals that applies, else 0.
    fn add_refusal(&self, id: u64, start: u64, period: u64, deadline: u64) -> u32 {
        // 5: the planner is not sound
        if self.is_closed() {
            return 5;
        }
        // 6: the id is not 1 to 32,767
        if !(1..=32_767).contains(&id) {
            return 6;
        }
        // 7: the id is held
        if self.holds(id) {
            return 7;
        }
        // 8: 64 streams are held
        if self.streams.len() >= MOST_STREAMS {
            return 8;
        }
        // 9: P is not 1 to 240, or does not divide F
        if !(1..=240).contains(&period) || self.superframe % period != 0 {
            return 9;
        }
        // 10: D is not 1 to P
        if !(1..=period).contains(&deadline) {
            return 10;
        }
        // 11: S is before now or after now + 239
        if start < self.now() || start > self.now() + 239 {
            return 11;
        }
        let table = self.with(id, start, period, deadline);
        // 12: the table with it breaks the demand rule
        if !table.demand_rule() {
            return 12;
        }
        // 13: it breaks the start rule
        if !table.start_rule() {
            return 13;
        }
        0
    }

    /// The table with one stream more: its packet 0 is the first unserved.
    fn with(&self, id: u64, start: u64, period: u64, deadline: u64) -> Planner {
        let mut table = self.clone();
        table.streams.push(Stream {
            id,
            period,
            deadline,
            release: start,
        });
        table
    }

    /// Annex 7.22, 7.23: 5, then 14 for an id not held. The stream's unserved
    /// packet goes with it.
    pub fn remove(&mut self, id: u64) -> u32 {
        if self.is_closed() {
            return 5;
        }
        if !self.holds(id) {
            return 14;
        }
        self.streams.retain(|stream| stream.id != id);
        0
    }

    /// Annex 7.41 to 7.45: 5; 29 for a number that is no message, and for any
    /// with messages off; 30 with 32 waiting. The message waits behind the
    /// others, equal ones too.
    pub fn send(&mut self, number: u64) -> u32 {
        if self.is_closed() {
            return 5;
        }
        if !is_message(number) || self.messages == 0 {
            return 29;
        }
        let waiting = self.waiting.list();
        if waiting.len() >= MOST_WAITING {
            return 30;
        }
        self.waiting = Waiting::of(&[waiting, &[number]].concat());
        0
    }

    /// Annex 7.24 to 7.32: 5; 16 for a buffer shorter than B; 17 if the start
    /// is after 1,000,000,000. It gives the start and the count n; the ids
    /// and behind them messages stand in the first n places, and later places
    /// are untouched. With no stream the cap is all that the lazy rule is left
    /// with. Annex 7.46, 7.47: of the waiting messages the first that fit in
    /// the slots of B which the ids leave free are listed, and wait no longer.
    pub fn round(&mut self, buffer: &mut [u16]) -> Result<(u64, usize), u32> {
        if self.is_closed() {
            return Err(5);
        }
        if (buffer.len() as u64) < self.slots {
            return Err(16);
        }
        let start = self.next_start();
        if start > LAST_START {
            return Err(17);
        }
        let ids = self.slot_ids(start);
        let free = (self.slots as usize).saturating_sub(ids.len());
        let waiting = self.waiting.list();
        let (leaving, staying) = waiting.split_at(free.min(waiting.len()));
        let listed = [&ids, leaving].concat();
        let staying = Waiting::of(staying);
        for (place, number) in buffer.iter_mut().zip(&listed) {
            *place = u16::try_from(*number).expect("ids and messages are 1 to 65,535");
        }
        self.serve(&ids);
        self.waiting = staying;
        self.last = start;
        Ok((start, listed.len()))
    }

    /// Annex 5.2, 5.3: of the packets that may ride the first by due time, as
    /// many as there are slots for streams, in that order; those due at the
    /// same time go by earlier release, then by smaller id.
    pub fn slot_ids(&self, start: u64) -> Vec<u64> {
        self.first_riders(start, |stream| (stream.due(), stream.release, stream.id))
    }

    /// The slots by due time and then id alone, for counting the rounds that
    /// tell the two orders apart; no answer comes from here.
    pub fn slot_ids_by_due_then_id(&self, start: u64) -> Vec<u64> {
        self.first_riders(start, |stream| (stream.due(), stream.id))
    }

    /// The ids of the first of the packets that may ride, by a key. As D is
    /// at most P, a stream's later packet is released when the one before it
    /// is due or after, so at most the first unserved packet of each stream
    /// may ride.
    fn first_riders<K: Ord>(&self, start: u64, key: impl Fn(&Stream) -> K) -> Vec<u64> {
        let mut riders: Vec<&Stream> = self
            .streams
            .iter()
            .filter(|stream| stream.may_ride(start))
            .collect();
        riders.sort_by_key(|stream| key(stream));
        riders.truncate(self.stream_slots() as usize);
        riders.iter().map(|stream| stream.id).collect()
    }

    /// Annex 5.6: each stream served passes to its next packet.
    fn serve(&mut self, ids: &[u64]) {
        for stream in &mut self.streams {
            if ids.contains(&stream.id) {
                stream.release += stream.period;
            }
        }
    }

    /// Annex 4.1: the sum, over streams with D ≤ t, of floor((t - D) / P) + 1.
    fn demand(&self, t: u64) -> u64 {
        self.streams
            .iter()
            .filter(|stream| stream.deadline <= t)
            .map(|stream| (t - stream.deadline) / stream.period + 1)
            .sum()
    }

    /// Annex 4.2: the demand rule: for every length t ≥ 1 the demand is at
    /// most B×t. Here and in all that follows B is the slots for streams.
    ///
    /// Why t = 1 to F is far enough: a stream with D > t adds nothing, and as
    /// D ≤ P its floor is then -1, so the formula may be read for all streams
    /// at every t ≥ 0. As every P divides F, the sum at t + F is the sum at t
    /// plus sum F/P, and the sum at F is sum F/P itself. If the rule holds at
    /// F, then sum F/P ≤ B×F, and what holds at t holds at t + F.
    pub fn demand_rule(&self) -> bool {
        (1..=self.superframe + MARGIN).all(|t| self.demand(t) <= self.stream_slots() * t)
    }

    /// Annex 4.3: the future demand h(t), the same sum with t minus the due
    /// time d of the unserved packet, over streams with d ≤ t.
    fn future_demand(&self, t: u64) -> u64 {
        self.streams
            .iter()
            .filter(|stream| stream.due() <= t)
            .map(|stream| (t - stream.due()) / stream.period + 1)
            .sum()
    }

    /// The times t > now that are looked at for h(t).
    ///
    /// Why they reach far enough: an unserved packet is released at most at
    /// now + 239 and due at most 240 later, so from now + 479 on every stream
    /// is in the sum, and h(t + F) - h(t) = sum F/P. The demand rule at F says
    /// that this is at most B×F. So h(t) - B×t does not grow from t to t + F:
    /// a break of the start rule at t + F is one at t. And ceil(h(t) / B)
    /// grows by at most F, so t - ceil(h(t) / B) does not fall from t to
    /// t + F: the least is reached by now + 479 + F.
    fn times(&self) -> std::ops::RangeInclusive<u64> {
        self.now() + 1..=self.now() + 480 + self.superframe + MARGIN
    }

    /// Annex 4.4: the start rule: h(t) ≤ B×(t - now) for every t > now.
    pub fn start_rule(&self) -> bool {
        self.times()
            .all(|t| self.future_demand(t) <= self.stream_slots() * (t - self.now()))
    }

    /// Annex 4.5: the cap on the next start, G after the end of the last
    /// round.
    pub fn cap(&self) -> u64 {
        self.last + 1 + self.gap
    }

    /// Annex 4.6: the lazy rule: the next start is the least of the cap and
    /// all t - ceil(h(t) / B) with h(t) > 0. No due time is at now or before,
    /// so h(t) = 0 up to now. Nothing is raised to now: for a sound planner
    /// the least is never below it, and one that were would be a fault here.
    fn next_start(&self) -> u64 {
        let mut least = self.cap();
        for t in self.times() {
            let h = self.future_demand(t);
            if h > 0 {
                least = least.min(t - h.div_ceil(self.stream_slots()));
            }
        }
        assert!(least >= self.now(), "a start before now");
        least
    }

    /// Annex 3.5 to 3.10, 3.17: (a) all values are in range, those of messages
    /// among them, each P divides F and ids differ; (b) each unserved packet is due after now and released at
    /// now + 239 or before; (c) the demand rule and (d) the start rule hold.
    /// There is no queue here, so (e) is void. Used by the self-test, and by
    /// the calls on a planner whose memory was set.
    pub fn sound(&self) -> bool {
        self.in_range()
            && self
                .streams
                .iter()
                .all(|stream| stream.due() > self.now() && stream.release <= self.now() + 239)
            && self.demand_rule()
            && self.start_rule()
    }

    /// Part (a) of `sound`.
    fn in_range(&self) -> bool {
        let count = |id| self.streams.iter().filter(|stream| stream.id == id).count();
        (1..=64).contains(&self.slots)
            && (1..=5_040).contains(&self.superframe)
            && (1..=255).contains(&self.gap)
            && self.last <= LAST_START
            && self.messages <= 1
            && self.slots > self.messages
            && self.waiting.in_range(MOST_WAITING * self.messages as usize)
            && self.streams.len() <= MOST_STREAMS
            && self.streams.iter().all(|stream| {
                (1..=32_767).contains(&stream.id)
                    && count(stream.id) == 1
                    && (1..=240).contains(&stream.period)
                    && self.superframe % stream.period == 0
                    && (1..=stream.period).contains(&stream.deadline)
            })
    }
}

/// Annex 9.1 to 9.4: 18 if any period is not 1 to 240, 19 if the least common
/// multiple is above 5,040, both with value 0. No periods give 1. The answer
/// and the value.
pub fn superframe(periods: &[u8]) -> (u32, u64) {
    if !periods.iter().all(|period| (1..=240).contains(period)) {
        return (18, 0);
    }
    let divides = |value: &u64| periods.iter().all(|period| value % u64::from(*period) == 0);
    match (1..=5_040).find(divides) {
        Some(value) => (0, value),
        None => (19, 0),
    }
}
