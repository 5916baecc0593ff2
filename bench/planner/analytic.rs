// The analytic way: the sums of the rules (Annex 4.1 to 4.6) as they stand, with a division for each stream and each length that can matter. Those
// are, for the demand rule, the lengths up to the superframe F; for future demand, the times up to F after the last due time held: from
// there on each F more adds the packets of a superframe, at most B × F where the demand rule holds.
use super::{mixed, Host, Offer};

#[derive(Clone, Copy)]
struct Stream {
    id: u32,
    period: u32,
    deadline: u32,
    release: u32,
}

#[derive(Clone)]
pub struct Analytic {
    slots: u32,
    frame: u32,
    gap: u32,
    last: u32,
    streams: Vec<Stream>,
}

// How many due times from `first` on, one every `period`, are at most t.
fn times(first: u32, period: u32, t: u32) -> u32 {
    if first <= t {
        (t - first) / period + 1
    } else {
        0
    }
}

impl Analytic {
    pub fn of(slots: u32, frame: u32, gap: u32, last: u32, streams: &[[u32; 4]]) -> Analytic {
        let streams = streams.iter().map(|s| Stream { id: s[0], period: s[1], deadline: s[2], release: s[3] }).collect();
        Analytic { slots, frame, gap, last, streams }
    }

    fn demand(&self, t: u32) -> u32 {
        self.streams.iter().map(|s| times(s.deadline, s.period, t)).sum()
    }

    fn future_demand(&self, t: u32) -> u32 {
        self.streams.iter().map(|s| times(s.release + s.deadline, s.period, t)).sum()
    }

    fn keeps_demand_rule(&self) -> bool {
        (1..=self.frame).all(|t| self.demand(t) <= self.slots * t)
    }

    fn horizon(&self) -> u32 {
        self.frame + self.streams.iter().map(|s| s.release + s.deadline).max().unwrap_or(self.last + 1)
    }

    fn keeps_start_rule(&self) -> bool {
        let now = self.last + 1;
        (now + 1..=self.horizon()).all(|t| self.future_demand(t) <= self.slots * (t - now))
    }
}

impl Host for Analytic {
    fn round(&mut self) -> u32 {
        let mut start = self.last + 1 + self.gap;
        for t in self.last + 2..=self.horizon() {
            let h = self.future_demand(t);
            if h > 0 {
                start = start.min(t - h.div_ceil(self.slots));
            }
        }
        let released = self.streams.iter().filter(|s| s.release <= start);
        let mut riding: Vec<(u32, u32, u32)> = released.map(|s| (s.release + s.deadline, s.release, s.id)).collect();
        riding.sort_unstable();
        riding.truncate(self.slots as usize);
        let ids: Vec<u16> = riding.iter().map(|r| r.2 as u16).collect();
        for s in &mut self.streams {
            if ids.contains(&(s.id as u16)) {
                s.release += s.period;
            }
        }
        self.last = start;
        mixed(start, &ids)
    }

    fn add(&mut self, o: Offer) -> u32 {
        self.streams.push(Stream { id: o.id, period: o.period, deadline: o.deadline, release: o.start });
        let answer = if !self.keeps_demand_rule() {
            12
        } else if !self.keeps_start_rule() {
            13
        } else {
            return 0;
        };
        self.streams.pop();
        answer
    }

    // There is nothing to compute: no busy length is kept.
    fn remove(&mut self, id: u32) -> u32 {
        self.streams.retain(|s| s.id != id);
        0
    }
}
