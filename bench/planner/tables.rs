// The calls that are measured of each table, each with one state in the hands of all.
use super::analytic::Analytic;
use super::fast::Fast;
use super::limit::Limit;
use super::loads::{Random, Table, FRAME, ROUNDS};
use super::plain::Plain;
use super::proved::{open, streams, Planner};
use super::{Call, Host, Offer};

// One state in the hands of all five.
#[derive(Clone)]
pub struct Hosts {
    pub proved: Planner,
    pub limit: Limit,
    pub fast: Fast,
    pub plain: Plain,
    pub analytic: Analytic,
}

impl Hosts {
    pub fn of(proved: Planner) -> Hosts {
        let (slots, frame, gap, last, streams) = (proved.slots - proved.messages, proved.frame, proved.gap, proved.last, streams(&proved));
        Hosts {
            proved,
            limit: Limit(proved),
            fast: Fast::of(slots, frame, gap, last, &streams),
            plain: Plain::of(slots, frame, gap, last, &streams),
            analytic: Analytic::of(slots, frame, gap, last, &streams),
        }
    }
}

pub struct Case {
    pub name: &'static str,
    pub hosts: Hosts,
    pub call: Call,
}

// The stream that was taken out, at any start: accepted, it makes the table as busy as before.
fn same_again(now: u32, period: u32) -> Vec<Offer> {
    (now..now + 240).map(|start| Offer { id: 999, start, period, deadline: period }).collect()
}

// Streams that ask for much or at once.
fn demanding(now: u32) -> Vec<Offer> {
    let pairs = [240, 60, 8, 1].into_iter().flat_map(|period| [period, period.min(3), period.min(2), 1].map(|deadline| (period, deadline)));
    pairs.flat_map(|(period, deadline)| [now, now + 1].map(|start| Offer { id: 999, start, period, deadline })).collect()
}

// The first offer that the planner answers so; it is not changed.
fn offer_with_answer(p: &Planner, answer: u32, period: u32) -> Option<Offer> {
    let now = p.last + 1;
    let offers = if answer == 0 { same_again(now, period) } else { demanding(now) };
    offers.into_iter().find(|offer| p.clone().add(*offer) == answer)
}

// Streams that leave no room for one more: by the demand rule, or by the start rule at some time.
#[derive(Clone, Copy, PartialEq)]
enum Crowd {
    Demand,
    Start,
}

impl Table {
    // The table with no short period: a round at every time unit would leave nothing waiting.
    fn unhurried(&self) -> Table {
        let periods = self.periods.iter().map(|p| if *p < 8 { 240 } else { *p }).collect();
        Table { periods, ..self.clone() }
    }

    // All streams but the last, with a crowd: as many with deadline 1 as there are slots; or twice as many at one start, due within 2 and 3 of it.
    fn crowded(&self, crowd: Crowd) -> Option<Planner> {
        let mut random = Random(11);
        let mut p = open(self.slots, FRAME, self.gap);
        let b = self.slots as usize;
        let fewer = self.periods.len() - 1;
        let ones = self.periods[..fewer].iter().filter(|period| **period == 1).count();
        let (short, late) = if crowd == Crowd::Demand { (b.checked_sub(ones)?, 0) } else { (0, 2 * b) };
        if late > fewer {
            return None;
        }
        for i in late..fewer {
            self.add(&mut p, &mut random, i, (i < short).then_some(1));
        }
        for _ in 0..ROUNDS {
            p.round();
        }
        let together = |start| {
            let mut q = p;
            let offer = |i: usize| Offer { id: i as u32 + 1, start, period: self.periods[i], deadline: if i < b { 2 } else { 3 } };
            (0..late).all(|i| q.add(offer(i)) == 0).then_some(q)
        };
        (p.last + 1..p.last + 240).find_map(together)
    }

    // An offer that the planner answers so, after some rounds if need be.
    fn with_offer(&self, mut p: Planner, answer: u32) -> Option<(Planner, Offer)> {
        let period = *self.periods.last()?;
        for _ in 0..ROUNDS {
            if let Some(offer) = offer_with_answer(&p, answer, period) {
                return Some((p, offer));
            }
            p.round();
        }
        None
    }

    // All calls. Where no offer is refused so on the table as it is, one is made to a crowded one.
    pub fn cases(&self) -> Vec<Case> {
        let filled = self.filled();
        let last = self.periods.len() as u32;
        let mut cases = vec![];
        let mut case = |name, p: &Planner, call| cases.push(Case { name, hosts: Hosts::of(*p), call });
        case("round", &filled, Call::Round);
        case("remove", &filled, Call::Remove(last));
        // one stream fewer, so that there is room for an offer
        let mut fewer = filled;
        fewer.remove(last);
        let adds = [("add", 0, None), ("add, 12", 12, Some(Crowd::Demand)), ("add, 13", 13, Some(Crowd::Start))];
        for (name, answer, crowd) in adds {
            let crowded = || match crowd? {
                Crowd::Demand => self.with_offer(self.crowded(Crowd::Demand)?, answer),
                Crowd::Start => self.with_offer(self.unhurried().crowded(Crowd::Start)?, answer),
            };
            if let Some((p, offer)) = self.with_offer(fewer, answer).or_else(crowded) {
                case(name, &p, Call::Add(offer));
            }
        }
        // the same streams with one slot more, which is for messages: each round as before, with messages behind its ids; and the 32nd message
        if filled.slots < 64 {
            let mut with_messages = Planner { slots: filled.slots + 1, messages: 1, ..filled };
            with_messages.fill_waiting();
            case("round, 32 waiting", &with_messages, Call::FullRound);
            with_messages.waiting.count = 31;
            case("send", &with_messages, Call::Send(65_535));
        }
        cases
    }
}
