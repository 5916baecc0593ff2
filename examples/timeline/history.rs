//! What happened to the planner, from opening to opening. A run that breaks
//! the rules of a held round is an error, so that it is never drawn.

use crate::script::{Call, Deed};

/// A stream from its add to its remove.
#[derive(Clone)]
pub struct Stream {
    pub id: u64,
    /// S: the release of packet 0.
    pub first: u64,
    pub period: u64,
    pub deadline: u64,
    /// Now at the add, and at the remove.
    pub added: u64,
    pub removed: Option<u64>,
    /// The starts of the rounds that sent packet 0, 1, 2 and so on.
    pub sent: Vec<u64>,
}

impl Stream {
    pub fn release(&self, k: usize) -> u64 {
        self.first + k as u64 * self.period
    }

    pub fn due(&self, k: usize) -> u64 {
        self.release(k) + self.deadline
    }

    /// The number of the first unserved packet.
    pub fn unserved(&self) -> usize {
        self.sent.len()
    }

    /// The packets released before a time. With its stream goes all that it
    /// would have sent after its unserved packet.
    pub fn packets_before(&self, time: u64) -> impl Iterator<Item = usize> + '_ {
        let last = self.removed.map_or(usize::MAX, |_| self.unserved());
        (0..)
            .take_while(move |k| self.release(*k) < time)
            .take_while(move |k| *k <= last)
    }

    /// A packet rides in a round at s if it was released by s, equality counts,
    /// and is due at s + 1 or later.
    pub fn send(&mut self, start: u64) -> Result<(), String> {
        let k = self.unserved();
        let (id, release, due) = (self.id, self.release(k), self.due(k));
        if release > start || due < start + 1 {
            let packet = format!("its packet is released at {release} and due at {due}");
            return Err(format!("stream {id} cannot ride at {start}: {packet}"));
        }
        self.sent.push(start);
        Ok(())
    }
}

/// A held round.
pub struct Round {
    pub start: u64,
    /// In slot order.
    pub ids: Vec<u64>,
    /// Now before it, and whether the start is as late as the gap allows.
    pub after: u64,
    pub forced: bool,
}

/// A call that was refused by an opened planner, and now at it.
pub struct Refusal {
    pub now: u64,
    pub number: u64,
    pub call: Call,
}

/// A planner from its opening to the next O.
pub struct Opening {
    pub call: Call,
    pub slots: u64,
    pub superframe: u64,
    pub gap: u64,
    /// T: as if a round had been held here. Of a plan, the last start before.
    pub time: u64,
    pub streams: Vec<Stream>,
    pub rounds: Vec<Round>,
    pub refusals: Vec<Refusal>,
    pub closed: bool,
    /// Calls after a refused O closed it.
    pub outside: Vec<Call>,
}

/// All of a script's run.
pub struct History {
    /// Calls before the first successful O.
    pub before: Vec<Call>,
    pub openings: Vec<Opening>,
}

impl History {
    pub fn of(calls: Vec<Call>) -> Result<History, String> {
        let mut history = History {
            before: Vec::new(),
            openings: Vec::new(),
        };
        for call in calls {
            let line = call.line;
            history
                .take(call)
                .map_err(|fault| format!("line {line}: {fault}"))?;
        }
        Ok(history)
    }

    fn take(&mut self, call: Call) -> Result<(), String> {
        if let Deed::Opened { .. } = call.deed {
            self.openings.push(Opening::of(call));
            return Ok(());
        }
        match self.openings.last_mut() {
            Some(opening) if !opening.closed => opening.take(call),
            last => {
                let outside = last.map_or(&mut self.before, |opening| &mut opening.outside);
                let refused = matches!(call.deed, Deed::Refused { .. });
                outside.push(call);
                refused
                    .then_some(())
                    .ok_or_else(|| String::from("answered as done, but no planner is open"))
            }
        }
    }
}

impl Opening {
    fn of(call: Call) -> Opening {
        let Deed::Opened {
            slots,
            superframe,
            gap,
            time,
        } = call.deed
        else {
            unreachable!("called for an opening only");
        };
        Opening {
            call,
            slots,
            superframe,
            gap,
            time,
            streams: Vec::new(),
            rounds: Vec::new(),
            refusals: Vec::new(),
            closed: false,
            outside: Vec::new(),
        }
    }

    /// The end of the last round, L + 1.
    pub fn now(&self) -> u64 {
        self.rounds.last().map_or(self.time, |round| round.start) + 1
    }

    fn take(&mut self, call: Call) -> Result<(), String> {
        match call.deed.clone() {
            Deed::Opened { .. } => unreachable!("an opening begins another history"),
            Deed::Added {
                id,
                first,
                period,
                deadline,
            } => self.add(id, first, period, deadline),
            Deed::Removed { id } => self.remove(id),
            Deed::Held { start, ids } => self.hold(start, ids),
            Deed::Refused { number, closes } => {
                let now = self.now();
                self.refusals.push(Refusal { now, number, call });
                self.closed = closes;
                Ok(())
            }
        }
    }

    pub fn held(&mut self, id: u64) -> Option<&mut Stream> {
        let mut streams = self.streams.iter_mut();
        streams.find(|stream| stream.id == id && stream.removed.is_none())
    }

    fn add(&mut self, id: u64, first: u64, period: u64, deadline: u64) -> Result<(), String> {
        let added = self.now();
        if self.held(id).is_some() {
            return Err(format!("stream {id} is added twice"));
        }
        if period == 0 || deadline == 0 || deadline > period || first < added {
            return Err(format!("stream {id} has values out of range"));
        }
        self.streams.push(Stream {
            id,
            first,
            period,
            deadline,
            added,
            removed: None,
            sent: Vec::new(),
        });
        Ok(())
    }

    fn remove(&mut self, id: u64) -> Result<(), String> {
        let now = self.now();
        let stream = self.held(id).ok_or(format!("no stream {id} is held"))?;
        stream.removed = Some(now);
        Ok(())
    }

    pub fn hold(&mut self, start: u64, ids: Vec<u64>) -> Result<(), String> {
        let (after, cap) = (self.now(), self.now() + self.gap);
        if start < after || start > cap {
            return Err(format!("a round at {start} is not from {after} to {cap}"));
        }
        if ids.len() as u64 > self.slots {
            return Err(format!("{} ids in {} slots", ids.len(), self.slots));
        }
        for id in &ids {
            let stream = self.held(*id).ok_or(format!("no stream {id} is held"))?;
            stream.send(start)?;
        }
        self.rounds.push(Round {
            start,
            ids,
            after,
            forced: start == cap,
        });
        self.none_late()
    }

    /// Each unserved packet is due after now: a later round can still send it.
    fn none_late(&self) -> Result<(), String> {
        let now = self.now();
        let mut held = self.streams.iter().filter(|held| held.removed.is_none());
        match held.find(|stream| stream.due(stream.unserved()) <= now) {
            Some(late) => Err(format!("stream {} has a packet late", late.id)),
            None => Ok(()),
        }
    }
}
