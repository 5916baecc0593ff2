//! A plan from its beginning on: the rounds that pass, the one that breaks a
//! rule, and beside them the planner's own rounds over the same time.

use crate::history::{Opening, Stream};
use crate::plan::{Packet, Verdict};
use crate::scale;
use crate::script::Deed;

/// A start further than this beyond the gap limit is told and not drawn.
const FAR: u64 = 60;

/// The first round that breaks a rule.
pub struct Broken {
    pub round: usize,
    pub rule: u64,
    pub words: String,
    pub content: String,
    /// The end of the round before.
    pub after: u64,
    /// Unless it is cut short, or starts where no column can stand.
    pub packet: Option<Packet>,
    pub faults: Vec<Fault>,
}

/// A packet for which a round breaks rule 4, in which it may not ride, or rule
/// 5, after which it may not be left.
pub struct Fault {
    pub id: u64,
    pub release: u64,
    pub due: u64,
    pub rides: bool,
}

impl Broken {
    /// Where it is marked.
    pub fn time(&self) -> u64 {
        self.packet.as_ref().map_or(self.after, |it| it.start)
    }

    /// The wait up to the gap limit, if it starts past that.
    pub fn limit(&self, gap: u64) -> Option<(u64, u64)> {
        let (from, to) = (self.after, self.after + gap);
        (self.time() > to).then_some((from, to))
    }

    /// The end of its column.
    pub fn end(&self) -> u64 {
        self.packet.as_ref().map_or(self.after, |it| it.start + 1)
    }
}

/// A plan as far as it passes, beside the planner's own rounds.
pub struct Judged {
    pub plan: Opening,
    pub broken: Option<Broken>,
    pub own: Opening,
    /// The end of the drawn time.
    pub end: u64,
}

impl Judged {
    pub fn of(
        begun: &Opening,
        packets: &[Packet],
        verdict: &Verdict,
        own: &[Deed],
    ) -> Result<Judged, String> {
        let mut plan = begun.from_here();
        let passed = match verdict {
            Verdict::Sound { rounds } => *rounds,
            Verdict::Breaks { round, .. } => round - 1,
        };
        if packets.len() < passed {
            return Err(format!("the plan has fewer packets than {passed}"));
        }
        for (place, packet) in packets[..passed].iter().enumerate() {
            hold(&mut plan, packet)
                .map_err(|fault| format!("round {} passes, but {fault}", place + 1))?;
        }
        let broken = broken(&mut plan, verdict, packets.get(passed))?;
        let now = broken.as_ref().map_or(plan.now(), Broken::end);
        let end = scale::end_from(&plan, now.max(plan.now()));
        let own = over_the_same_time(begun.from_here(), own, end)?;
        Ok(Judged {
            plan,
            broken,
            own,
            end,
        })
    }
}

impl Opening {
    /// A planner as it is now, for rounds that are to come.
    fn from_here(&self) -> Opening {
        let held = self.streams.iter().filter(|it| it.removed.is_none());
        Opening {
            call: self.call.clone(),
            slots: self.slots,
            superframe: self.superframe,
            gap: self.gap,
            time: self.now() - 1,
            streams: held.cloned().collect(),
            rounds: Vec::new(),
            refusals: Vec::new(),
            closed: false,
            outside: Vec::new(),
        }
    }
}

/// A packet's round, its messages with it.
fn hold(plan: &mut Opening, packet: &Packet) -> Result<(), String> {
    plan.hold(packet.start, packet.stream_ids())?;
    let round = plan.rounds.last_mut().expect("it was held just now");
    round.ids.clone_from(&packet.numbers);
    Ok(())
}

/// The planner's own rounds that begin before a time.
fn over_the_same_time(mut own: Opening, deeds: &[Deed], end: u64) -> Result<Opening, String> {
    for deed in deeds {
        match deed {
            Deed::Held { start, ids } if *start < end => own.hold(*start, ids.clone())?,
            _ => break,
        }
    }
    Ok(own)
}

/// The round that breaks a rule. Those of its packets that may ride are sent.
fn broken(
    plan: &mut Opening,
    verdict: &Verdict,
    packet: Option<&Packet>,
) -> Result<Option<Broken>, String> {
    let Verdict::Breaks {
        round,
        content,
        rule,
        words,
    } = verdict
    else {
        return Ok(None);
    };
    let after = plan.now();
    let limit = after + plan.gap + FAR;
    let drawn = packet.filter(|it| (after..=limit).contains(&it.start));
    let mut faults = Vec::new();
    if let Some(packet) = drawn {
        if *rule > 1
            && plan
                .from_here()
                .hold(packet.start, packet.stream_ids())
                .is_ok()
        {
            return Err(format!(
                "round {round} is said to break rule {rule}, but passes"
            ));
        }
        let unfit = sent(plan, packet);
        faults = match rule {
            4 => unfit,
            5 => left(plan, packet.start),
            _ => faults,
        };
    }
    Ok(Some(Broken {
        round: *round,
        rule: *rule,
        words: words.clone(),
        content: content.clone(),
        after,
        packet: drawn.cloned(),
        faults,
    }))
}

/// Sends what may ride, and answers what may not.
fn sent(plan: &mut Opening, packet: &Packet) -> Vec<Fault> {
    let mut faults = Vec::new();
    for id in packet.stream_ids() {
        let Some(stream) = plan.held(id) else {
            continue;
        };
        if stream.send(packet.start).is_err() {
            faults.push(fault(stream, true));
        }
    }
    faults
}

/// What is due by the end of a round and still there.
fn left(plan: &Opening, start: u64) -> Vec<Fault> {
    let streams = plan.streams.iter();
    streams
        .filter(|it| it.due(it.unserved()) <= start + 1)
        .map(|it| fault(it, false))
        .collect()
}

fn fault(stream: &Stream, rides: bool) -> Fault {
    let k = stream.unserved();
    Fault {
        id: stream.id,
        release: stream.release(k),
        due: stream.due(k),
        rides,
    }
}
