//! Which times are drawn, how wide a unit is, and where bands break.

use crate::axis::{Band, Plot, BREAK};
use crate::heads::{self, Head};
use crate::history::Opening;
use crate::ticks;
use std::collections::{BTreeMap, BTreeSet};

/// A unit's widths: at most, if times have few digits, at least, and enough to
/// leave out less time.
const WIDEST: f64 = 44.0;
const NARROWEST: f64 = 6.0;
const ENOUGH: f64 = 12.0;

/// How far a head may stand from its column, in pixels or in its own width.
const FAR: f64 = 36.0;
const FAR_IN_WIDTHS: f64 = 0.75;

/// Stretches of so many units in which nothing happens are left out, if
/// without that the run does not fit: the longest ones first.
const IDLE: [u64; 4] = [u64::MAX, 96, 48, 24];

/// How long unserved packets are shown after now: a sixth of the run, within
/// these; and if no round was held.
const AFTER: (u64, u64) = (4, 8);
const AFTER_NO_ROUND: u64 = 60;

/// The bands of an opening's run.
pub fn bands(opening: &Opening, plot: &Plot) -> Vec<Band> {
    let mut bands = bands_of(&times(opening, end(opening)), &[heads(opening)], plot);
    while bands.len() > 1 && is_idle(opening, &bands[bands.len() - 1]) {
        bands.pop();
    }
    finished(bands)
}

/// Bands for these times, in which each list of heads has room.
pub fn bands_of(times: &BTreeSet<u64>, heads: &[Vec<Head>], plot: &Plot) -> Vec<Band> {
    one_band(times, heads, plot).unwrap_or_else(|| several(times, heads, plot))
}

/// Whether a band shows nothing but packets not sent, and no call after the
/// last round made them so.
fn is_idle(opening: &Opening, band: &Band) -> bool {
    let now = opening.now();
    let mut streams = opening.streams.iter();
    let changed = streams.any(|it| it.added == now || it.removed == Some(now));
    band.from() >= now && !changed
}

/// The heads of all rounds, and of the one taken as held.
pub fn heads(opening: &Opening) -> Vec<Head> {
    let first = Head::of_opening(opening.time);
    let rounds = opening.rounds.iter().map(Head::of);
    std::iter::once(first).chain(rounds).collect()
}

/// The end of the drawn time: what is due next, if it is released soon.
pub fn end(opening: &Opening) -> u64 {
    end_from(opening, opening.now())
}

/// The same where the last round drawn ends at `now`.
pub fn end_from(opening: &Opening, now: u64) -> u64 {
    let after = match now == opening.time + 1 {
        true => AFTER_NO_ROUND,
        false => ((now - opening.time) / 6).clamp(AFTER.0, AFTER.1),
    };
    let streams = opening.streams.iter();
    let soon = streams.filter(|it| it.release(it.unserved()) < now + after);
    let due = soon.map(|it| it.due(it.unserved())).max().unwrap_or(0);
    due.clamp(now + 1, now + after)
}

/// The times at which something happens, with the ends of what is drawn.
pub fn times(opening: &Opening, end: u64) -> BTreeSet<u64> {
    let mut times = BTreeSet::from([opening.time, opening.time + 1, end]);
    for round in &opening.rounds {
        times.extend([round.start, round.start + 1]);
    }
    for stream in &opening.streams {
        for k in stream.packets_before(end) {
            times.extend([stream.release(k), stream.due(k).min(end)]);
        }
    }
    // What a plan begins from may have been held for long.
    times.split_off(&opening.time)
}

/// The stretches that are drawn where idle ones of this length are left out,
/// but for a unit at each of their ends.
fn kept(times: &BTreeSet<u64>, idle: u64) -> Vec<(u64, u64)> {
    let mut stretches: Vec<(u64, u64)> = Vec::new();
    for time in times {
        match stretches.last_mut() {
            Some((_, to)) if time - *to < idle => *to = *time,
            Some((_, to)) => {
                *to += 1;
                stretches.push((time - 1, *time));
            }
            None => stretches.push((*time, *time)),
        }
    }
    stretches
}

/// All in one band, with as few breaks as can be.
fn one_band(times: &BTreeSet<u64>, heads: &[Vec<Head>], plot: &Plot) -> Option<Vec<Band>> {
    IDLE.iter().find_map(|idle| {
        let kept = kept(times, *idle);
        let units: u64 = kept.iter().map(|(from, to)| to - from).sum();
        let room = plot.width - (kept.len() - 1) as f64 * BREAK;
        let unit = (room / units as f64).floor().min(widest(times));
        if unit < ENOUGH {
            return None;
        }
        let bands = split(&kept, heads, unit, plot);
        (bands.len() == 1 && near(&bands, heads, plot)).then_some(bands)
    })
}

/// The unit's greatest width: each time's number has room.
fn widest(times: &BTreeSet<u64>) -> f64 {
    let number = times.last().map_or(0.0, |time| ticks::width(*time));
    WIDEST.max((number + ticks::ROOM).ceil())
}

/// The fewest bands in which heads stand near their columns, and then the
/// widest unit with as few. Units go by halves.
fn several(times: &BTreeSet<u64>, heads: &[Vec<Head>], plot: &Plot) -> Vec<Band> {
    let kept = kept(times, IDLE[IDLE.len() - 1]);
    let split = |unit: f64| split(&kept, heads, unit, plot);
    let widest = widest(times);
    let units = |from: f64| {
        let steps = (0..).map(move |step| from + f64::from(step) / 2.0);
        steps.take_while(move |unit| *unit <= widest)
    };
    let fewest = units(NARROWEST)
        .map(split)
        .find(|bands| near(bands, heads, plot))
        .unwrap_or_else(|| split(widest));
    let wider = units(fewest[0].unit).map(split);
    let as_few = wider.take_while(|bands| bands.len() <= fewest.len());
    as_few.last().unwrap_or(fewest)
}

/// Fills band after band, unit by unit, while units and heads have room.
fn split(kept: &[(u64, u64)], heads: &[Vec<Head>], unit: f64, plot: &Plot) -> Vec<Band> {
    let mut bands: Vec<Vec<(u64, u64)>> = vec![Vec::new()];
    let (mut used, mut headed) = (0.0, Headed::of(heads));
    for time in kept.iter().flat_map(|(from, to)| *from..*to) {
        let begins = kept.iter().any(|(from, _)| *from == time);
        let more = if begins && used > 0.0 {
            unit + BREAK
        } else {
            unit
        };
        if used + more > plot.width || headed.with(time) > plot.width {
            bands.push(vec![(time, time + 1)]);
            used = unit;
            headed.begin();
            headed.take(time);
            continue;
        }
        let band = bands.last_mut().expect("there is one from the start");
        match band.last_mut() {
            Some((_, to)) if !begins => *to = time + 1,
            _ => band.push((time, time + 1)),
        }
        used += more;
        headed.take(time);
    }
    let bands = bands.iter().map(|times| Band::new(times, unit, plot));
    finished(bands.collect())
}

/// The widths that heads take in a band, list by list.
struct Headed {
    widths: Vec<BTreeMap<u64, f64>>,
    taken: Vec<f64>,
}

impl Headed {
    fn of(heads: &[Vec<Head>]) -> Headed {
        let by_time = |list: &Vec<Head>| list.iter().map(|it| (it.time, it.width)).collect();
        Headed {
            widths: heads.iter().map(by_time).collect(),
            taken: vec![0.0; heads.len()],
        }
    }

    fn begin(&mut self) {
        self.taken.fill(0.0);
    }

    /// What each list has with its head at a time.
    fn each(&self, time: u64) -> impl Iterator<Item = f64> + '_ {
        let lists = self.widths.iter().zip(&self.taken);
        lists.map(move |(widths, taken)| taken + widths.get(&time).unwrap_or(&0.0))
    }

    /// The most that a list has with its head at a time.
    fn with(&self, time: u64) -> f64 {
        self.each(time).fold(0.0, f64::max)
    }

    fn take(&mut self, time: u64) {
        self.taken = self.each(time).collect();
    }
}

/// Bands that know whether another follows, and whether without a break.
fn finished(mut bands: Vec<Band>) -> Vec<Band> {
    for place in 0..bands.len() {
        let next = bands.get(place + 1).map(Band::from);
        let band = &mut bands[place];
        band.last = next.is_none();
        band.broken = next.is_some_and(|from| band.to() < from);
    }
    bands
}

/// The heads of a band's columns, and the middle of each.
pub fn placed<'a>(band: &Band, heads: &'a [Head], plot: &Plot) -> Vec<(&'a Head, f64, f64)> {
    let shown: Vec<(&Head, f64)> = heads
        .iter()
        .filter(|head| head.time < band.to())
        .filter_map(|head| Some((head, band.x(head.time)? + band.unit / 2.0)))
        .collect();
    let wanted: Vec<(f64, f64)> = shown.iter().map(|(it, x)| (*x, it.width)).collect();
    let middles = heads::spread(&wanted, plot.left - 4.0, plot.left + plot.width + 4.0);
    let both = shown.into_iter().zip(middles);
    both.map(|((head, column), middle)| (head, column, middle))
        .collect()
}

/// Whether all heads stand near their columns.
fn near(bands: &[Band], heads: &[Vec<Head>], plot: &Plot) -> bool {
    let lists = heads.iter();
    let mut all = lists.flat_map(|list| bands.iter().flat_map(|band| placed(band, list, plot)));
    all.all(|(head, column, middle)| {
        let far = FAR.max(FAR_IN_WIDTHS * head.width);
        (column - middle).abs() <= far
    })
}
