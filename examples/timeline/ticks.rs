//! The time axis of a band: its lines, numbers and breaks.

use crate::axis::Band;
use crate::svg::{Anchor, Font, Picture, Sign, FAINT, GREY, INK, PLAIN};

const NUMBER: Font = Font {
    size: 11.0,
    ..PLAIN
};

/// The room between two numbers.
pub const ROOM: f64 = 8.0;

/// The width that a time's number takes.
pub fn width(time: u64) -> f64 {
    NUMBER.width(&time.to_string())
}

/// The least of 1, 2, 5, 10, 20 and so on at which numbers have room.
fn step(band: &Band) -> u64 {
    let wanted = width(band.to()) + ROOM;
    let steps = (0..).flat_map(|power| [1, 2, 5].map(|first| first * 10_u64.pow(power)));
    let mut wide = steps.filter(|step| *step as f64 * band.unit >= wanted);
    wide.next().expect("a step is wide enough")
}

fn times(band: &Band) -> impl Iterator<Item = u64> + '_ {
    let stretches = band.stretches.iter();
    stretches.flat_map(|stretch| stretch.from..=stretch.to)
}

/// Faint lines at each time, or only at the numbers where a unit is narrow.
pub fn grid(picture: &mut Picture, band: &Band, (top, bottom): (f64, f64)) {
    let step = if band.unit >= 14.0 { 1 } else { step(band) };
    let style = format!("stroke=\"{FAINT}\" stroke-width=\"0.8\"");
    for time in times(band).filter(|time| time % step == 0) {
        if let Some(x) = band.x(time) {
            picture.line((x, top), (x, bottom), &style);
        }
    }
}

/// The times that get a number: first those at breaks, then every step, then
/// the ends, each only where it has room.
fn numbered(band: &Band) -> Vec<(u64, f64)> {
    let step = step(band);
    let ends = band.stretches.iter().flat_map(|it| [it.from, it.to]);
    let (first, last) = (band.from(), band.to());
    let at_breaks = ends.filter(|time| *time != first && *time != last);
    let steps = times(band).filter(|time| time % step == 0);
    let mut numbered: Vec<(u64, f64)> = Vec::new();
    for time in at_breaks.chain(steps).chain([first, last]) {
        let x = band.x(time).expect("on the band");
        let room = width(band.to()) + ROOM;
        if numbered.iter().all(|(_, other)| (x - other).abs() >= room) {
            numbered.push((time, x));
        }
    }
    numbered
}

/// The axis at y, with a tick a unit.
pub fn axis(picture: &mut Picture, band: &Band, y: f64) {
    let style = format!("stroke=\"{INK}\"");
    for stretch in &band.stretches {
        picture.line((stretch.x, y), (band.end(stretch), y), &style);
    }
    for time in times(band) {
        let x = band.x(time).expect("on the band");
        picture.line((x, y), (x, y + 3.5), &style);
    }
    for (time, x) in numbered(band) {
        picture.line((x, y), (x, y + 6.5), &style);
        let at = (x, y + 18.0);
        picture.text(at, Anchor::Middle, NUMBER, &time.to_string());
    }
    if !band.last && !band.broken {
        goes_on(picture, (band.right(), y));
    }
}

/// The axis goes on in the next band.
fn goes_on(picture: &mut Picture, (x, y): (f64, f64)) {
    picture.line((x, y), (x + 9.0, y), &format!("stroke=\"{INK}\""));
    let points = [(x + 7.0, y - 3.0), (x + 13.0, y), (x + 7.0, y + 3.0)];
    picture.path(&points, &format!("fill=\"{INK}\""));
}

/// Two lines in zigzag, where time is left out.
pub fn break_at(picture: &mut Picture, x: f64, (top, bottom): (f64, f64)) {
    let style = format!("fill=\"none\" stroke=\"{GREY}\"");
    let count = ((bottom - top) / 5.0).round().max(2.0) as usize;
    let step = (bottom - top) / count as f64;
    picture.signs.insert(Sign::Break);
    for shift in [-3.0, 3.0] {
        let points: Vec<(f64, f64)> = (0..=count)
            .map(|place| {
                let side = if place % 2 == 0 { -2.0 } else { 2.0 };
                (x + shift + side, top + place as f64 * step)
            })
            .collect();
        picture.path(&points, &style);
    }
}
