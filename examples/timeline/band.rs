//! One band of a panel: heads, columns, rows, brackets and the axis.

use crate::axis::{Band, Plot};
use crate::heads::{Head, ID, START};
use crate::history::{Opening, Stream};
use crate::judged::Broken;
use crate::rows::Rows;
use crate::svg::{Anchor, Font, Picture, Sign, EDGE, GREY, INK, PLAIN, REFUSED};
use crate::{broken, columns, marks, scale, ticks};

const SMALL: Font = Font {
    size: 11.0,
    ..PLAIN
};
const NOTE: Font = Font {
    fill: GREY,
    ..SMALL
};

/// The height of a head's line, and of the room between heads and rows.
const LINE: f64 = 14.0;
const LEADER: f64 = 22.0;

/// How far a column reaches over the rows.
const OVER: f64 = 5.0;

/// The height of the lane of brackets.
const BRACKETS: f64 = 28.0;

/// What all bands of a panel share.
pub struct Shared<'a> {
    pub opening: &'a Opening,
    pub heads: Vec<Head>,
    pub rows: Rows,
    pub plot: Plot,
    pub left: f64,
    /// What the time after the last round is, if it is shown.
    pub ahead: Option<Sign>,
    pub broken: Option<&'a Broken>,
}

/// The heights of a band's parts.
struct Heights {
    heads: f64,
    rows: f64,
    brackets: f64,
    axis: f64,
}

/// Draws a band from y on, and answers where it ends.
pub fn draw(picture: &mut Picture, shared: &Shared, band: &Band, y: f64) -> f64 {
    let streams = shared.rows.shown(&shared.opening.streams, band);
    let waits = waits(shared, band);
    let placed = scale::placed(band, &shared.heads, &shared.plot);
    let by_column = placed.iter().any(|(head, _, _)| head.ids.len() > 1);
    let lines = placed.iter().map(|(head, _, _)| head.lines()).max();
    let rows = y + LINE * (lines.unwrap_or(0).max(1) + 1) as f64 + LEADER;
    let brackets = rows + streams.len().max(1) as f64 * shared.rows.height;
    let lane = if waits.is_empty() { 6.0 } else { BRACKETS };
    let heights = Heights {
        heads: y,
        rows,
        brackets,
        axis: brackets + lane,
    };
    all_columns(picture, shared, band, &heights);
    ticks::grid(picture, band, (heights.rows, heights.axis));
    all_rows(picture, shared, band, &streams, &heights);
    for (head, column, middle) in placed {
        draw_head(
            picture,
            head,
            (middle, heights.heads),
            (column, heights.rows - OVER),
        );
    }
    names(picture, shared, &heights, by_column);
    ticks::axis(picture, band, heights.axis);
    for x in band.breaks() {
        // The labels of brackets have their lane for themselves.
        ticks::break_at(picture, x, (heights.rows - OVER, heights.brackets));
        ticks::break_at(picture, x, (heights.axis - 4.0, heights.axis + 7.0));
    }
    for wait in waits {
        bracket(picture, band, wait, shared.opening.gap, heights.brackets);
    }
    let y = marks::lane(picture, &shared.opening.refusals, band, heights.axis + 24.0);
    match shared.broken {
        Some(broken) => broken::mark(picture, broken, band, y),
        None => y,
    }
}

/// The waits up to the gap limit of which a band has a part: before a round
/// that starts at it, and before one that starts past it.
fn waits(shared: &Shared, band: &Band) -> Vec<(u64, u64, Sign)> {
    let rounds = shared.opening.rounds.iter().filter(|round| round.forced);
    let forced = rounds.map(|round| (round.after, round.start, Sign::Forced));
    let past = shared.broken.and_then(|it| it.limit(shared.opening.gap));
    let past = past.map(|(from, to)| (from, to, Sign::Limit));
    forced
        .chain(past)
        .filter(|(from, to, _)| !band.pieces(*from, *to).is_empty())
        .collect()
}

fn names(picture: &mut Picture, shared: &Shared, heights: &Heights, by_column: bool) {
    let mut name = |y: f64, text: &str| {
        picture.text((shared.left, y), Anchor::Start, NOTE, text);
    };
    name(heights.heads + 11.0, "round at");
    name(heights.heads + 11.0 + LINE, "sends");
    if by_column {
        name(heights.heads + 11.0 + 2.0 * LINE, "by column");
    }
    name(heights.axis + 18.0, "time");
}

/// The time after the last round and the columns of the rounds, under the rows.
fn all_columns(picture: &mut Picture, shared: &Shared, band: &Band, heights: &Heights) {
    if let Some(sign) = shared.ahead {
        for piece in band.pieces(shared.opening.now(), u64::MAX) {
            let size = (piece.x2 - piece.x1, heights.axis - heights.rows);
            columns::ahead(picture, (piece.x1, heights.rows), size, sign);
        }
    }
    let top = heights.rows - OVER;
    for head in &shared.heads {
        for piece in band.pieces(head.time, head.time + 1) {
            let size = (piece.x2 - piece.x1, heights.axis - top);
            columns::column(picture, (piece.x1, top), size, head.sign);
        }
    }
}

fn all_rows(
    picture: &mut Picture,
    shared: &Shared,
    band: &Band,
    streams: &[&Stream],
    heights: &Heights,
) {
    let rows = &shared.rows;
    let y = |place: usize| heights.rows + place as f64 * rows.height;
    rows.labels(picture, band, streams, heights.rows);
    for (place, stream) in streams.iter().enumerate() {
        rows.insides(picture, band, stream, y(place));
    }
    let top = heights.rows - OVER;
    for head in &shared.heads {
        for piece in band.pieces(head.time, head.time + 1) {
            let size = (piece.x2 - piece.x1, heights.axis - top);
            columns::edges(picture, (piece.x1, top), size, head.sign);
        }
    }
    for (place, stream) in streams.iter().enumerate() {
        rows.outlines(picture, band, stream, y(place));
    }
    for (place, stream) in streams.iter().enumerate() {
        if let Some(broken) = shared.broken {
            broken::faults(picture, broken, band, stream.id, rows.inner(y(place)));
        }
        rows.marks(picture, band, stream, y(place));
    }
}

/// A head with its middle at x, and a line from it to its column.
fn draw_head(picture: &mut Picture, head: &Head, (x, y): (f64, f64), column: (f64, f64)) {
    let fill = if head.sign == Sign::Broken {
        REFUSED
    } else {
        INK
    };
    let (start, id) = (Font { fill, ..START }, Font { fill, ..ID });
    picture.text((x, y + 11.0), Anchor::Middle, start, &head.start);
    let left = x - head.column * (head.ids.len() as f64 - 1.0) / 2.0;
    for (place, ids) in head.ids.iter().enumerate() {
        let x = left + place as f64 * head.column;
        for (line, text) in ids.iter().enumerate() {
            let y = y + 11.0 + (line + 1) as f64 * LINE;
            picture.text((x, y), Anchor::Middle, id, text);
        }
    }
    let below = y + LINE * (head.lines() + 1) as f64 + 2.0;
    let bend = column.1 + OVER - LEADER + 4.0;
    let points = [(x, below), (x, bend), (column.0, column.1)];
    let style = format!("fill=\"none\" stroke=\"{EDGE}\" stroke-width=\"0.8\"");
    picture.path(&points, &style);
}

/// A wait from the end of a round up to the gap limit.
fn bracket(picture: &mut Picture, band: &Band, of: (u64, u64, Sign), gap: u64, y: f64) {
    let pieces = band.pieces(of.0, of.1);
    let (first, last) = (pieces[0], pieces[pieces.len() - 1]);
    wait(
        picture,
        (first.x1, last.x2),
        (first.open_left, last.open_right),
        y + 9.0,
        of.2,
    );
    let room = last.x2 - first.x1;
    let fits = |text: &String| SMALL.width(text) + 3.0 <= room;
    let whole = !first.open_left && !last.open_right;
    let (full, short) = (format!("G = {gap}"), String::from("G"));
    // In part of a wait there may be no room, but then the rest has some.
    let text = [full, short.clone()].into_iter().find(fits);
    if let Some(text) = text.or(whole.then_some(short)) {
        let at = ((first.x1 + last.x2) / 2.0, y + 22.0);
        picture.text(at, Anchor::Middle, SMALL, &text);
    }
}

/// A line with an arrow at each end that is not open.
pub fn wait(picture: &mut Picture, (x1, x2): (f64, f64), open: (bool, bool), y: f64, sign: Sign) {
    let style = format!("stroke=\"{INK}\" stroke-width=\"1.2\"");
    let head = ((x2 - x1) / 3.0).min(6.0);
    picture.signs.insert(sign);
    picture.line((x1, y), (x2, y), &style);
    for (x, toward, open) in [(x1, head, open.0), (x2, -head, open.1)] {
        if !open {
            picture.line((x, y - 5.0), (x, y + 5.0), &style);
            let points = [(x + toward, y - 3.0), (x, y), (x + toward, y + 3.0)];
            picture.path(&points, &format!("fill=\"{INK}\""));
        }
    }
}
