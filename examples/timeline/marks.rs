//! The lane of refused calls below a band's axis, and the lists of calls below
//! a panel.

use crate::axis::Band;
use crate::history::Refusal;
use crate::script::Call;
use crate::svg::{Anchor, Font, Picture, Sign, BOLD, GREY, PLAIN, REFUSED, WIDTH};

const NUMBER: Font = Font {
    fill: REFUSED,
    ..BOLD
};
const LINE: Font = Font {
    size: 11.0,
    fill: GREY,
    ..PLAIN
};
const LANE: f64 = 15.0;

/// So many calls refused at one time stand in one column.
const MOST_LINES: usize = 6;

/// Of a longer line, which is no command, no more is shown.
const MOST_CHARACTERS: usize = 45;

/// The calls refused at one time, in columns beside a stem.
struct Block<'a> {
    x: f64,
    calls: Vec<&'a Refusal>,
    column: f64,
    lines: usize,
}

impl Block<'_> {
    fn width(&self) -> f64 {
        6.0 + self.column * self.calls.len().div_ceil(self.lines) as f64
    }
}

/// The width of the widest mark, for the room that a plot leaves to its right.
pub fn width(refusals: &[Refusal]) -> f64 {
    let widths = refusals.iter().map(|it| {
        let line = LINE.width(&format!("line {}", it.call.line));
        NUMBER.width(&it.number.to_string()) + 4.0 + line + 8.0
    });
    widths.fold(0.0, f64::max)
}

/// The marks of a band, from right to left.
fn blocks<'a>(refusals: &'a [Refusal], band: &Band) -> Vec<Block<'a>> {
    let column = width(refusals);
    let mut blocks: Vec<Block> = Vec::new();
    for refusal in refusals.iter() {
        let Some(x) = band.moment(refusal.now) else {
            continue;
        };
        match blocks.last_mut() {
            Some(block) if block.x == x => block.calls.push(refusal),
            _ => blocks.push(Block {
                x,
                calls: vec![refusal],
                column,
                lines: 1,
            }),
        }
    }
    for block in &mut blocks {
        let count = block.calls.len();
        let room = ((WIDTH - 10.0 - block.x) / column).floor().max(1.0) as usize;
        block.lines = count.div_ceil(count.div_ceil(MOST_LINES).min(room));
    }
    blocks.reverse();
    blocks
}

/// Draws the marks of a band from y on, and answers where their lane ends.
/// A block that would meet one to its right stands below it, so that no stem
/// crosses a text.
pub fn lane(picture: &mut Picture, refusals: &[Refusal], band: &Band, y: f64) -> f64 {
    // Of each line of the lane, how far to the left it is taken.
    let mut taken: Vec<f64> = Vec::new();
    for block in blocks(refusals, band) {
        let right = block.x + block.width();
        let meets = |line: &f64| *line < right + 4.0;
        let line = taken.iter().rposition(meets).map_or(0, |last| last + 1);
        taken.resize(taken.len().max(line + block.lines), f64::MAX);
        taken[line..line + block.lines].fill(block.x - 5.0);
        draw(picture, &block, y, line);
    }
    let height = taken.len() as f64 * LANE;
    y + if taken.is_empty() { 0.0 } else { height + 8.0 }
}

fn draw(picture: &mut Picture, block: &Block, y: f64, line: usize) {
    let top = y + 6.0 + line as f64 * LANE;
    let bottom = top + block.lines as f64 * LANE;
    let style = format!("stroke=\"{REFUSED}\"");
    picture.line((block.x, y), (block.x, bottom - 2.0), &style);
    arrow(picture, (block.x, y));
    for (place, refusal) in block.calls.iter().enumerate() {
        let (column, line) = (place / block.lines, place % block.lines);
        let x = block.x + 6.0 + column as f64 * block.column;
        mark(
            picture,
            (x, top + 11.0 + line as f64 * LANE),
            refusal.number,
            refusal.call.line,
        );
    }
}

/// A point that touches the time of a refused call.
pub fn arrow(picture: &mut Picture, at: (f64, f64)) {
    picture.signs.insert(Sign::Refused);
    point(picture, at);
}

/// A point that touches a time from below.
pub fn point(picture: &mut Picture, (x, y): (f64, f64)) {
    let points = [(x - 3.5, y + 6.0), (x, y), (x + 3.5, y + 6.0)];
    picture.path(&points, &format!("fill=\"{REFUSED}\""));
}

/// A refusal's number and the call's line.
pub fn mark(picture: &mut Picture, (x, y): (f64, f64), number: u64, line: usize) {
    let number = number.to_string();
    picture.text((x, y), Anchor::Start, NUMBER, &number);
    let x = x + NUMBER.width(&number) + 4.0;
    picture.text((x, y), Anchor::Start, LINE, &format!("line {line}"));
}

/// Lists calls with their answers from y on, in columns read from top to
/// bottom, and answers where the list ends.
pub fn list(picture: &mut Picture, title: &str, calls: &[&Call], y: f64, left: f64) -> f64 {
    if calls.is_empty() {
        return y;
    }
    let entries: Vec<String> = calls.iter().map(|call| entry(call)).collect();
    let widths = entries.iter().map(|entry| PLAIN.width(entry));
    let column = widths.fold(0.0, f64::max) + 24.0;
    let columns = ((WIDTH - 2.0 * left + 24.0) / column).floor().max(1.0) as usize;
    let lines = entries.len().div_ceil(columns);
    let y = y + 14.0;
    picture.text((left, y), Anchor::Start, BOLD, title);
    for (place, entry) in entries.iter().enumerate() {
        let x = left + (place / lines) as f64 * column;
        let at = (x, y + (place % lines + 1) as f64 * 16.0);
        picture.text(at, Anchor::Start, PLAIN, entry);
    }
    y + lines as f64 * 16.0 + 8.0
}

fn entry(call: &Call) -> String {
    let mut text = call.text.clone();
    if text.len() > MOST_CHARACTERS {
        text.truncate(MOST_CHARACTERS - 1);
        text.push('…');
    }
    if text.trim() != text || text.is_empty() {
        text = format!("\"{text}\"");
    }
    format!("line {}:  {text}  →  {}", call.line, call.answer)
}
