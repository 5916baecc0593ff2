//! The key: what the signs of a picture mean, those that it has.

use crate::axis::Piece;
use crate::svg::{Anchor, Font, Picture, Sign, GREY, PLAIN, WIDTH};
use crate::{band, broken, columns, marks, rows, ticks};

const WORDS: Font = Font {
    size: 11.5,
    ..PLAIN
};

/// A sign's width, a line's height, and the number of columns.
const SIGN: f64 = 52.0;
const LINE: f64 = 24.0;
const COLUMNS: usize = 2;

/// Draws the key from y on, and answers the picture's height.
pub fn draw(picture: &mut Picture, y: f64, left: f64) -> f64 {
    let signs: Vec<Sign> = picture.signs.iter().copied().collect();
    if signs.is_empty() {
        return y + 10.0;
    }
    let y = (y + 10.0).floor() + 0.5;
    let style = format!("stroke=\"{GREY}\" stroke-width=\"0.8\"");
    picture.line((left, y), (WIDTH - left, y), &style);
    let lines = signs.len().div_ceil(COLUMNS);
    let column = (WIDTH - 2.0 * left) / COLUMNS as f64;
    for (place, sign) in signs.iter().enumerate() {
        let x = left + (place / lines) as f64 * column;
        let y = y + 8.0 + (place % lines) as f64 * LINE;
        draw_sign(picture, *sign, (x.floor() + 0.5, y));
        let at = (x + SIGN + 8.0, y + 14.0);
        picture.text(at, Anchor::Start, WORDS, words(*sign));
    }
    y + lines as f64 * LINE + 16.0
}

fn words(sign: Sign) -> &'static str {
    match sign {
        Sign::Sent => "packet, release (thick edge) to due; dark: it is sent",
        Sign::Unsent => "packet not sent yet",
        Sign::Gone => "unserved packet that went with its stream",
        Sign::Round => "round, one unit wide; above it its start and ids by slot",
        Sign::Broken => "first round that breaks a rule, which is named below it",
        Sign::Fault => "packet that it may not send, or that it may not leave",
        Sign::Opening => "unit from T, as if a round had been held there",
        Sign::Last => "unit from L, the last start before the plan",
        Sign::Added => "stream added at now, the end of the last round",
        Sign::Removed => "stream removed at now",
        Sign::Forced => "start at the gap limit, G after the last round's end",
        Sign::Limit => "wait to the gap limit, the latest start for the next round",
        Sign::Refused => "call refused at now; its number and the script's line",
        Sign::Ahead => "time after the last round of the run",
        Sign::Rest => "time after the last round that passes",
        Sign::Break => "time left out",
        Sign::GoesOn => "packet that goes on outside of the band",
    }
}

/// A sign in a box that is as high as a row.
fn draw_sign(picture: &mut Picture, sign: Sign, (x, y): (f64, f64)) {
    let (middle, height) = (y + 10.0, (y + 4.0, y + 16.0));
    let piece = Piece {
        x1: x,
        x2: x + SIGN,
        open_left: false,
        open_right: sign == Sign::GoesOn,
    };
    let unit = Piece {
        x1: x + 26.0,
        x2: x + 38.0,
        ..piece
    };
    match sign {
        Sign::Sent => {
            rows::inside(picture, &piece, height, sign);
            rows::outline(picture, &piece, height, sign);
            rows::sent(picture, &unit, height);
        }
        Sign::Unsent | Sign::Gone => rows::outline(picture, &piece, height, sign),
        Sign::GoesOn => {
            rows::inside(picture, &piece, height, Sign::Sent);
            rows::outline(picture, &piece, height, Sign::Sent);
        }
        Sign::Round | Sign::Broken | Sign::Opening | Sign::Last => {
            let (at, size) = ((unit.x1, y), (12.0, 20.0));
            columns::column(picture, at, size, sign);
            columns::edges(picture, at, size, sign);
        }
        Sign::Fault => broken::outline(picture, &piece, height),
        Sign::Ahead | Sign::Rest => columns::ahead(picture, (x, y + 2.0), (SIGN, 16.0), sign),
        Sign::Added => rows::added(picture, (unit.x1 + 6.0, middle)),
        Sign::Removed => rows::removed(picture, (unit.x1 + 6.0, middle)),
        Sign::Forced | Sign::Limit => {
            let ends = (x + 4.0, x + SIGN - 4.0);
            band::wait(picture, ends, (false, false), middle, sign);
        }
        Sign::Refused => marks::arrow(picture, (unit.x1 + 6.0, y + 7.0)),
        Sign::Break => ticks::break_at(picture, unit.x1 + 6.0, (y, y + 20.0)),
    }
}
