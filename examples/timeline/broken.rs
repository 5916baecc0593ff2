//! The round of a plan that breaks a rule: the packets at fault, and the rule in
//! words.

use crate::axis::{Band, Piece};
use crate::judged::Broken;
use crate::svg::{Anchor, Font, Picture, Sign, BOLD, BROKEN, PLAIN, REFUSED, WIDTH};
use crate::{marks, rows};

const RULE: Font = Font {
    fill: REFUSED,
    ..BOLD
};
const CONTENT: Font = Font {
    fill: REFUSED,
    ..PLAIN
};

/// A line's height, and what is kept free at the page's right edge.
const LINE: f64 = 16.0;
const EDGE: f64 = 14.0;

/// The packets at fault of one stream, in the row of a given top and bottom.
pub fn faults(picture: &mut Picture, broken: &Broken, band: &Band, id: u64, height: (f64, f64)) {
    for fault in broken.faults.iter().filter(|it| it.id == id) {
        for piece in band.pieces(fault.release, fault.due) {
            outline(picture, &piece, height);
        }
        if fault.rides {
            for piece in band.pieces(broken.time(), broken.end()) {
                filled(picture, &piece, height);
            }
        }
    }
}

/// A packet as any other, in other colours.
pub fn outline(picture: &mut Picture, piece: &Piece, height: (f64, f64)) {
    picture.signs.insert(Sign::Fault);
    let (top, bottom) = height;
    let size = (piece.x2 - piece.x1, bottom - top);
    picture.rect((piece.x1, top), size, &format!("fill=\"{BROKEN}\""));
    rows::edged(picture, piece, height, REFUSED, "");
}

fn filled(picture: &mut Picture, piece: &Piece, (top, bottom): (f64, f64)) {
    let style = format!("fill=\"{REFUSED}\" stroke=\"{REFUSED}\"");
    picture.rect((piece.x1, top), (piece.x2 - piece.x1, bottom - top), &style);
}

/// The rule under the round's column; a round that has none is marked at the end
/// of the one before, with what is in it. Answers where the lane ends.
pub fn mark(picture: &mut Picture, broken: &Broken, band: &Band, y: f64) -> f64 {
    let Some(x) = band.moment(broken.time()) else {
        return y;
    };
    let drawn = broken.packet.is_some();
    let x = if drawn { x + band.unit / 2.0 } else { x };
    marks::point(picture, (x, y));
    let Broken { round, rule, .. } = broken;
    let mut lines = vec![(
        RULE,
        format!("round {round} breaks rule {rule}: {}", broken.words),
    )];
    if !drawn {
        lines.push((CONTENT, format!("in it: {}", broken.content)));
    }
    let widths = lines.iter().map(|(font, text)| font.width(text));
    let (left, anchor) = beside(x, widths.fold(0.0, f64::max));
    for (place, (font, text)) in lines.iter().enumerate() {
        let at = (left, y + 20.0 + place as f64 * LINE);
        picture.text(at, anchor, *font, text);
    }
    y + 14.0 + lines.len() as f64 * LINE
}

/// Where lines of this width stand that belong to x: to its right, else to its
/// left, else where the page has room.
fn beside(x: f64, width: f64) -> (f64, Anchor) {
    let (from, to) = (x - 4.0, x + 4.0);
    if from + width <= WIDTH - EDGE {
        return (from, Anchor::Start);
    }
    if to - width >= EDGE {
        return (to, Anchor::End);
    }
    (WIDTH - EDGE - width, Anchor::Start)
}
