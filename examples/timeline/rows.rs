//! The rows of a band: a stream each, with its packets.

use crate::axis::{Band, Piece};
use crate::history::Stream;
use crate::svg::{Anchor, Font, Picture, Sign, BOLD, FAINT, GREY, INK, PLAIN, SENT, SPAN, WHITE};

/// A row's height, and that of many rows.
const HEIGHT: f64 = 19.0;
const HEIGHT_OF_MANY: f64 = 16.0;
const MANY: usize = 12;

/// What a row has over and under its spans, and how far an edge reaches into
/// it: a release upwards, a due time downwards.
const OVER: f64 = 3.5;
const EDGE: f64 = 3.0;

const SMALL: Font = Font {
    size: 11.0,
    ..PLAIN
};
const NAMES: Font = Font {
    fill: GREY,
    ..SMALL
};

/// The room between two columns of labels.
const ROOM: f64 = 9.0;

/// The rows of a panel: their height, and where the columns of their labels,
/// id, S, P and D, end.
pub struct Rows {
    pub height: f64,
    left: f64,
    ends: [f64; 4],
    /// The end of the drawn time.
    end: u64,
}

impl Rows {
    pub fn of(streams: &[Stream], left: f64, end: u64) -> Rows {
        let mut widths = [BOLD.width("id"), 0.0, 0.0, 0.0];
        for stream in streams {
            for (width, (font, text)) in widths.iter_mut().zip(texts(stream)) {
                *width = width.max(font.width(&text));
            }
        }
        let mut x = left - ROOM;
        let ends = widths.map(|width| {
            x += ROOM + width.max(SMALL.size);
            x
        });
        let many = streams.len() > MANY;
        let height = if many { HEIGHT_OF_MANY } else { HEIGHT };
        Rows {
            height,
            left,
            ends,
            end,
        }
    }

    /// Where the labels end.
    pub fn right(&self) -> f64 {
        self.ends[3]
    }

    /// The streams that a band has something of.
    pub fn shown<'a>(&self, streams: &'a [Stream], band: &Band) -> Vec<&'a Stream> {
        let has_part = |stream: &&Stream| {
            let gone = stream.unserved();
            let to = match stream.removed {
                Some(removed) if stream.release(gone) >= self.end => removed + 1,
                Some(removed) => stream.due(gone).max(removed + 1),
                None => self.end,
            };
            stream.added.min(self.end - 1) < band.to() && to > band.from()
        };
        streams.iter().filter(has_part).collect()
    }

    /// The lines between rows, and the labels of streams and columns.
    pub fn labels(&self, picture: &mut Picture, band: &Band, streams: &[&Stream], top: f64) {
        let style = format!("stroke=\"{FAINT}\"");
        for place in 0..=streams.len().max(1) {
            let y = top + place as f64 * self.height;
            picture.line((self.left, y), (band.left(), y), &style);
            for stretch in &band.stretches {
                picture.line((stretch.x, y), (band.end(stretch), y), &style);
            }
        }
        if streams.is_empty() {
            let at = (self.left, top + self.height / 2.0 + 4.0);
            picture.text(at, Anchor::Start, NAMES, "no stream");
            return;
        }
        for (x, name) in self.ends.iter().zip(["id", "S", "P", "D"]) {
            picture.text((*x, top - 5.0), Anchor::End, NAMES, name);
        }
        for (place, stream) in streams.iter().enumerate() {
            let y = top + (place as f64 + 0.5) * self.height + 4.5;
            for (x, (font, text)) in self.ends.iter().zip(texts(stream)) {
                picture.text((*x, y), Anchor::End, font, &text);
            }
        }
    }

    /// The insides of a stream's packets in the row that begins at y.
    pub fn insides(&self, picture: &mut Picture, band: &Band, stream: &Stream, y: f64) {
        let style = format!("stroke=\"{GREY}\" stroke-width=\"0.8\"");
        let middle = y + self.height / 2.0;
        for piece in band.pieces(stream.added, stream.removed.unwrap_or(self.end)) {
            picture.line((piece.x1, middle), (piece.x2, middle), &style);
        }
        for k in stream.packets_before(self.end) {
            for piece in band.pieces(stream.release(k), stream.due(k)) {
                inside(picture, &piece, self.inner(y), sign(stream, k));
            }
        }
    }

    /// Their outlines, and where they are sent.
    pub fn outlines(&self, picture: &mut Picture, band: &Band, stream: &Stream, y: f64) {
        for k in stream.packets_before(self.end) {
            let start = stream.sent.get(k);
            let rides = start.map(|start| band.pieces(*start, start + 1));
            for piece in rides.into_iter().flatten() {
                sent(picture, &piece, self.inner(y));
            }
            for piece in band.pieces(stream.release(k), stream.due(k)) {
                outline(picture, &piece, self.inner(y), sign(stream, k));
                let on = piece.open_right && piece.x2 == band.right();
                if on || (piece.open_left && piece.x1 == band.left()) {
                    picture.signs.insert(Sign::GoesOn);
                }
            }
        }
    }

    /// The top and bottom of spans in the row that begins at y.
    pub fn inner(&self, y: f64) -> (f64, f64) {
        (y + OVER, y + self.height - OVER)
    }

    /// The marks of a stream's add and remove in the row that begins at y.
    pub fn marks(&self, picture: &mut Picture, band: &Band, stream: &Stream, y: f64) {
        let middle = y + self.height / 2.0;
        if let Some(x) = band.moment(stream.added) {
            added(picture, (x, middle));
        }
        if let Some(x) = stream.removed.and_then(|time| band.moment(time)) {
            removed(picture, (x, middle));
        }
    }
}

fn texts(stream: &Stream) -> [(Font, String); 4] {
    let small = |number: u64| (SMALL, number.to_string());
    [
        (BOLD, stream.id.to_string()),
        small(stream.first),
        small(stream.period),
        small(stream.deadline),
    ]
}

/// The sign of a stream's packet k.
fn sign(stream: &Stream, k: usize) -> Sign {
    match (stream.sent.get(k), stream.removed) {
        (Some(_), _) => Sign::Sent,
        (None, Some(_)) => Sign::Gone,
        (None, None) => Sign::Unsent,
    }
}

pub fn inside(picture: &mut Picture, piece: &Piece, (top, bottom): (f64, f64), sign: Sign) {
    let fill = if sign == Sign::Sent { SPAN } else { WHITE };
    let size = (piece.x2 - piece.x1, bottom - top);
    picture.rect((piece.x1, top), size, &format!("fill=\"{fill}\""));
}

/// A packet from its release, a thick edge that reaches up, to its due time, a
/// thin one that reaches down.
pub fn outline(picture: &mut Picture, piece: &Piece, height: (f64, f64), sign: Sign) {
    let gone = sign == Sign::Gone;
    let dash = if gone {
        " stroke-dasharray=\"3 2.5\""
    } else {
        ""
    };
    picture.signs.insert(sign);
    edged(picture, piece, height, SENT, dash);
}

/// The same in a colour of its own.
pub fn edged(
    picture: &mut Picture,
    piece: &Piece,
    (top, bottom): (f64, f64),
    colour: &str,
    dash: &str,
) {
    let Piece { x1, x2, .. } = *piece;
    let thin = format!("stroke=\"{colour}\"{dash}");
    picture.line((x1, top), (x2, top), &thin);
    picture.line((x1, bottom), (x2, bottom), &thin);
    if !piece.open_right {
        picture.line((x2, top), (x2, bottom + EDGE), &thin);
    }
    if !piece.open_left {
        let thick = format!("stroke=\"{colour}\" stroke-width=\"2\"");
        picture.line((x1, top - EDGE), (x1, bottom), &thick);
    }
}

/// The unit in which a packet is sent.
pub fn sent(picture: &mut Picture, piece: &Piece, (top, bottom): (f64, f64)) {
    let style = format!("fill=\"{SENT}\" stroke=\"{SENT}\"");
    picture.rect((piece.x1, top), (piece.x2 - piece.x1, bottom - top), &style);
}

pub fn added(picture: &mut Picture, at: (f64, f64)) {
    let style = format!("fill=\"{WHITE}\" stroke=\"{INK}\" stroke-width=\"1.4\"");
    picture.signs.insert(Sign::Added);
    picture.circle(at, 3.5, &style);
}

pub fn removed(picture: &mut Picture, (x, y): (f64, f64)) {
    picture.signs.insert(Sign::Removed);
    for (width, colour) in [(4.6, WHITE), (2.2, INK)] {
        let style = format!("stroke=\"{colour}\" stroke-width=\"{width}\"");
        picture.line((x - 4.0, y - 4.0), (x + 4.0, y + 4.0), &style);
        picture.line((x - 4.0, y + 4.0), (x + 4.0, y - 4.0), &style);
    }
}
