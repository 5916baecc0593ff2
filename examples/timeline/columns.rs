//! The columns of rounds, and the time after the last one.

use crate::svg::{Picture, Sign, AHEAD, BROKEN, COLUMN, EDGE, REFUSED, WHITE};

pub fn ahead(picture: &mut Picture, at: (f64, f64), size: (f64, f64), sign: Sign) {
    picture.signs.insert(sign);
    picture.rect(at, size, &format!("fill=\"{AHEAD}\""));
}

pub fn column(picture: &mut Picture, at: (f64, f64), size: (f64, f64), sign: Sign) {
    let fill = match sign {
        Sign::Opening | Sign::Last => WHITE,
        Sign::Broken => BROKEN,
        _ => COLUMN,
    };
    picture.signs.insert(sign);
    picture.rect(at, size, &format!("fill=\"{fill}\""));
}

/// A column's edges, over the insides of packets and under their outlines.
pub fn edges(picture: &mut Picture, (x, y): (f64, f64), (w, h): (f64, f64), sign: Sign) {
    let style = match sign {
        Sign::Opening | Sign::Last => {
            format!("stroke=\"{EDGE}\" stroke-width=\"0.8\" stroke-dasharray=\"2 2\"")
        }
        Sign::Broken => format!("stroke=\"{REFUSED}\" stroke-width=\"1.4\""),
        _ => format!("stroke=\"{EDGE}\" stroke-width=\"0.8\""),
    };
    let style = format!("fill=\"none\" {style}");
    picture.path(&[(x, y + h), (x, y), (x + w, y), (x + w, y + h)], &style);
}
