//! A picture as SVG text, which knows the boxes of its texts.

use std::collections::BTreeSet;

/// The width of every picture.
pub const WIDTH: f64 = 1000.0;

/// Few colours, that differ in greyscale too.
pub const INK: &str = "#1a1a1a";
pub const GREY: &str = "#666666";
pub const FAINT: &str = "#e3e3e3";
pub const WHITE: &str = "#ffffff";
pub const AHEAD: &str = "#f1f1f1";
pub const COLUMN: &str = "#e9e4da";
pub const EDGE: &str = "#8c8371";
pub const SPAN: &str = "#c3daee";
pub const SENT: &str = "#0f3b66";
pub const REFUSED: &str = "#b00020";
pub const BROKEN: &str = "#f4d4d8";

/// A size, weight and colour of text.
#[derive(Clone, Copy, Debug, PartialEq)]
pub struct Font {
    pub size: f64,
    pub bold: bool,
    pub fill: &'static str,
}

pub const PLAIN: Font = Font {
    size: 12.0,
    bold: false,
    fill: INK,
};

pub const BOLD: Font = Font {
    bold: true,
    ..PLAIN
};

impl Font {
    /// An upper estimate, after DejaVu Sans, the widest of the fonts.
    pub fn width(&self, text: &str) -> f64 {
        let bold = if self.bold { 0.07 } else { 0.0 };
        text.chars().map(|it| (ems(it) + bold) * self.size).sum()
    }
}

/// A character's width in ems: a digit's, unless it is one of the wide ones.
fn ems(character: char) -> f64 {
    match character {
        'm' | 'w' | 'M' | 'W' | '@' | '%' | '…' => 1.0,
        'A'..='Z' | '#' | '&' | '+' | '<' | '=' | '>' | '^' | '~' | '→' => 0.84,
        _ => 0.64,
    }
}

#[derive(Clone, Copy, Debug, PartialEq)]
pub enum Anchor {
    Start,
    Middle,
    End,
}

/// A text and the box around it.
#[derive(Clone, Debug)]
pub struct TextBox {
    pub text: String,
    left: f64,
    right: f64,
    top: f64,
    bottom: f64,
}

impl TextBox {
    fn meets(&self, other: &TextBox) -> bool {
        self.left < other.right
            && other.left < self.right
            && self.top < other.bottom
            && other.top < self.bottom
    }
}

/// The signs that a key explains, in its order.
#[derive(Clone, Copy, Debug, PartialEq, Eq, PartialOrd, Ord)]
pub enum Sign {
    Sent,
    Unsent,
    Gone,
    Round,
    Broken,
    Fault,
    Opening,
    Last,
    Added,
    Removed,
    Forced,
    Limit,
    Refused,
    Ahead,
    Rest,
    Break,
    GoesOn,
}

/// A picture in the making.
#[derive(Default)]
pub struct Picture {
    body: String,
    texts: Vec<TextBox>,
    pub signs: BTreeSet<Sign>,
}

impl Picture {
    pub fn rect(&mut self, (x, y): (f64, f64), (width, height): (f64, f64), style: &str) {
        self.body.push_str(&format!(
            "<rect x=\"{x}\" y=\"{y}\" width=\"{width}\" height=\"{height}\" {style}/>\n"
        ));
    }

    pub fn line(&mut self, (x1, y1): (f64, f64), (x2, y2): (f64, f64), style: &str) {
        self.body.push_str(&format!(
            "<line x1=\"{x1}\" y1=\"{y1}\" x2=\"{x2}\" y2=\"{y2}\" {style}/>\n"
        ));
    }

    pub fn circle(&mut self, (x, y): (f64, f64), radius: f64, style: &str) {
        self.body.push_str(&format!(
            "<circle cx=\"{x}\" cy=\"{y}\" r=\"{radius}\" {style}/>\n"
        ));
    }

    pub fn path(&mut self, points: &[(f64, f64)], style: &str) {
        let points: Vec<String> = points.iter().map(|(x, y)| format!("{x} {y}")).collect();
        self.body
            .push_str(&format!("<path d=\"M{}\" {style}/>\n", points.join("L")));
    }

    /// A text with its baseline at y.
    pub fn text(&mut self, (x, y): (f64, f64), anchor: Anchor, font: Font, text: &str) {
        let width = font.width(text);
        let (left, name) = match anchor {
            Anchor::Start => (x, "start"),
            Anchor::Middle => (x - width / 2.0, "middle"),
            Anchor::End => (x - width, "end"),
        };
        self.texts.push(TextBox {
            text: String::from(text),
            left,
            right: left + width,
            top: y - 0.78 * font.size,
            bottom: y + 0.22 * font.size,
        });
        let weight = if font.bold {
            " font-weight=\"bold\""
        } else {
            ""
        };
        let (size, fill) = (font.size, font.fill);
        self.body.push_str(&format!(
            "<text x=\"{x}\" y=\"{y}\" text-anchor=\"{name}\" font-size=\"{size}\"{weight} \
             fill=\"{fill}\" xml:space=\"preserve\">{}</text>\n",
            escaped(text)
        ));
    }

    /// The whole file, of a given height.
    pub fn file(&self, height: f64) -> String {
        format!(
            "<svg xmlns=\"http://www.w3.org/2000/svg\" viewBox=\"0 0 {WIDTH} {height}\" \
             width=\"{WIDTH}\" height=\"{height}\" \
             font-family=\"'DejaVu Sans', Arial, sans-serif\">\n\
             <rect width=\"{WIDTH}\" height=\"{height}\" fill=\"{WHITE}\"/>\n{}</svg>\n",
            self.body
        )
    }

    /// The faults of the texts: two that meet, or one that leaves the page.
    pub fn faults(&self, height: f64) -> Vec<String> {
        let mut texts: Vec<&TextBox> = self.texts.iter().collect();
        texts.sort_by(|one, other| one.top.total_cmp(&other.top));
        let mut faults = Vec::new();
        for (place, text) in texts.iter().enumerate() {
            let inside = text.left >= 0.0 && text.right <= WIDTH;
            if !inside || text.top < 0.0 || text.bottom > height {
                faults.push(format!("'{}' leaves the page", text.text));
            }
            // By their tops, so that those further on are below this one.
            let beside = texts[place + 1..].iter();
            let beside = beside.take_while(|it| it.top < text.bottom);
            let met = beside.filter(|it| it.meets(text));
            faults.extend(met.map(|it| format!("'{}' meets '{}'", text.text, it.text)));
        }
        faults
    }
}

fn escaped(text: &str) -> String {
    text.replace('&', "&amp;")
        .replace('<', "&lt;")
        .replace('>', "&gt;")
}

#[cfg(test)]
mod tests {
    use super::*;

    #[test]
    fn texts_that_meet_or_leave_the_page_are_faults() {
        let at = |x: f64, y: f64| {
            let mut picture = Picture::default();
            picture.text((100.0, 50.0), Anchor::Start, PLAIN, "12345");
            picture.text((x, y), Anchor::Start, PLAIN, "67");
            picture.faults(200.0).len()
        };
        assert_eq!(at(139.0, 50.0), 0);
        assert_eq!(at(138.0, 50.0), 1);
        assert_eq!(at(110.0, 61.0), 1);
        assert_eq!(at(110.0, 63.0), 0);
        assert_eq!(at(990.0, 50.0), 1);
        assert_eq!(at(300.0, 199.0), 1);
    }
}
