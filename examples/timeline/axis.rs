//! Where a time stands on the page. A band is one line of the picture: one or
//! more stretches of time, with a break wherever time is left out.

/// The width of a break.
pub const BREAK: f64 = 20.0;

/// The part of the page that has the time axis.
#[derive(Clone, Copy)]
pub struct Plot {
    pub left: f64,
    pub width: f64,
}

/// All times from one to another, and where the first stands.
#[derive(Clone, Debug, PartialEq)]
pub struct Stretch {
    pub from: u64,
    pub to: u64,
    pub x: f64,
}

/// One line of the picture.
#[derive(Clone, Debug)]
pub struct Band {
    pub stretches: Vec<Stretch>,
    pub unit: f64,
    /// Whether it is the panel's last.
    pub last: bool,
    /// Whether time is left out between this band and the next.
    pub broken: bool,
}

/// What a band shows of a span of time: an end is open where the span goes on.
#[derive(Clone, Copy, Debug, PartialEq)]
pub struct Piece {
    pub x1: f64,
    pub x2: f64,
    pub open_left: bool,
    pub open_right: bool,
}

impl Band {
    /// Stretches laid out from the left on.
    pub fn new(times: &[(u64, u64)], unit: f64, plot: &Plot) -> Band {
        let mut x = plot.left;
        let mut stretches = Vec::new();
        for (from, to) in times {
            let (from, to) = (*from, *to);
            stretches.push(Stretch { from, to, x });
            x += (to - from) as f64 * unit + BREAK;
        }
        Band {
            stretches,
            unit,
            last: true,
            broken: false,
        }
    }

    pub fn from(&self) -> u64 {
        self.stretches[0].from
    }

    pub fn to(&self) -> u64 {
        self.stretches[self.stretches.len() - 1].to
    }

    pub fn left(&self) -> f64 {
        self.stretches[0].x
    }

    pub fn right(&self) -> f64 {
        self.end(&self.stretches[self.stretches.len() - 1])
    }

    /// Where a stretch ends.
    pub fn end(&self, stretch: &Stretch) -> f64 {
        stretch.x + (stretch.to - stretch.from) as f64 * self.unit
    }

    /// The line of a time, unless it is left out.
    pub fn x(&self, time: u64) -> Option<f64> {
        let mut stretches = self.stretches.iter();
        let on = stretches.find(|stretch| (stretch.from..=stretch.to).contains(&time))?;
        Some(on.x + (time - on.from) as f64 * self.unit)
    }

    /// The line of a moment. The time at which one band ends and the next
    /// begins has two lines; its marks stand at the second only.
    pub fn moment(&self, time: u64) -> Option<f64> {
        let later = time == self.to() && !self.last;
        self.x(time).filter(|_| !later)
    }

    /// The pieces of a span, one for each stretch that it has a part of.
    pub fn pieces(&self, from: u64, to: u64) -> Vec<Piece> {
        self.stretches
            .iter()
            .filter(|stretch| from < stretch.to && to > stretch.from)
            .map(|stretch| {
                let (first, last) = (from.max(stretch.from), to.min(stretch.to));
                Piece {
                    x1: stretch.x + (first - stretch.from) as f64 * self.unit,
                    x2: stretch.x + (last - stretch.from) as f64 * self.unit,
                    open_left: first > from,
                    open_right: last < to,
                }
            })
            .collect()
    }

    /// The middles of the breaks.
    pub fn breaks(&self) -> Vec<f64> {
        let count = self.stretches.len() - usize::from(!self.broken);
        let broken = &self.stretches[..count];
        let middle = |stretch: &Stretch| self.end(stretch) + BREAK / 2.0;
        broken.iter().map(middle).collect()
    }
}

#[cfg(test)]
mod tests {
    use super::*;

    fn band() -> Band {
        let plot = Plot {
            left: 100.0,
            width: 500.0,
        };
        Band::new(&[(0, 3), (10, 14)], 20.0, &plot)
    }

    #[test]
    fn times_stand_on_their_lines() {
        let wanted = [(0, 100.0), (3, 160.0), (10, 180.0), (14, 260.0)];
        for (time, x) in wanted {
            assert_eq!(band().x(time), Some(x));
        }
        assert_eq!(band().x(4), None);
        assert_eq!(band().x(15), None);
    }

    #[test]
    fn a_span_over_a_break_has_two_pieces_open_to_it() {
        let pieces = band().pieces(2, 11);
        let ends: Vec<(f64, f64)> = pieces.iter().map(|piece| (piece.x1, piece.x2)).collect();
        assert_eq!(ends, [(140.0, 160.0), (180.0, 200.0)]);
        assert!(!pieces[0].open_left && pieces[0].open_right);
        assert!(pieces[1].open_left && !pieces[1].open_right);
        assert!(band().pieces(3, 10).is_empty());
    }
}
