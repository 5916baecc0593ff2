//! What stands over a round's column: its start, and the ids it sends.

use crate::history::Round;
use crate::plan::Packet;
use crate::svg::{Font, Sign, BOLD, PLAIN};

pub const START: Font = Font { size: 12.0, ..BOLD };
pub const ID: Font = Font {
    size: 12.0,
    ..PLAIN
};

/// More ids than this go into further columns, each read from top to bottom.
const MOST_LINES: usize = 8;

/// What stands in place of ids over a round that sends none.
const EMPTY: &str = "empty";

/// The room between two heads.
const ROOM: f64 = 7.0;

/// A head before it has a place.
#[derive(Clone, Debug)]
pub struct Head {
    pub time: u64,
    /// What its column is.
    pub sign: Sign,
    pub start: String,
    /// Columns of ids, in slot order from top to bottom and then to the right.
    pub ids: Vec<Vec<String>>,
    pub column: f64,
    pub width: f64,
}

impl Head {
    pub fn of(round: &Round) -> Head {
        Head::of_numbers(round.start, Sign::Round, &round.ids)
    }

    /// The head of a round that breaks a rule.
    pub fn of_broken(packet: &Packet) -> Head {
        Head::of_numbers(packet.start, Sign::Broken, &packet.numbers)
    }

    fn of_numbers(start: u64, sign: Sign, numbers: &[u64]) -> Head {
        let mut ids: Vec<String> = numbers.iter().map(u64::to_string).collect();
        if ids.is_empty() {
            ids.push(String::from(EMPTY));
        }
        Head::new(start, sign, start.to_string(), &ids)
    }

    /// The head of the round that an opening takes as held.
    pub fn of_opening(time: u64) -> Head {
        Head::new(time, Sign::Opening, String::from("T"), &[])
    }

    /// The head of the round before a plan.
    pub fn of_last(time: u64) -> Head {
        Head::new(time, Sign::Last, String::from("L"), &[])
    }

    fn new(time: u64, sign: Sign, start: String, ids: &[String]) -> Head {
        let widths = ids.iter().map(|id| ID.width(id));
        let column = widths.fold(0.0, f64::max) + ROOM;
        let ids: Vec<Vec<String>> = ids.chunks(MOST_LINES).map(<[String]>::to_vec).collect();
        let width = (START.width(&start) + ROOM).max(column * ids.len() as f64);
        Head {
            time,
            sign,
            start,
            ids,
            column,
            width,
        }
    }

    /// The number of its lines under the start.
    pub fn lines(&self) -> usize {
        self.ids.first().map_or(0, Vec::len)
    }
}

/// Heads that stand side by side: while they do.
struct Cluster {
    left: f64,
    width: f64,
    heads: usize,
    /// The sum of the places that its heads want the cluster to begin at.
    wanted: f64,
}

/// Middles for heads of these wanted middles, in order, and widths: each as near
/// as may be to what it wants, none over another, all between two ends.
pub fn spread(heads: &[(f64, f64)], left: f64, right: f64) -> Vec<f64> {
    let mut clusters: Vec<Cluster> = Vec::new();
    for (middle, width) in heads {
        let begin = middle - width / 2.0;
        let mut cluster = Cluster {
            left: begin,
            width: *width,
            heads: 1,
            wanted: begin,
        };
        cluster.keep_between(left, right);
        while let Some(before) = clusters.pop_if(|last| last.left + last.width > cluster.left) {
            cluster = before.joined(cluster);
            cluster.keep_between(left, right);
        }
        clusters.push(cluster);
    }
    middles(&clusters, heads)
}

impl Cluster {
    /// With another to its right, at the mean of what their heads want.
    fn joined(self, other: Cluster) -> Cluster {
        let heads = self.heads + other.heads;
        let wanted = self.wanted + other.wanted - other.heads as f64 * self.width;
        Cluster {
            left: wanted / heads as f64,
            width: self.width + other.width,
            heads,
            wanted,
        }
    }

    fn keep_between(&mut self, left: f64, right: f64) {
        self.left = self.left.min(right - self.width).max(left);
    }
}

fn middles(clusters: &[Cluster], heads: &[(f64, f64)]) -> Vec<f64> {
    let mut widths = heads.iter().map(|(_, width)| *width);
    let mut middles = Vec::new();
    for cluster in clusters {
        let mut left = cluster.left;
        for width in widths.by_ref().take(cluster.heads) {
            middles.push(left + width / 2.0);
            left += width;
        }
    }
    middles
}

#[cfg(test)]
mod tests {
    use super::*;

    #[test]
    fn heads_with_room_stand_where_they_want() {
        let heads = [(50.0, 20.0), (80.0, 20.0)];
        assert_eq!(spread(&heads, 0.0, 200.0), [50.0, 80.0]);
    }

    #[test]
    fn crowded_heads_part_evenly_and_stay_between_the_ends() {
        let heads = [(50.0, 20.0), (54.0, 20.0), (58.0, 20.0)];
        assert_eq!(spread(&heads, 0.0, 200.0), [34.0, 54.0, 74.0]);
        assert_eq!(spread(&heads, 40.0, 200.0), [50.0, 70.0, 90.0]);
        assert_eq!(spread(&heads, 0.0, 70.0), [20.0, 40.0, 60.0]);
    }
}
