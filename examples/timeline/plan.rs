//! A plan's packets, laid end to end, and what the proved checker says of them.

/// The numbers of a packet, whether they are good or not.
#[derive(Clone, Debug, PartialEq, Eq)]
pub struct Packet {
    pub start: u64,
    /// Ids and messages, in slot order.
    pub numbers: Vec<u64>,
}

impl Packet {
    /// The numbers that are no messages.
    pub fn stream_ids(&self) -> Vec<u64> {
        let numbers = self.numbers.iter().copied();
        numbers.filter(|number| *number < 32768).collect()
    }
}

/// The packet in front of some bytes and its length, unless it is cut short.
fn front(bytes: &[u8]) -> Option<(Packet, usize)> {
    let count = usize::from(*bytes.get(5)?);
    let pairs = bytes.get(6..6 + 2 * count)?;
    let number = |bytes: &[u8]| {
        bytes
            .iter()
            .fold(0, |sum, byte| sum * 256 + u64::from(*byte))
    };
    let packet = Packet {
        start: number(&bytes[..4]),
        numbers: pairs.chunks(2).map(number).collect(),
    };
    Some((packet, 6 + 2 * count))
}

/// The packets of a plan, up to one that is cut short.
pub fn packets(plan: &[u8]) -> Vec<Packet> {
    let mut packets = Vec::new();
    let mut rest = plan;
    while let Some((packet, length)) = front(rest) {
        packets.push(packet);
        rest = &rest[length..];
    }
    packets
}

/// The line that `accept` wrote.
#[derive(Clone, Debug, PartialEq, Eq)]
pub enum Verdict {
    Sound {
        rounds: usize,
    },
    Breaks {
        /// The first round that does, from 1, and what is in it.
        round: usize,
        content: String,
        rule: u64,
        /// The rule and its clause.
        words: String,
    },
}

impl Verdict {
    pub fn of(line: &str) -> Result<Verdict, String> {
        let line = line.trim_end();
        sound(line)
            .or_else(|| breaks(line))
            .ok_or_else(|| format!("'{line}' is no verdict on a plan"))
    }
}

fn sound(line: &str) -> Option<Verdict> {
    let count = line.strip_prefix("sound, ")?.split(' ').next()?;
    let rounds = count.parse().ok()?;
    Some(Verdict::Sound { rounds })
}

fn breaks(line: &str) -> Option<Verdict> {
    let (round, rest) = line
        .strip_prefix("round ")?
        .split_once(" breaks a rule: ")?;
    let (content, rest) = rest.split_once("; rule ")?;
    let (rule, words) = rest.split_once(", ")?;
    Some(Verdict::Breaks {
        round: round.parse().ok().filter(|round| *round > 0)?,
        content: String::from(content),
        rule: rule.parse().ok()?,
        words: String::from(words),
    })
}

#[cfg(test)]
mod tests {
    use super::*;

    #[test]
    fn packets_are_read_up_to_one_cut_short() {
        let plan = [0, 0, 1, 2, 2, 1, 0x9c, 0x40, 0, 0, 1, 3, 2, 0, 0, 0, 0];
        let read = packets(&plan);
        assert_eq!(read.len(), 2);
        assert_eq!((read[0].start, read[1].start), (258, 259));
        assert_eq!(read[0].numbers, [40000]);
        assert_eq!(read[0].stream_ids(), []);
        assert!(packets(&[0, 0, 0, 2, 2, 1, 0]).is_empty());
        assert!(packets(&[]).is_empty());
    }

    #[test]
    fn a_verdict_is_read_from_its_line() {
        let sound = |rounds| Ok(Verdict::Sound { rounds });
        assert_eq!(Verdict::of("sound, 1 round\n"), sound(1));
        assert_eq!(Verdict::of("sound, 0 rounds\n"), sound(0));
        let line = "round 2 breaks a rule: start 6, ids 1 3; rule 5, a packet is left, so (14.7)";
        let breaks = Verdict::Breaks {
            round: 2,
            content: String::from("start 6, ids 1 3"),
            rule: 5,
            words: String::from("a packet is left, so (14.7)"),
        };
        assert_eq!(Verdict::of(line), Ok(breaks));
        let others = ["", "refused, 5: the planner is not sound"];
        let cut = ["round 0 breaks a rule: x; rule 1, y", "round 2 breaks"];
        for line in others.iter().chain(&cut) {
            assert!(Verdict::of(line).is_err(), "{line}");
        }
    }
}
