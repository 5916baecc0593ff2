// The check by hand, with all that makes it quick: a table of 32,768 bytes says where an id's stream stands, the due times are a column, and nothing
// is looked at that another test shows already. The planner is taken to be sound; all five rules are held, on any bytes.
//   An id that no stream has leads to a row whose deadline is 0, which lets no packet ride.
//   A packet may ride if start - release < D: a release after the start makes the difference wrap to a large number.
//   An id that stands twice stands for an unreleased packet the second time, as D is at most P: none is looked for.
use super::proved::Planner;

const NONE: u8 = 64;

struct Columns {
    rows: [u8; 32_768],
    // 64 streams and NONE; 128 places, so that an index of 7 bits needs no test
    periods: [u32; 128],
    deadlines: [u32; 128],
    // those of no stream are never due
    dues: [i32; 128],
    // how many of them are looked through: the streams, rounded up to eights
    wide: usize,
}

impl Columns {
    fn of(p: &Planner) -> Columns {
        let streams = &p.table.streams[..p.table.count];
        let wide = streams.len().next_multiple_of(8);
        let mut c = Columns { rows: [NONE; 32_768], periods: [0; 128], deadlines: [0; 128], dues: [i32::MAX; 128], wide };
        for (row, s) in streams.iter().enumerate() {
            c.rows[s.id as usize] = row as u8;
            c.periods[row] = s.period;
            c.deadlines[row] = s.deadline;
            c.dues[row] = (s.release + s.deadline) as i32;
        }
        c
    }

    // One slot of a round: false if its packet may not ride.
    fn send(&mut self, id: u16, start: u32) -> bool {
        let row = usize::from(self.rows[usize::from(id & 32_767)] & 127);
        let (deadline, due) = (self.deadlines[row], self.dues[row] as u32);
        if start.wrapping_add(deadline).wrapping_sub(due) >= deadline {
            return false;
        }
        self.dues[row] = (due + self.periods[row]) as i32;
        true
    }

    // Every due time is looked at, many at once: a difference below 0 has its first bit set, and so has what it is joined to.
    fn none_due_by(&self, end: u32) -> bool {
        let mut differences = [0i32; 8];
        for dues in self.dues[..self.wide].as_chunks::<8>().0 {
            for (difference, due) in differences.iter_mut().zip(dues) {
                *difference |= due - (end + 1) as i32;
            }
        }
        differences.iter().fold(0, |all, difference| all | difference) >= 0
    }
}

// The number of the first round that breaks a rule, 0 if none does.
pub fn check(p: &Planner, plan: &[u8]) -> u32 {
    let mut c = Columns::of(p);
    let (most, mut last, mut round, mut rest) = ((p.slots - p.messages) as usize, p.last, 0, plan);
    while !rest.is_empty() {
        round += 1;
        let Some((header, more)) = rest.split_first_chunk::<6>() else { return round };
        let Some((numbers, more)) = more.split_at_checked(2 * usize::from(header[5])) else { return round };
        let start = u32::from_be_bytes([header[0], header[1], header[2], header[3]]);
        let numbers = numbers.as_chunks::<2>().0;
        if u32::from(header[4]) != p.slots || numbers.len() > p.slots as usize || start > 1_000_000_000 || start.wrapping_sub(last + 1) > p.gap {
            return round;
        }
        let mut ids = 0;
        for number in numbers {
            let id = u16::from_be_bytes(*number);
            if id > 32_767 {
                break;
            }
            if !c.send(id, start) {
                return round;
            }
            ids += 1;
        }
        let messages = &numbers[ids..];
        if ids > most || messages.iter().any(|number| number[0] < 128) || !c.none_due_by(start + 1) {
            return round;
        }
        (last, rest) = (start, more);
    }
    0
}
