// The proved planner, as the library sees it: the crate's `raw`, so that nothing but the library's call is measured, and a planner can be damaged.
use super::{mixed, Host, Offer};
use planner::{raw, Setting};

pub use planner::raw::{Held, Planner, Stream, Waiting};

pub fn open(slots: u32, frame: u32, gap: u32) -> Planner {
    open_at(Setting { slots, frame, gap, last: 0, messages: false })
}

pub fn open_at(setting: Setting) -> Planner {
    *planner::Planner::open(setting).expect("a setting in range").as_raw()
}

// Id, period, deadline and release of each stream.
pub fn streams(p: &Planner) -> Vec<[u32; 4]> {
    p.table.streams[..p.table.count].iter().map(|s| [s.id, s.period, s.deadline, s.release]).collect()
}

pub fn hold(p: &mut Planner, buffer: &mut [u16]) -> Held {
    // SAFETY: a planner and a slice, both borrowed for this call alone.
    unsafe { raw::planner_round(p, buffer.as_mut_ptr(), buffer.len()) }
}

impl Host for Planner {
    fn round(&mut self) -> u32 {
        let mut buffer = [0u16; 64];
        let held = hold(self, &mut buffer);
        assert_eq!(held.answer, 0);
        mixed(held.start, &buffer[..held.n as usize])
    }

    fn add(&mut self, offer: Offer) -> u32 {
        // SAFETY: a planner that is borrowed for this call alone.
        unsafe { raw::planner_add(self, offer.id, offer.start, offer.period, offer.deadline) }
    }

    fn remove(&mut self, id: u32) -> u32 {
        // SAFETY: as above.
        unsafe { raw::planner_remove(self, id) }
    }

    fn send(&mut self, number: u32) -> u32 {
        // SAFETY: as above.
        unsafe { raw::planner_send(self, number) }
    }

    // By hand, so that nothing of it is counted as a call.
    fn fill_waiting(&mut self) {
        self.waiting = Waiting { count: 32, numbers: std::array::from_fn(|k| 40_000 + k as u16) };
    }
}
