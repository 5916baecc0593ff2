// What a host of streams can do, whoever wrote it.

#[derive(Clone, Copy)]
pub struct Offer {
    pub id: u32,
    pub start: u32,
    pub period: u32,
    pub deadline: u32,
}

// What all of them can do; a call answers a number that the others must answer too. What is about messages only those can that keep the bytes of a
// planner; the algorithms of the paper have none.
pub trait Host: Clone {
    fn round(&mut self) -> u32;
    fn add(&mut self, offer: Offer) -> u32;
    fn remove(&mut self, id: u32) -> u32;

    fn send(&mut self, _number: u32) -> u32 {
        unimplemented!("no messages")
    }

    // Has 32 messages wait, whatever waited.
    fn fill_waiting(&mut self) {
        unimplemented!("no messages")
    }
}

// A round's start and ids in one number.
pub fn mixed(start: u32, ids: &[u16]) -> u32 {
    ids.iter().fold(start, |sum, id| sum.wrapping_mul(31).wrapping_add(u32::from(*id)))
}
