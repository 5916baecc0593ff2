//! From a round to the air and back: a host opens a planner, adds three streams, and puts three
//! rounds on air; a head reads each. A line a round: the packet's bytes in hex, then what was read,
//! as 0,START,B,N and the ids. These are the rounds of the annex's C.1, and the first is its C.7.

use planner::packet::{self, MOST_BYTES};
use planner::{Planner, Refusal, Setting, Stream, MOST_SLOTS};

/// The host's half: holds the next round, and gives its packet.
fn on_air<'a>(planner: &mut Planner, buffer: &'a mut [u8]) -> Result<&'a [u8], Refusal> {
    let mut ids = [0; MOST_SLOTS];
    let round = planner.round(&mut ids)?;
    packet::write(round.start, planner.slots(), round.ids, buffer)
}

/// A head's half: reads the packet.
fn print_read(bytes: &[u8]) -> Result<(), Refusal> {
    let packet = packet::read(bytes)?;
    print!("0,{},{},{}", packet.start(), packet.slots(), packet.ids().len());
    for id in packet.ids() {
        print!(",{id}");
    }
    println!();
    Ok(())
}

fn main() -> Result<(), Refusal> {
    let mut planner =
        Planner::open(Setting { slots: 2, frame: 6, gap: 6, last: 0, messages: false })?;
    planner.add(Stream { id: 1, release: 1, period: 3, deadline: 2 })?;
    planner.add(Stream { id: 2, release: 1, period: 6, deadline: 6 })?;
    planner.add(Stream { id: 3, release: 2, period: 6, deadline: 5 })?;
    for _ in 0..3 {
        let mut buffer = [0; MOST_BYTES];
        let sent = on_air(&mut planner, &mut buffer)?;
        for byte in sent {
            print!("{byte:02x}");
        }
        print!(" ");
        print_read(sent)?;
    }
    Ok(())
}
