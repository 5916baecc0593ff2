//! Remarks beside the streams: a host whose planner has messages on sends three, and holds four
//! rounds; a head reads each packet and hears the messages in it, the first one in the very next
//! round. A line a send with its answer, then a line a round: the packet's bytes, and what a head
//! makes of them. These are the rounds of the annex's C.9; `examples/c/messages.c` writes the same.

use planner::packet::{self, Packet, MOST_BYTES};
use planner::{Planner, Refusal, Setting, Stream, MOST_SLOTS};

fn remark(planner: &mut Planner, number: u32) {
    match planner.send(number) {
        Ok(()) => println!("send {number}: 0, success"),
        Err(refusal) => println!("send {number}: {}", refusal.to_string().replacen(':', ",", 1)),
    }
}

/// The host's half: holds the next round, and gives its packet.
fn on_air<'a>(planner: &mut Planner, buffer: &'a mut [u8]) -> Result<&'a [u8], Refusal> {
    let mut ids = [0; MOST_SLOTS];
    let round = planner.round(&mut ids)?;
    packet::write(round.start, planner.slots(), round.ids, buffer)
}

/// A head's half: whose slots they are, and what is heard.
fn print_heard(packet: &Packet) {
    print!("at {}, streams", packet.start());
    packet.streams().for_each(|id| print!(" {id}"));
    print!(", {}", if packet.messages().len() == 0 { "no message" } else { "messages" });
    packet.messages().for_each(|message| print!(" {message}"));
    println!();
}

fn main() -> Result<(), Refusal> {
    // three slots a round, of which the streams have two
    let setting = Setting { slots: 3, frame: 6, gap: 6, last: 0, messages: true };
    let mut planner = Planner::open(setting)?;
    planner.add(Stream { id: 1, release: 1, period: 3, deadline: 2 })?;
    planner.add(Stream { id: 2, release: 1, period: 6, deadline: 6 })?;
    planner.add(Stream { id: 3, release: 2, period: 6, deadline: 5 })?;
    for number in [40_000, 40_000, 50_000, 32_767] {
        remark(&mut planner, number);
    }
    for _ in 0..4 {
        let mut buffer = [0; MOST_BYTES];
        let sent = on_air(&mut planner, &mut buffer)?;
        let bytes: Vec<String> = sent.iter().map(|byte| format!("{byte:02x}")).collect();
        print!("{}: ", bytes.join(" "));
        print_heard(&packet::read(sent)?);
    }
    Ok(())
}
