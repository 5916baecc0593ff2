//! The schedule as it goes on air: the writer and reader of its packet,
//! literal and slow. It shares nothing with the library it checks.

/// Annex 10.2: the byte from which on the ids stand.
pub const IDS_FROM: usize = 6;

/// Annex 10.7: what the reader gives: its answer, start, B and n.
#[derive(Clone, Debug, PartialEq, Eq)]
pub struct Read {
    pub answer: u32,
    pub start: u64,
    pub slots: u64,
    pub n: u64,
}

/// Annex 10.4, 10.5: 27 for values not good, then 28 for a buffer shorter than
/// needed; refused, nothing is written, and bytes past the end are untouched.
/// The ids are 16-bit numbers, and n is their count. The start and B are wider
/// than a byte here, so that B = 261 is 27 and not byte 5.
pub fn write(start: u64, slots: u64, ids: &[u16], buffer: &mut [u8]) -> u32 {
    let ids: Vec<u64> = ids.iter().map(|id| u64::from(*id)).collect();
    if !good(start, slots, &ids) {
        return 27;
    }
    let packet = layout(start, slots, &ids);
    if buffer.len() < packet.len() {
        return 28;
    }
    buffer[..packet.len()].copy_from_slice(&packet);
    0
}

/// Annex 10.6, 10.7: 26 for a length under 6 or other than 6 + 2×n, where n is
/// byte 5, then 27 for a value not good; refused, zeros.
pub fn read(packet: &[u8]) -> Read {
    if packet.len() < IDS_FROM {
        return refused(26);
    }
    let start = number(&packet[0..4]);
    let slots = number(&packet[4..5]);
    let n = number(&packet[5..6]);
    if packet.len() as u64 != 6 + 2 * n {
        return refused(26);
    }
    let ids: Vec<u64> = packet[IDS_FROM..].chunks(2).map(number).collect();
    if !good(start, slots, &ids) {
        return refused(27);
    }
    Read {
        answer: 0,
        start,
        slots,
        n,
    }
}

/// Annex 10.8: the second call, which takes the packet alone and tests it
/// again: the ids' bytes, as the part of the packet from byte 6 on; where the
/// read is refused, an empty part.
pub fn ids_part(packet: &[u8]) -> &[u8] {
    if read(packet).answer != 0 {
        return &[];
    }
    &packet[IDS_FROM..]
}

/// The ids in such a part: two bytes each, the most significant first.
pub fn ids(part: &[u8]) -> Vec<u16> {
    let id = |two| u16::try_from(number(two)).expect("two bytes are 16 bits");
    part.chunks(2).map(id).collect()
}

/// What is read of a packet, as a line: the answer, the start, B, n and the
/// ids.
pub fn text(packet: &[u8]) -> String {
    let Read {
        answer,
        start,
        slots,
        n,
    } = read(packet);
    let mut text = format!("{answer},{start},{slots},{n}");
    for id in ids(ids_part(packet)) {
        text.push_str(&format!(",{id}"));
    }
    text.push('\n');
    text
}

/// Annex 10.7: a refused read, which gives zeros.
fn refused(answer: u32) -> Read {
    Read {
        answer,
        start: 0,
        slots: 0,
        n: 0,
    }
}

/// Annex 10.3: the start is at most 1,000,000,000, B is 1 to 64, n is at most
/// B, and the numbers are first stream ids, 1 to 32,767, none twice, and from
/// the first that is above these on messages, 32,768 to 65,535, equal ones
/// too.
fn good(start: u64, slots: u64, numbers: &[u64]) -> bool {
    let front = numbers.iter().position(|number| *number > 32_767);
    let (ids, messages) = numbers.split_at(front.unwrap_or(numbers.len()));
    let count = |id: u64| ids.iter().filter(|other| **other == id).count();
    start <= 1_000_000_000
        && (1..=64).contains(&slots)
        && numbers.len() as u64 <= slots
        && ids
            .iter()
            .all(|id| (1..=32_767).contains(id) && count(*id) == 1)
        && messages
            .iter()
            .all(|message| (32_768..=65_535).contains(message))
}

/// Annex 10.2: bytes 0 to 3 the start, the most significant first; byte 4 B;
/// byte 5 n; then n numbers, ids and messages, of two bytes each, the most
/// significant first.
fn layout(start: u64, slots: u64, ids: &[u64]) -> Vec<u8> {
    let mut values = vec![
        start / 16_777_216,
        start / 65_536 % 256,
        start / 256 % 256,
        start % 256,
        slots,
        ids.len() as u64,
    ];
    for id in ids {
        values.push(id / 256);
        values.push(id % 256);
    }
    let byte = |value| u8::try_from(value).expect("the values of a good packet fit their bytes");
    values.into_iter().map(byte).collect()
}

/// The number in some bytes, the most significant first.
fn number(bytes: &[u8]) -> u64 {
    bytes
        .iter()
        .fold(0, |value, byte| value * 256 + u64::from(*byte))
}
