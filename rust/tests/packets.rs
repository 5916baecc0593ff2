//! Schedule packets, good and bad: Annex 10.1 to 10.8 and C.7.

use planner::packet::{read, write, MOST_BYTES};
use planner::Refusal;

/// Start, B and ids of a packet, or the number of its refusal.
type Said = Result<(u32, u32, Vec<u16>), u32>;

fn said(bytes: &[u8]) -> Said {
    let packet = read(bytes).map_err(Refusal::number)?;
    Ok((packet.start(), packet.slots(), packet.ids().collect()))
}

// The answer to a write; refused, it leaves the whole buffer, and else the bytes behind the packet.
fn written(start: u32, slots: u32, ids: &[u16], room: usize) -> Result<Vec<u8>, u32> {
    let mut buffer = vec![0xee; room];
    let answer = write(start, slots, ids, &mut buffer).map(<[u8]>::to_vec);
    let length = answer.as_ref().map_or(0, Vec::len);
    assert!(buffer[length..].iter().all(|byte| *byte == 0xee), "a byte behind the packet changed");
    if let Ok(packet) = &answer {
        assert_eq!(buffer[..length], packet[..]);
    }
    answer.map_err(Refusal::number)
}

#[test]
fn the_packet_of_c_7() {
    let bytes = [0x00, 0x00, 0x00, 0x02, 0x02, 0x02, 0x00, 0x01, 0x00, 0x02];
    for room in [10, 11, MOST_BYTES] {
        assert_eq!(written(2, 2, &[1, 2], room), Ok(bytes.to_vec()));
    }
    assert_eq!(said(&bytes), Ok((2, 2, vec![1, 2])));
}

// Annex 10.2: the most significant byte first; 10.3: both ends of each range.
#[test]
fn good_packets() {
    let largest = [0x3b, 0x9a, 0xca, 0x00, 0x40, 0x02, 0x7f, 0xff, 0x01, 0x00];
    assert_eq!(written(1_000_000_000, 64, &[32_767, 256], 10), Ok(largest.to_vec()));
    assert_eq!(said(&largest), Ok((1_000_000_000, 64, vec![32_767, 256])));
    let empty = [0, 0, 0, 0, 1, 0];
    assert_eq!(written(0, 1, &[], 6), Ok(empty.to_vec()));
    assert_eq!(said(&empty), Ok((0, 1, vec![])));
    let ids: Vec<u16> = (501..=564).collect();
    let full = written(16_909_060, 64, &ids, MOST_BYTES).unwrap();
    assert_eq!((full.len(), &full[..6]), (134, &[1, 2, 3, 4, 64, 64][..]));
    assert_eq!(said(&full), Ok((16_909_060, 64, ids)));
}

// Annex 10.3: messages stand behind the ids of streams, repeats included; B ids of streams are
// good, since a packet does not say whether messages are on.
#[test]
fn packets_with_messages() {
    let bytes = [0, 0, 0, 2, 3, 3, 0, 1, 0x9c, 0x40, 0x9c, 0x40];
    assert_eq!(written(2, 3, &[1, 40_000, 40_000], 12), Ok(bytes.to_vec()));
    let packet = read(&bytes).unwrap();
    assert_eq!(packet.streams().collect::<Vec<u16>>(), [1]);
    assert_eq!(packet.messages().collect::<Vec<u16>>(), [40_000, 40_000]);
    for (slots, ids) in [
        (1, &[65_535][..]),
        (1, &[32_768]),
        (2, &[32_767, 32_768]),
        (3, &[65_535, 32_768, 65_535]),
        (3, &[1, 2, 3]),
        (64, &[50_000; 64]),
    ] {
        let bytes = written(7, slots, ids, MOST_BYTES).unwrap();
        assert_eq!(said(&bytes), Ok((7, slots, ids.to_vec())));
        let packet = read(&bytes).unwrap();
        let parts: Vec<u16> = packet.streams().chain(packet.messages()).collect();
        assert_eq!(parts, ids);
        assert!(packet.streams().all(|id| id <= 32_767) && packet.messages().all(|m| m >= 32_768));
        assert_eq!(packet.streams().len() + packet.messages().len(), ids.len());
    }
}

// Annex 10.4: 27 before 28; B and n are compared as they are passed.
#[test]
fn a_write_is_refused() {
    let refused = |start, slots, ids: &[u16], room| written(start, slots, ids, room).unwrap_err();
    assert_eq!(refused(1_000_000_001, 2, &[1], 10), 27);
    for slots in [0, 65, 261] {
        assert_eq!(refused(2, slots, &[], 10), 27);
    }
    assert_eq!(refused(2, 1, &[1, 2], 10), 27);
    assert_eq!(refused(2, 64, &(1..=256).collect::<Vec<u16>>(), 1_000), 27);
    for id in [0, 1] {
        assert_eq!(refused(2, 2, &[1, id], 10), 27);
    }
    // a stream behind a message, 0 too; a stream twice with a message between
    for ids in [&[32_768, 1][..], &[65_535, 1], &[40_000, 0], &[1, 40_000, 2], &[1, 40_000, 1]] {
        assert_eq!(refused(2, 3, ids, 12), 27, "{ids:?}");
    }
    // messages count in n too
    assert_eq!(refused(2, 2, &[1, 40_000, 40_000], 12), 27);
    assert_eq!(refused(2, 3, &[1, 2, 1], 12), 27);
    assert_eq!(refused(2, 2, &[1, 1], 0), 27);
    for room in [0, 6, 9] {
        assert_eq!(refused(2, 2, &[1, 2], room), 28);
    }
    assert_eq!(refused(2, 2, &[], 5), 28);
}

// Annex 10.6: 26 before 27.
#[test]
fn a_read_is_refused() {
    for bytes in [
        &[][..],
        &[0, 0, 0, 2, 2],
        &[0, 0, 0, 2, 2, 1],
        &[0, 0, 0, 2, 2, 2, 0, 1, 0],
        &[0, 0, 0, 2, 2, 2, 0, 1, 0, 2, 0],
        &[0xff, 0, 0, 2, 0, 1],
    ] {
        assert_eq!(said(bytes), Err(26), "{bytes:?}");
    }
    for bytes in [
        &[0x3b, 0x9a, 0xca, 0x01, 2, 0][..],
        &[0, 0, 0, 2, 0, 0],
        &[0, 0, 0, 2, 65, 1, 0, 1],
        &[0, 0, 0, 2, 2, 3, 0, 1, 0, 2, 0, 3],
        &[0, 0, 0, 2, 2, 2, 0, 1, 0, 0],
        &[0, 0, 0, 2, 2, 2, 0x80, 0, 0, 2],
        &[0, 0, 0, 2, 3, 3, 0, 1, 0, 2, 0, 1],
        &[0, 0, 0, 2, 3, 3, 0x9c, 0x40, 0x9c, 0x40, 0, 0],
        &[0, 0, 0, 2, 3, 3, 0, 1, 0x9c, 0x40, 0, 2],
        &[0, 0, 0, 2, 2, 3, 0, 1, 0x9c, 0x40, 0x9c, 0x40],
    ] {
        assert_eq!(said(bytes), Err(27), "{bytes:?}");
    }
    let mut long = [1; 516];
    long[5] = 255;
    assert_eq!(said(&long), Err(27));
    assert_eq!(said(&long[..515]), Err(26));
}

// A head looks for the slot of its stream.
#[test]
fn ids_are_an_iterator() {
    let bytes = [0, 0, 0, 9, 4, 3, 0, 7, 1, 0, 0, 5];
    let packet = read(&bytes).unwrap();
    let ids = packet.ids();
    assert_eq!((ids.len(), ids.clone().count()), (3, 3));
    assert_eq!(packet.ids().position(|id| id == 256), Some(1));
    assert_eq!(packet.ids().position(|id| id == 1), None);
}
