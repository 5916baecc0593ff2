//! Compares the proved packet library with the oracle's packets on
//! random reads and writes and on the rounds of random scripts and of random
//! lists of calls, which have messages:
//! exchange CASES [SEED]
//! A program of its own, so that the oracle does without the library.

// Of these the oracle uses what is not used here.
#[allow(dead_code)]
mod calls;
#[allow(dead_code)]
mod cases;
#[allow(dead_code)]
mod checker;
#[allow(dead_code)]
mod count;
#[allow(dead_code)]
mod generate;
#[allow(dead_code)]
mod packet;
#[allow(dead_code)]
mod planner;
#[allow(dead_code)]
mod program;
#[allow(dead_code)]
mod random_calls;

use generate::Random;
use packet::{Read, IDS_FROM};
use program::Program;
use random_calls::List;
use std::process::ExitCode;

/// From so many cases on, every kind must have occurred.
const ENOUGH: u64 = 10_000;

/// Scripts whose rounds are written, as many lists of calls, and the lines of
/// each.
const SCRIPTS: u64 = 48;
const LINES: usize = 1_000;

/// The last good start and the largest number of the writer's start and B.
const LAST_START: u64 = planner::LAST_START;
const LARGEST: u64 = u32::MAX as u64;

/// The proved library, by the crate's declarations of it.
mod proved {
    use crate::packet::Read;
    // the crate, and not the oracle's module of that name
    use ::planner::raw::{packet_ids_length, packet_read, packet_write};

    pub fn write(start: u32, slots: u32, ids: &[u16], packet: &mut [u8]) -> u32 {
        let (n, length) = (ids.len(), packet.len());
        // SAFETY: both are slices, of these lengths and never null.
        unsafe { packet_write(start, slots, ids.as_ptr(), n, packet.as_mut_ptr(), length) }
    }

    pub fn read(packet: &[u8]) -> Read {
        // SAFETY: a slice of that length, never null.
        let read = unsafe { packet_read(packet.as_ptr(), packet.len()) };
        Read {
            answer: read.answer,
            start: read.start.into(),
            slots: read.slots.into(),
            n: read.n.into(),
        }
    }

    /// The second call: so many bytes from byte 6 on.
    pub fn ids_length(packet: &[u8]) -> usize {
        // SAFETY: as above.
        unsafe { packet_ids_length(packet.as_ptr(), packet.len()) }
    }
}

fn main() -> ExitCode {
    let arguments: Vec<String> = std::env::args().skip(1).collect();
    let numbers: Result<Vec<u64>, _> = arguments.iter().map(|word| word.parse()).collect();
    let (cases, seed) = match numbers.as_deref() {
        Ok([cases]) => (*cases, 1),
        Ok([cases, seed]) => (*cases, *seed),
        _ => {
            eprintln!("exchange CASES [SEED]");
            return ExitCode::from(2);
        }
    };
    match compare(cases, seed) {
        Ok(counts) => {
            print!("{counts}");
            ExitCode::SUCCESS
        }
        Err(difference) => {
            println!("{difference}");
            ExitCode::FAILURE
        }
    }
}

/// All comparisons: the counts, or the first difference, or what is missing.
fn compare(cases: u64, seed: u64) -> Result<String, String> {
    let mut random = Random::new(seed);
    let reads = reads(&mut random, cases)?;
    let (values, buffers) = writes(&mut random, cases)?;
    let rounds = rounds(&mut random)?;
    let text = format!(
        "{cases} reads and {cases} writes of seed {seed}, no difference\n\
         {}{}{}{}",
        reads.text("reads"),
        values.text("writes"),
        buffers.text("the same writes"),
        rounds.text()
    );
    let tables = [&reads, &values, &buffers];
    let mut missing: Vec<String> = tables.iter().flat_map(|table| table.missing()).collect();
    missing.extend(rounds.missing());
    if cases >= ENOUGH && !missing.is_empty() {
        return Err(format!("{text}did not occur: {}", missing.join("; ")));
    }
    Ok(text)
}

/// A kind of cases: the answers that it must give in a large run, those that
/// it may give besides, and how a case is made.
struct Kind<M> {
    name: &'static str,
    must: &'static [u32],
    may: &'static [u32],
    make: M,
}

const fn kind<M>(name: &'static str, must: &'static [u32], make: M) -> Kind<M> {
    let may = &[];
    Kind {
        name,
        must,
        may,
        make,
    }
}

/// How often each kind got each answer.
struct Table {
    answers: [u32; 3],
    rows: Vec<(Kind<()>, [u64; 3])>,
}

impl Table {
    fn new<M>(answers: [u32; 3], kinds: &[Kind<M>]) -> Table {
        let row = |kind: &Kind<M>| {
            let plain = Kind {
                name: kind.name,
                must: kind.must,
                may: kind.may,
                make: (),
            };
            (plain, [0; 3])
        };
        let rows = kinds.iter().map(row).collect();
        Table { answers, rows }
    }

    /// Counts one answer. One that the kind cannot get is an error too, though
    /// both sides gave it.
    fn count(&mut self, row: usize, answer: u32) -> Result<(), String> {
        let (kind, counts) = &mut self.rows[row];
        if !kind.must.contains(&answer) && !kind.may.contains(&answer) {
            return Err(format!("both answered {answer} to \"{}\"", kind.name));
        }
        let column = self.answers.iter().position(|known| *known == answer);
        counts[column.expect("an answer of the kind is one of the table")] += 1;
        Ok(())
    }

    /// The kinds that lack an answer they must give, in words.
    fn missing(&self) -> Vec<String> {
        let mut missing = Vec::new();
        for (kind, counts) in &self.rows {
            for (answer, count) in self.answers.iter().zip(counts) {
                if kind.must.contains(answer) && *count == 0 {
                    missing.push(format!("{answer} to \"{}\"", kind.name));
                }
            }
        }
        missing
    }

    /// The table as text: a row for each kind, a column for each answer.
    fn text(&self, title: &str) -> String {
        let line = |[a, b, c]: [u64; 3], name: &str| format!("{a:>9} {b:>9} {c:>9} {name}\n");
        let sum = |column: usize| self.rows.iter().map(|(_, counts)| counts[column]).sum();
        let heads = self.answers.map(u64::from);
        let mut text = line(heads, &format!("is the answer to {title}"));
        text.push_str(&line([sum(0), sum(1), sum(2)], "in all"));
        for (kind, counts) in &self.rows {
            text.push_str(&line(*counts, kind.name));
        }
        text
    }
}

/// The values of a packet, good or not.
#[derive(Clone, Debug, PartialEq, Eq)]
struct Values {
    start: u64,
    slots: u64,
    ids: Vec<u16>,
}

impl Values {
    fn need(&self) -> usize {
        IDS_FROM + 2 * self.ids.len()
    }

    /// The layout with the count of the ids as n, for values that fit it.
    fn bytes(&self) -> Vec<u8> {
        let start = u32::try_from(self.start).expect("32 bits");
        let slots = u8::try_from(self.slots).expect("a byte");
        let n = u8::try_from(self.ids.len()).expect("a byte");
        let ids: Vec<u8> = self.ids.iter().flat_map(|id| id.to_be_bytes()).collect();
        [&start.to_be_bytes()[..], &[slots, n], &ids].concat()
    }
}

/// So many bytes, each by chance.
fn random_bytes(random: &mut Random, length: usize) -> Vec<u8> {
    let words = (0..length.div_ceil(8)).flat_map(|_| random.next().to_le_bytes());
    words.take(length).collect()
}

fn hex(bytes: &[u8]) -> String {
    bytes.iter().map(|byte| format!("{byte:02x}")).collect()
}

// What is compared.

/// Reads a packet with both, lent from among other bytes, and compares the
/// four numbers, the length of the part, and its bytes. What the library is
/// lent must stay. The read, if there is no difference.
fn same_read(random: &mut Random, packet: &[u8]) -> Result<Read, String> {
    let before = random.between(0, 9) as usize;
    let mut whole = random_bytes(random, before + packet.len() + 9);
    whole[before..before + packet.len()].copy_from_slice(packet);
    let kept = whole.clone();
    let lent = &whole[before..before + packet.len()];
    let (ours, theirs) = (packet::read(packet), proved::read(lent));
    let (our_part, their_length) = (packet::ids_part(packet), proved::ids_length(lent));
    let same_part = their_length == our_part.len()
        && (their_length == 0 || lent.get(IDS_FROM..IDS_FROM + their_length) == Some(our_part));
    if ours == theirs && same_part && whole == kept {
        return Ok(ours);
    }
    Err(format!(
        "read of {} bytes: {}\n\
         oracle:  {ours:?} and a part of {} bytes\n\
         library: {theirs:?} and a part of {their_length} bytes{}",
        packet.len(),
        hex(packet),
        our_part.len(),
        if whole == kept { "" } else { ", bytes changed" }
    ))
}

/// Writes values with both, each into the same bytes before, and compares the
/// answers and all bytes, those before and after the lent part too. The ids
/// are lent from among zeros. The answer and the lent part, if there is no
/// difference.
fn same_write(
    random: &mut Random,
    values: &Values,
    length: usize,
) -> Result<(u32, Vec<u8>), String> {
    let before = random.between(1, 16) as usize;
    let lent = before..before + length;
    let filled = random_bytes(random, before + length + 16);
    let (mut ours, mut theirs) = (filled.clone(), filled);
    let ids = [&[0], values.ids.as_slice(), &[0]].concat();
    let ids = &ids[1..ids.len() - 1];
    let our_answer = packet::write(values.start, values.slots, ids, &mut ours[lent.clone()]);
    let start = u32::try_from(values.start).expect("32 bits");
    let slots = u32::try_from(values.slots).expect("32 bits");
    let their_answer = proved::write(start, slots, ids, &mut theirs[lent.clone()]);
    if our_answer == their_answer && ours == theirs {
        return Ok((our_answer, ours[lent].to_vec()));
    }
    Err(format!(
        "write of {values:?} into {length} bytes, lent from byte {before}\n\
         oracle:  answer {our_answer}, bytes {}\n\
         library: answer {their_answer}, bytes {}",
        hex(&ours),
        hex(&theirs)
    ))
}

/// A read, and for a good packet Annex 12.17: writing its values gives its
/// bytes. The answer.
fn read_case(random: &mut Random, packet: &[u8]) -> Result<u32, String> {
    let read = same_read(random, packet)?;
    if read.answer == 0 {
        let values = Values {
            start: read.start,
            slots: read.slots,
            ids: packet::ids(packet::ids_part(packet)),
        };
        let written = same_write(random, &values, packet.len())?;
        if written != (0, packet.to_vec()) {
            let (answer, bytes) = (written.0, hex(&written.1));
            return Err(format!(
                "read as {values:?}: {}\nboth write: answer {answer}, bytes {bytes}",
                hex(packet)
            ));
        }
    }
    Ok(read.answer)
}

/// A write, and if it is done Annex 12.17: reading it gives its values; and
/// the whole buffer, if longer, is read as 26. The answer.
fn write_case(random: &mut Random, values: &Values, length: usize) -> Result<u32, String> {
    let (answer, buffer) = same_write(random, values, length)?;
    if answer == 0 {
        let written = &buffer[..values.need()];
        let read = same_read(random, written)?;
        let whole = same_read(random, &buffer)?;
        let wanted = Read {
            answer: 0,
            start: values.start,
            slots: values.slots,
            n: values.ids.len() as u64,
        };
        let same = read == wanted && packet::ids(packet::ids_part(written)) == values.ids;
        let longer = buffer.len() > written.len();
        if !same || (longer && whole.answer != 26) {
            return Err(format!(
                "written of {values:?}: {}\nboth read {read:?}, and of the whole buffer {whole:?}",
                hex(&buffer)
            ));
        }
    }
    Ok(answer)
}

/// So many reads, each of a kind by chance.
fn reads(random: &mut Random, cases: u64) -> Result<Table, String> {
    let mut table = Table::new([0, 26, 27], &READS);
    for _ in 0..cases {
        let row = random.below(READS.len() as u64) as usize;
        let packet = (READS[row].make)(random);
        let answer = read_case(random, &packet)?;
        table
            .count(row, answer)
            .map_err(|error| format!("{error}: {}", hex(&packet)))?;
    }
    Ok(table)
}

/// So many writes, each of a kind of values and a kind of buffer by chance.
fn writes(random: &mut Random, cases: u64) -> Result<(Table, Table), String> {
    let mut values_table = Table::new([0, 27, 28], &WRITES);
    let mut buffers_table = Table::new([0, 27, 28], &BUFFERS);
    for _ in 0..cases {
        let row = random.below(WRITES.len() as u64) as usize;
        let buffer_row = random.below(BUFFERS.len() as u64) as usize;
        let values = (WRITES[row].make)(random);
        let length = (BUFFERS[buffer_row].make)(random, values.need());
        let answer = write_case(random, &values, length)?;
        values_table
            .count(row, answer)
            .and_then(|()| buffers_table.count(buffer_row, answer))
            .map_err(|error| format!("{error}: {values:?} into {length} bytes"))?;
    }
    Ok((values_table, buffers_table))
}

/// The packets of held rounds: all, those with no number, with B numbers, with
/// more than one, and with a message.
#[derive(Default)]
struct Rounds {
    packets: u64,
    none: u64,
    full: u64,
    several: u64,
    messages: u64,
}

impl Rounds {
    fn text(&self) -> String {
        format!(
            "{:>9} packets of the rounds of {SCRIPTS} scripts and {SCRIPTS} lists of calls\n\
             {:>9} of these with no number\n{:>9} of these with B numbers\n\
             {:>9} of these with more than one number\n{:>9} of these with a message\n",
            self.packets, self.none, self.full, self.several, self.messages
        )
    }

    /// Writes a held round and reads it. A round is always good, so the answer
    /// must be 0.
    fn exchange(&mut self, random: &mut Random, values: &Values) -> Result<(), String> {
        let length = values.need() + random.pick(&[0, 0, 1, 50]);
        let answer = write_case(random, values, length)?;
        if answer != 0 {
            return Err(format!("both answered {answer} to the round {values:?}"));
        }
        read_case(random, &values.bytes())?;
        self.packets += 1;
        self.none += u64::from(values.ids.is_empty());
        self.full += u64::from(values.ids.len() as u64 == values.slots);
        self.several += u64::from(values.ids.len() > 1);
        self.messages += u64::from(values.ids.iter().any(|number| *number > 32_767));
        Ok(())
    }

    fn missing(&self) -> Vec<String> {
        let counts = [
            (self.packets, "a round"),
            (self.none, "a round with no number"),
            (self.full, "a round with B numbers"),
            (self.several, "a round with more than one number"),
            (self.messages, "a round with a message"),
        ];
        let missing = counts.iter().filter(|(count, _)| *count == 0);
        missing.map(|(_, name)| String::from(*name)).collect()
    }
}

/// Every held round of random scripts and of random lists of calls.
fn rounds(random: &mut Random) -> Result<Rounds, String> {
    let mut rounds = Rounds::default();
    for _ in 0..SCRIPTS {
        let script = generate::script(random.next(), LINES);
        let mut program = Program::new();
        for line in program::lines(&script) {
            let printed = program.line(line);
            if let Some(values) = round_values(program.planner.slots, &printed) {
                rounds.exchange(random, &values)?;
            }
        }
    }
    for _ in 0..SCRIPTS {
        let mut list = List::new(random.between(1, 2_147_483_646));
        for _ in 0..LINES {
            if let Some(values) = called_values(&mut list) {
                rounds.exchange(random, &values)?;
            }
        }
    }
    Ok(rounds)
}

/// The values of the next call of a list, if it is a round that is held.
fn called_values(list: &mut List) -> Option<Values> {
    let round = list.step().round.filter(|round| round.answer == 0)?;
    Some(Values {
        start: round.start,
        slots: list.calls.planner.slots,
        ids: round.buffer[..round.n].to_vec(),
    })
}

/// The values of a held round, printed as "R,0,start,n" and the ids.
fn round_values(slots: u64, printed: &str) -> Option<Values> {
    let fields: Vec<&str> = printed.strip_prefix("R,0,")?.split(',').collect();
    let id = |field: &&str| field.parse().expect("an id");
    Some(Values {
        start: fields[0].parse().expect("a start"),
        slots,
        ids: fields[2..].iter().map(id).collect(),
    })
}

// The kinds of reads.

const READS: [Kind<fn(&mut Random) -> Vec<u8>>; 28] = [
    Kind {
        name: "0 to 140 random bytes",
        must: &[26],
        may: &[0, 27],
        make: |random| {
            let length = random.between(0, 140) as usize;
            random_bytes(random, length)
        },
    },
    Kind {
        name: "510 to 522 random bytes",
        must: &[26],
        may: &[27],
        make: |random| {
            let length = random.between(510, 522) as usize;
            random_bytes(random, length)
        },
    },
    Kind {
        name: "random bytes, n fits the length",
        must: &[27],
        may: &[0],
        make: fitted_bytes,
    },
    kind("good packet", &[0], |random| good(random, 0).bytes()),
    kind("one byte changed", &[0, 26, 27], one_byte),
    kind("cut", &[26], |random| {
        let mut packet = good(random, 0).bytes();
        packet.truncate(random.below(packet.len() as u64) as usize);
        packet
    }),
    kind("cut by one byte", &[26], |random| {
        let mut packet = good(random, 0).bytes();
        packet.pop();
        packet
    }),
    kind("lengthened by 1 to 3 bytes", &[26], |random| {
        let more = random.between(1, 3) as usize;
        lengthened(random, more)
    }),
    kind("lengthened by 512 or 131,072 bytes", &[26], |random| {
        let more = if random.chance(2) { 131_072 } else { 512 };
        lengthened(random, more)
    }),
    kind("two ids equal", &[27], |random| id_twice(random).bytes()),
    kind("start on its bound", &[0], |random| {
        start_on(random).bytes()
    }),
    kind("start past its bound", &[27], |random| {
        start_past(random).bytes()
    }),
    kind("B on its bound", &[0], |random| slots_on(random).bytes()),
    kind("B = 0, no id", &[27], |random| {
        let (slots, ids) = (0, Vec::new());
        let start = good(random, 0).start;
        Values { start, slots, ids }.bytes()
    }),
    kind("B = 0, ids", &[27], |random| {
        let slots = 0;
        let good = good(random, 1);
        Values { slots, ..good }.bytes()
    }),
    kind("B past 64", &[27], |random| {
        let any = random.between(65, 255);
        let slots = random.pick(&[65, 65, 128, 255, any]);
        let good = good(random, 0);
        Values { slots, ..good }.bytes()
    }),
    kind("n = B", &[0], |random| n_is_b(random).bytes()),
    kind("n = B + 1", &[27], |random| n_above(random, 1).bytes()),
    kind("n far above B", &[27], |random| {
        let more = random.between(2, 190) as usize;
        n_above(random, more).bytes()
    }),
    kind("n = 255 with 516 bytes", &[27], |random| {
        let good = good(random, 0);
        let slots = random.pick(&[good.slots, good.slots, 1, 64, 65, 255]);
        let ids = distinct_ids(random, 255);
        Values { slots, ids, ..good }.bytes()
    }),
    kind("an id on its bound", &[0], |random| id_on(random).bytes()),
    kind("an id 0", &[27], |random| with_id(random, &[0]).bytes()),
    kind("a message in some place", &[0, 27], |random| {
        message_in(random).bytes()
    }),
    kind("messages behind the ids", &[0], |random| {
        messages_behind(random).bytes()
    }),
    kind("an id behind a message", &[27], |random| {
        id_behind(random).bytes()
    }),
    kind("0 behind a message", &[27], |random| {
        zero_behind(random).bytes()
    }),
    kind("B and n exchanged", &[0, 26, 27], exchanged),
    kind("a wrong value and a wrong length", &[26], |random| {
        let makers = [id_twice, start_past, id_behind];
        let mut packet = random.pick(&makers)(random).bytes();
        let length = packet.len();
        let longer = length + random.between(1, 3) as usize;
        let shorter = random.below(length as u64) as usize;
        packet.resize(random.pick(&[longer, shorter]), 1);
        packet
    }),
];

/// Random bytes with byte 5 as the length wants it; half of them with start
/// and B in range too.
fn fitted_bytes(random: &mut Random) -> Vec<u8> {
    let n = random.between(0, 67);
    let mut packet = random_bytes(random, IDS_FROM + 2 * n as usize);
    packet[5] = n as u8;
    if random.chance(50) {
        packet[0] %= 59;
        packet[4] = random.between(1, 64) as u8;
    }
    packet
}

/// A good packet with one byte made another, half the time one of the first
/// six.
fn one_byte(random: &mut Random) -> Vec<u8> {
    let mut packet = good(random, 0).bytes();
    let any = random.below(packet.len() as u64);
    let place = random.below(6);
    let place = random.pick(&[any, place]) as usize;
    packet[place] ^= random.between(1, 255) as u8;
    packet
}

/// A good packet and so many bytes more.
fn lengthened(random: &mut Random, more: usize) -> Vec<u8> {
    let packet = good(random, 0).bytes();
    let after = random_bytes(random, more);
    [packet, after].concat()
}

/// A good packet with bytes 4 and 5 exchanged, half the time with as many ids
/// as n now says; at times B and n are equal.
fn exchanged(random: &mut Random) -> Vec<u8> {
    let mut values = good(random, 0);
    if random.chance(50) {
        let n = values.ids.len() as u64;
        values.ids = distinct_ids(random, values.slots as usize);
        values.slots = n;
        return values.bytes();
    }
    let mut packet = values.bytes();
    packet.swap(4, 5);
    packet
}

// The kinds of writes.

const WRITES: [Kind<fn(&mut Random) -> Values>; 16] = [
    kind("good values", &[0, 28], |random| good(random, 0)),
    kind("start on its bound", &[0, 28], start_on),
    kind("B on its bound", &[0, 28], slots_on),
    kind("n = B", &[0, 28], n_is_b),
    kind("an id on its bound", &[0, 28], id_on),
    kind("start past its bound", &[27], start_past),
    kind("B past its bound", &[27], slots_past),
    kind("n = B + 1", &[27], |random| n_above(random, 1)),
    kind("n far above B, to 300 ids", &[27], long_list),
    kind("256 or 65,536 ids too many", &[27], |random| {
        let mut values = good(random, 0);
        // So long a list is made seldom.
        let n = if random.chance(1) { 65_536 } else { 256 };
        values.ids.resize(n + values.ids.len(), 9);
        values
    }),
    kind("an id 0", &[27], |random| with_id(random, &[0])),
    kind("a message in some place", &[0, 27, 28], message_in),
    kind("messages behind the ids", &[0, 28], messages_behind),
    kind("an id behind a message", &[27], id_behind),
    kind("0 behind a message", &[27], zero_behind),
    kind("an id twice", &[27], id_twice),
];

/// Lengths of buffers. Values not good get 27 with every one of them.
const BUFFERS: [Kind<fn(&mut Random, usize) -> usize>; 5] = [
    kind("into a buffer of the need", &[0, 27], |_, need| need),
    kind("into one byte less", &[27, 28], |_, need| need - 1),
    kind("into one byte more", &[0, 27], |_, need| need + 1),
    kind("into none", &[27, 28], |_, _| 0),
    kind("into a random length", &[0, 27, 28], |random, need| {
        random.between(0, 3 * need as u64) as usize
    }),
];

/// B as a 32-bit number past its bound, also with a good last byte, and 0.
fn slots_past(random: &mut Random) -> Values {
    let good = good(random, 0);
    let any = random.between(65, LARGEST);
    let bytes = 256 << random.pick(&[0, 0, 8, 16, 23]);
    let slots = random.pick(&[0, 65, 261, 256, any, bytes + good.slots, LARGEST]);
    Values { slots, ..good }
}

/// Lists longer than any B, around 256 and up to 300 ids.
fn long_list(random: &mut Random) -> Values {
    let good = good(random, 0);
    let any = random.between(65, 300);
    let n = random.pick(&[65, 255, 256, 257, 256 + good.slots, 300, any]);
    let ids = distinct_ids(random, n.min(300) as usize);
    Values { ids, ..good }
}

// Values, for reads and writes.

/// Good values with at least so many ids (1 or 2, or 0).
fn good(random: &mut Random, least: u64) -> Values {
    let any = random.between(0, LAST_START);
    let small = random.between(0, 300);
    let start = random.pick(&[any, any, small, LAST_START - small]);
    let slots = random.between(least.max(1), 64);
    let n = random.between(least, slots);
    let n = random.pick(&[n, n, n, slots]) as usize;
    let ids = distinct_ids(random, n);
    Values { start, slots, ids }
}

/// So many ids, none twice; at times out of few, so that they are neighbours,
/// and at times, where 64 are enough, 1,024 apart, so that their low bits are
/// alike.
fn distinct_ids(random: &mut Random, n: usize) -> Vec<u16> {
    let top = random.pick(&[n as u64 + 3, 32_767, 32_767]);
    let alike = n <= 64 && random.chance(25);
    let mut ids = Vec::new();
    while ids.len() < n {
        let id = if alike {
            random.between(1, 2) + 1_024 * random.below(32)
        } else {
            random.between(1, top)
        };
        let id = id as u16;
        if !ids.contains(&id) {
            ids.push(id);
        }
    }
    ids
}

/// So many numbers, at least one: ids, and at times messages behind them.
fn ids_and_messages(random: &mut Random, n: usize) -> Vec<u16> {
    let mut numbers = distinct_ids(random, n);
    if random.chance(30) {
        let from = random.below(n as u64) as usize;
        make_messages(random, &mut numbers, from);
    }
    numbers
}

/// A place of a list: the first, the last or any.
fn place(random: &mut Random, length: usize) -> usize {
    let any = random.below(length as u64) as usize;
    random.pick(&[0, length - 1, any])
}

fn start_on(random: &mut Random) -> Values {
    let start = random.pick(&[0, LAST_START]);
    let good = good(random, 0);
    Values { start, ..good }
}

fn start_past(random: &mut Random) -> Values {
    let any = random.between(LAST_START + 1, LARGEST);
    let good = good(random, 0);
    let high = good.start | 1 << 31;
    let start = random.pick(&[LAST_START + 1, LAST_START + 1, any, high, LARGEST]);
    Values { start, ..good }
}

/// B is 1 with one id or none, or 64.
fn slots_on(random: &mut Random) -> Values {
    let mut values = good(random, 0);
    values.slots = random.pick(&[1, 64]);
    values.ids.truncate(values.slots as usize);
    values
}

fn n_is_b(random: &mut Random) -> Values {
    let good = good(random, 0);
    let slots = random.pick(&[1, good.slots, good.slots, 64]);
    let ids = ids_and_messages(random, slots as usize);
    Values { slots, ids, ..good }
}

/// So many numbers more than B.
fn n_above(random: &mut Random, more: usize) -> Values {
    let good = good(random, 0);
    let slots = random.pick(&[1, good.slots, good.slots, 64]);
    let ids = ids_and_messages(random, slots as usize + more);
    Values { slots, ids, ..good }
}

/// Good values with the id 1 or 32,767 in some place.
fn id_on(random: &mut Random) -> Values {
    let mut values = good(random, 1);
    let bound = random.pick(&[1, 32_767]);
    let place = place(random, values.ids.len());
    match values.ids.iter().position(|id| *id == bound) {
        Some(held) => values.ids.swap(held, place),
        None => values.ids[place] = bound,
    }
    values
}

/// Good values but for one of these ids in some place.
fn with_id(random: &mut Random, bad: &[u16]) -> Values {
    let mut values = good(random, 1);
    let place = place(random, values.ids.len());
    values.ids[place] = random.pick(bad);
    values
}

/// A message in some place: good where it is the last.
fn message_in(random: &mut Random) -> Values {
    let any = random.between(32_768, 65_535) as u16;
    with_id(random, &[32_768, 32_768, any, 65_535])
}

/// Makes the numbers from a place on messages: on a bound, out of few, so that
/// some are equal, with an id's low 15 bits, or any.
fn make_messages(random: &mut Random, numbers: &mut [u16], from: usize) {
    let low = numbers[0] % 32_768;
    for number in &mut numbers[from..] {
        let any = random.between(32_768, 65_535) as u16;
        *number = random.pick(&[32_768, 65_535, 40_000, 32_768 + low, any, any]);
    }
}

/// Good values with a message in the last place, or from some place on.
fn messages_behind(random: &mut Random) -> Values {
    let mut values = good(random, 1);
    let from = place(random, values.ids.len());
    make_messages(random, &mut values.ids, from);
    values
}

/// Good values but for one id with a message before it; no id is twice.
fn id_behind(random: &mut Random) -> Values {
    let mut values = good(random, 2);
    let last = values.ids.len() as u64 - 1;
    let from = random.below(last);
    let behind = random.between(from + 1, last);
    let behind = random.pick(&[from + 1, behind, last]) as usize;
    let id = values.ids[behind];
    make_messages(random, &mut values.ids, from as usize);
    values.ids[behind] = id;
    values
}

/// The same with 0 in place of the id.
fn zero_behind(random: &mut Random) -> Values {
    let mut values = id_behind(random);
    let message = values.ids.iter().position(|number| *number > 32_767);
    let message = message.expect("one was put there");
    let behind = values.ids[message..].iter_mut().find(|id| **id < 32_768);
    *behind.expect("one was put there") = 0;
    values
}

/// Good values but for one id in two places: the first and the last, two
/// neighbours or any two.
fn id_twice(random: &mut Random) -> Values {
    let mut values = good(random, 2);
    let last = values.ids.len() as u64 - 1;
    let one = random.below(last);
    let other = random.between(one + 1, last);
    let (one, other) = random.pick(&[(0, last), (one, one + 1), (one, other)]);
    values.ids[other as usize] = values.ids[one as usize];
    values
}
