// What a proved call is held to: the same full test of the same bytes, the same answers, the same bytes left, by hand in unchecked Rust.
// Every condition of a sound planner is tested, on any bytes whatever:
//   - each stream is looked for in the list of its due time's bucket, and must stand there under its due time and release, linked back to the
//     head or to an entry that comes before it; as many lists end as begin, so ids, keys, releases, order, buckets and links are compared in
//     one go;
//   - as many places hold an entry as there are streams, so no other place does;
//   - all other heads are their own neighbours both ways, counted eight at a time;
//   - the waiting messages are numbers with the sign bit of 16 bits, gathered sixteen at a time;
//   - a table that keeps both rules with one stream more keeps them without it, so that an add that is accepted tests them once.
// The busy length is found by going up to the least fixed point, with a division for each stream and step; due times are counted in an
// array of lengths.
use super::proved::{Held, Planner, Stream, Waiting};
use super::{mixed, Host, Offer};
use std::arch::x86_64::*;
use std::mem::MaybeUninit;

const BUCKETS: usize = 480;

fn get<T: Copy>(of: &[T], i: usize) -> T {
    debug_assert!(i < of.len());
    unsafe { *of.get_unchecked(i) }
}

fn set<T>(of: &mut [T], i: usize, value: T) {
    debug_assert!(i < of.len());
    unsafe { *of.get_unchecked_mut(i) = value }
}

// Columns of the table, eight streams a step. Times are less now; rows past the last have times above every length.
#[repr(align(16))]
struct Columns {
    ids: [u16; 64],
    periods: [f32; 64],
    deadlines: [i16; 64],
    releases: [i16; 64],
    dues: [i16; 64],
}

const FAR: i16 = i16::MAX;

// Four streams: whether they are in range, near and in order of ids; their columns otherwise.
struct Four {
    good: __m128i,
    ids: __m128i,
    periods: __m128,
    deadlines: __m128i,
    releases: __m128i,
    dues: __m128i,
}

// The numbers that every stream is compared with.
#[derive(Clone, Copy)]
struct Bounds {
    frame: __m128,
    now: __m128i,
}

#[inline(always)]
unsafe fn four(s: *const Stream, before: __m128i, b: Bounds) -> Four {
    let s = s.cast::<__m128>();
    let (mut a, mut c, mut d, mut e) = (_mm_loadu_ps(s.cast()), _mm_loadu_ps(s.add(1).cast()), _mm_loadu_ps(s.add(2).cast()), _mm_loadu_ps(s.add(3).cast()));
    _MM_TRANSPOSE4_PS(&mut a, &mut c, &mut d, &mut e);
    let (ids, periods, deadlines, release) = (_mm_castps_si128(a), _mm_castps_si128(c), _mm_castps_si128(d), _mm_castps_si128(e));
    let zero = _mm_setzero_si128();
    // ids rise from 1 on; the last is compared with 32,767 at the end
    let earlier = _mm_or_si128(_mm_slli_si128(ids, 4), _mm_srli_si128(before, 12));
    let mut good = _mm_cmpgt_epi32(ids, earlier);
    // 1 ≤ period ≤ 240, and it divides the frame: the quotient is exact
    let p = _mm_cvtepi32_ps(periods);
    let whole = _mm_cvtepi32_ps(_mm_cvttps_epi32(_mm_div_ps(b.frame, p)));
    good = _mm_and_si128(good, _mm_castps_si128(_mm_cmpeq_ps(_mm_mul_ps(whole, p), b.frame)));
    good = _mm_and_si128(good, _mm_cmpgt_epi32(periods, zero));
    let mut bad = _mm_cmpgt_epi32(periods, _mm_set1_epi32(240));
    // 1 ≤ deadline ≤ period
    good = _mm_and_si128(good, _mm_cmpgt_epi32(deadlines, zero));
    bad = _mm_or_si128(bad, _mm_cmpgt_epi32(deadlines, periods));
    // released no later than now + 239, due after now; a release has no sign bit
    let since = _mm_sub_epi32(release, b.now);
    let dues = _mm_add_epi32(since, deadlines);
    bad = _mm_or_si128(bad, _mm_cmpgt_epi32(since, _mm_set1_epi32(239)));
    bad = _mm_or_si128(bad, _mm_srai_epi32(release, 31));
    good = _mm_and_si128(good, _mm_cmpgt_epi32(dues, zero));
    Four { good: _mm_andnot_si128(bad, good), ids, periods: p, deadlines, releases: since, dues }
}

#[inline(always)]
unsafe fn eight(s: *const Stream, i: usize, before: __m128i, b: Bounds, c: &mut Columns, good: &mut __m128i, least: &mut __m128i) -> __m128i {
    let x = four(s, before, b);
    let y = four(s.add(4), x.ids, b);
    *good = _mm_and_si128(*good, _mm_and_si128(x.good, y.good));
    _mm_store_si128(c.ids.as_mut_ptr().add(i).cast(), _mm_packs_epi32(x.ids, y.ids));
    _mm_store_ps(c.periods.as_mut_ptr().add(i), x.periods);
    _mm_store_ps(c.periods.as_mut_ptr().add(i + 4), y.periods);
    _mm_store_si128(c.deadlines.as_mut_ptr().add(i).cast(), _mm_packs_epi32(x.deadlines, y.deadlines));
    _mm_store_si128(c.releases.as_mut_ptr().add(i).cast(), _mm_packs_epi32(x.releases, y.releases));
    let dues = _mm_packs_epi32(x.dues, y.dues);
    _mm_store_si128(c.dues.as_mut_ptr().add(i).cast(), dues);
    *least = _mm_min_epi16(*least, dues);
    y.ids
}

// The table's columns and its first due time, if everything is in range. A step that is not full
// is filled up with copies of its first stream under ids above the bound.
#[inline(always)]
unsafe fn columns(p: &Planner, c: &mut Columns) -> Option<usize> {
    let now = p.last as i32 + 1;
    let b = Bounds { frame: _mm_set1_ps(p.frame as f32), now: _mm_set1_epi32(now) };
    let mut good = _mm_set1_epi32(-1);
    let mut least = _mm_set1_epi16(FAR);
    let mut before = _mm_setzero_si128();
    let full = p.table.count & !7;
    let mut i = 0;
    while i < full {
        before = eight(p.table.streams.as_ptr().add(i), i, before, b, c, &mut good, &mut least);
        i += 8;
    }
    if full < p.table.count {
        let mut rest = [get(&p.table.streams, full); 8];
        for k in 1..8 {
            rest[k].id = 40_000 + k as u32;
            if full + k < p.table.count {
                rest[k] = get(&p.table.streams, full + k);
            }
        }
        eight(rest.as_ptr(), full, before, b, c, &mut good, &mut least);
        for k in p.table.count..full + 8 {
            c.periods[k] = f32::INFINITY;
            c.deadlines[k] = FAR;
            c.releases[k] = FAR;
            c.dues[k] = FAR;
        }
    }
    if _mm_movemask_epi8(good) != 0xffff || (p.table.count > 0 && get(&p.table.streams, p.table.count - 1).id > 32767) {
        return None;
    }
    least = _mm_min_epi16(least, _mm_srli_si128(least, 8));
    least = _mm_min_epi16(least, _mm_srli_si128(least, 4));
    Some((_mm_extract_epi16(least, 0).min(_mm_extract_epi16(least, 1))) as usize)
}

#[repr(align(16))]
struct Nodes([u16; BUCKETS]);

static HEADS: Nodes = {
    let mut nodes = [0; BUCKETS];
    let mut b = 0;
    while b < BUCKETS {
        nodes[b] = 64 + b as u16;
        b += 1;
    }
    Nodes(nodes)
};

// How many of the 480 heads are their own neighbours both ways.
#[inline(always)]
unsafe fn heads_alone(p: &Planner) -> usize {
    let (next, prev) = (p.queue.next.as_ptr().add(64), p.queue.prev.as_ptr().add(64));
    let mut n = _mm_setzero_si128();
    for k in 0..BUCKETS / 8 {
        let own = _mm_load_si128(HEADS.0.as_ptr().add(8 * k).cast());
        let on = _mm_cmpeq_epi16(_mm_loadu_si128(next.add(8 * k).cast()), own);
        let back = _mm_cmpeq_epi16(_mm_loadu_si128(prev.add(8 * k).cast()), own);
        n = _mm_sub_epi16(n, _mm_and_si128(on, back));
    }
    sum_of(n)
}

// How many places hold an entry.
#[inline(always)]
unsafe fn places_filled(p: &Planner) -> usize {
    let mut n = _mm_set1_epi16(8);
    for k in 0..8 {
        n = _mm_add_epi16(n, _mm_cmpeq_epi16(_mm_loadu_si128(p.queue.ids.as_ptr().add(8 * k).cast()), _mm_setzero_si128()));
    }
    sum_of(n)
}

#[inline(always)]
unsafe fn sum_of(n: __m128i) -> usize {
    let pairs = _mm_madd_epi16(n, _mm_set1_epi16(1));
    let pairs = _mm_add_epi32(pairs, _mm_srli_si128(pairs, 8));
    _mm_cvtsi128_si32(_mm_add_epi32(pairs, _mm_srli_si128(pairs, 4))) as usize
}

// The due times, less now, of the packets released by `start`, less now, as bits.
#[inline(always)]
unsafe fn due_times(c: &Columns, count: usize, start: i16) -> [u64; 8] {
    let mut times = [0; 8];
    let mut i = 0;
    while i < count {
        let late = _mm_cmpgt_epi16(_mm_load_si128(c.releases.as_ptr().add(i).cast()), _mm_set1_epi16(start));
        let mut left = !_mm_movemask_epi8(_mm_packs_epi16(late, late)) & 0xff;
        while left != 0 {
            let due = get(&c.dues, i + left.trailing_zeros() as usize) as usize;
            left &= left - 1;
            *times.get_unchecked_mut(due / 64) |= 1 << (due % 64);
        }
        i += 8;
    }
    times
}

// The head of the bucket of a due time less now; `base` is now modulo 480, and no due time is 480 or more.
#[inline(always)]
fn head_of(base: usize, due: usize) -> usize {
    let past = base + due;
    64 + if past >= BUCKETS { past - BUCKETS } else { past }
}

// Release and id of an entry in one number, in the order of a bucket.
fn rank(release: u32, id: u16) -> u64 {
    u64::from(release) << 16 | u64::from(id)
}

// The place of an id further on in a list than place x, and the place before it, which must hold an entry that comes before.
#[inline(always)]
fn further(p: &Planner, mut x: usize, id: u16, steps: &mut u32) -> Option<(usize, usize)> {
    loop {
        let at = x;
        x = get(&p.queue.next, at) as usize;
        if x >= 64 || *steps == 0 {
            return None;
        }
        *steps -= 1;
        if get(&p.queue.ids, x) == id {
            let before = get(&p.queue.ids, at);
            let in_order = before > 0 && rank(get(&p.queue.releases, at), before) < rank(get(&p.queue.releases, x), id);
            return in_order.then_some((at, x));
        }
    }
}

// Whether the queue's lists hold just the streams, in order, with all links right; `rows` gets the row of each place.
// No two entries follow the same node: where as many lists end as begin, each entry is followed by another of its list or by its head.
#[inline(never)]
fn is_filed(p: &Planner, c: &Columns, rows: &mut [u8; 64]) -> bool {
    let now = p.last + 1;
    let base = now as usize % BUCKETS;
    // a sound queue needs no more in all, even with 64 streams due together; lists of any links may have no end
    let mut steps = 64 * 63 / 2;
    let (mut begun, mut ended) = (0, 0);
    for row in 0..p.table.count {
        let due = get(&c.dues, row) as usize;
        let head = head_of(base, due);
        let id = get(&c.ids, row);
        let (mut at, mut x) = (head, get(&p.queue.next, head) as usize);
        if x >= 64 {
            return false;
        }
        if get(&p.queue.ids, x) == id {
            begun += 1;
        } else {
            let Some(found) = further(p, x, id, &mut steps) else { return false };
            (at, x) = found;
        }
        let stream = unsafe { p.table.streams.get_unchecked(row) };
        if get(&p.queue.keys, x) != now + due as u32 || get(&p.queue.releases, x) != stream.release || get(&p.queue.prev, x) as usize != at {
            return false;
        }
        ended += usize::from((get(&p.queue.next, x) as usize == head) & (get(&p.queue.prev, head) as usize == x));
        set(rows, x, row as u8);
    }
    ended == begun && unsafe { places_filled(p) == p.table.count && heads_alone(p) == BUCKETS - begun }
}

// The sum over the streams of how often a period fits into t.
#[inline(always)]
unsafe fn periods_in(t: u32, count: usize, c: &Columns) -> u32 {
    let t = _mm_set1_ps(t as f32);
    let mut sum = _mm_setzero_si128();
    let mut i = 0;
    while i < count {
        let p = c.periods.as_ptr().add(i);
        let (a, b) = (_mm_div_ps(t, _mm_load_ps(p)), _mm_div_ps(t, _mm_load_ps(p.add(4))));
        sum = _mm_add_epi32(sum, _mm_add_epi32(_mm_cvttps_epi32(a), _mm_cvttps_epi32(b)));
        i += 8;
    }
    sum = _mm_add_epi32(sum, _mm_srli_si128(sum, 8));
    _mm_cvtsi128_si32(_mm_add_epi32(sum, _mm_srli_si128(sum, 4))) as u32
}

// The busy length: the least t by which all that is released before it, from a common start, can be sent. There is none if more falls into
// a superframe than can be sent in it, which is asked once a few steps have not been enough.
#[inline(always)]
unsafe fn busy_length(count: usize, slots: u32, frame: u32, c: &Columns) -> Option<usize> {
    if count == 0 {
        return Some(1);
    }
    let mut t = (count as u32).div_ceil(slots);
    let mut steps = 0;
    while t <= frame {
        let released = count as u32 + periods_in(t - 1, count, c);
        if released <= slots * t {
            return Some(t as usize);
        }
        t = released.div_ceil(slots);
        steps += 1;
        if steps == 4 && periods_in(frame, count, c) > slots * frame {
            return None;
        }
    }
    None
}

type Counts = [MaybeUninit<u8>; 5120];

// How many due times fall at each of the first `lengths` lengths from `base` on. A vector of eight first ones that are all later is passed.
#[inline(always)]
unsafe fn count_times(p: &[Stream; 64], times: &[i16; 64], count: usize, base: usize, lengths: usize, counts: &mut Counts) {
    counts.as_mut_ptr().write_bytes(0, lengths);
    let at = counts.as_mut_ptr().cast::<u8>();
    let end = base + lengths;
    let ends = _mm_set1_epi16(end as i16);
    let mut i = 0;
    while i < count {
        let v = _mm_load_si128(times.as_ptr().add(i).cast());
        let within = _mm_cmpgt_epi16(ends, v);
        let mut left = _mm_movemask_epi8(_mm_packs_epi16(within, within)) & 0xff;
        while left != 0 {
            let row = i + left.trailing_zeros() as usize;
            left &= left - 1;
            let period = get(p, row).period as usize;
            let mut t = get(times, row) as usize - base;
            while t < lengths {
                *at.add(t) += 1;
                t += period;
            }
        }
        i += 8;
    }
}

// The lazy start less now, if the demand rule and the start rule hold. The cap is G after now.
#[inline(always)]
fn lazy_start(streams: &[Stream; 64], count: usize, slots: u32, frame: u32, gap: u32, c: &Columns, first: usize) -> Option<u32> {
    let busy = unsafe { busy_length(count, slots, frame, c) }?;
    if count == 0 {
        return Some(gap);
    }
    let mut counts: Counts = [MaybeUninit::uninit(); 5120];
    unsafe { count_times(streams, &c.deadlines, count, 1, busy, &mut counts) };
    let at = counts.as_ptr().cast::<u8>();
    let (mut sum, mut room) = (0, 0);
    for t in 0..busy {
        sum += u32::from(unsafe { *at.add(t) });
        room += slots;
        if sum > room {
            return None;
        }
    }
    unsafe { count_times(streams, &c.dues, count, first, busy, &mut counts) };
    let (mut sum, mut room, mut needed, mut start) = (0, 0, 0, gap as i32);
    for t in 0..busy {
        let n = u32::from(unsafe { *at.add(t) });
        if n > 0 {
            sum += n;
            while room < sum {
                room += slots;
                needed += 1;
            }
            start = start.min((first + t) as i32 - needed);
        }
    }
    if start < 0 {
        return None;
    }
    Some(start as u32)
}

// B, less 1 with messages on.
#[inline(always)]
fn slots_for_streams(p: &Planner) -> u32 {
    p.slots - p.messages
}

// Whether the first `count` places, at most 32, all have a message: a number with the sign bit of 16 bits.
#[inline(always)]
unsafe fn are_messages(p: &Planner) -> bool {
    let at = p.waiting.numbers.as_ptr().cast::<__m128i>();
    let signs = |k| _mm_movemask_epi8(_mm_packs_epi16(_mm_loadu_si128(at.add(k)), _mm_loadu_si128(at.add(k + 1)))) as u64;
    let missing = !(signs(0) | signs(2) << 16);
    missing & ((1u64 << p.waiting.count) - 1) == 0
}

// The flag and what waits.
#[inline(always)]
fn messages_in_range(p: &Planner) -> bool {
    p.messages <= 1 && p.slots > p.messages && p.waiting.count <= 32 * p.messages && unsafe { are_messages(p) }
}

// Numbers, count, messages and table: the first due time less now if they are in range.
#[inline(always)]
fn in_range(p: &Planner, c: &mut Columns) -> Option<usize> {
    let ranges = p.slots <= 64 && p.frame.wrapping_sub(1) < 5040 && p.gap.wrapping_sub(1) < 255 && p.last <= 1_000_000_000;
    if !ranges || !messages_in_range(p) || p.table.count > 64 {
        return None;
    }
    unsafe { columns(p, c) }
}

fn link_before(p: &mut Planner, x: usize, n: usize) {
    let before = get(&p.queue.prev, n);
    set(&mut p.queue.next, before as usize, x as u16);
    set(&mut p.queue.next, x, n as u16);
    set(&mut p.queue.prev, n, x as u16);
    set(&mut p.queue.prev, x, before);
}

fn unlink(p: &mut Planner, x: usize) {
    let (before, after) = (get(&p.queue.prev, x), get(&p.queue.next, x));
    set(&mut p.queue.next, before as usize, after);
    set(&mut p.queue.prev, after as usize, before);
}

// The node before which an entry belongs in the list of a head.
fn position(p: &Planner, head: usize, release: u32, id: u16) -> usize {
    let own = rank(release, id);
    let mut n = get(&p.queue.next, head) as usize;
    while n < 64 && rank(get(&p.queue.releases, n), get(&p.queue.ids, n)) < own {
        n = get(&p.queue.next, n) as usize;
    }
    n
}

// The packet at place x goes, and its stream's next one is filed there.
#[inline(always)]
fn serve(p: &mut Planner, row: usize, x: usize) {
    let stream = unsafe { p.table.streams.get_unchecked_mut(row) };
    stream.release += stream.period;
    let (release, key) = (stream.release, stream.release + stream.deadline);
    set(&mut p.queue.keys, x, key);
    set(&mut p.queue.releases, x, release);
    unlink(p, x);
    let n = position(p, 64 + key as usize % BUCKETS, release, get(&p.queue.ids, x));
    link_before(p, x, n);
}

// Serves what is released by `start`, by due time and in each list's order, as many as there are slots at most; how many. A packet filed
// anew is released no earlier than the one served was due, so after the start.
#[inline(always)]
fn serve_all(p: &mut Planner, rows: &[u8; 64], times: [u64; 8], start: u32, buffer: &mut [u16]) -> usize {
    let base = (p.last + 1) as usize % BUCKETS;
    let slots = slots_for_streams(p) as usize;
    let mut n = 0;
    for (word, times) in times.into_iter().enumerate() {
        let mut left = times;
        while left != 0 {
            let due = 64 * word + left.trailing_zeros() as usize;
            left &= left - 1;
            let mut x = get(&p.queue.next, head_of(base, due)) as usize;
            while x < 64 {
                let on = get(&p.queue.next, x) as usize;
                if get(&p.queue.releases, x) <= start {
                    set(buffer, n, get(&p.queue.ids, x));
                    serve(p, get(rows, x) as usize, x);
                    n += 1;
                    if n == slots {
                        return n;
                    }
                }
                x = on;
            }
        }
    }
    n
}

// The messages that fit behind n ids leave for the buffer; how many. The rest moves to the front, with zeros behind it.
#[inline(always)]
fn list(p: &mut Planner, n: usize, buffer: &mut [u16]) -> usize {
    let waiting = p.waiting.count as usize;
    let listed = waiting.min(p.slots as usize - n);
    let rest = waiting - listed;
    let mut left = [0; 32];
    if waiting > 0 {
        let from = p.waiting.numbers.as_ptr();
        unsafe {
            from.copy_to_nonoverlapping(buffer.as_mut_ptr().add(n), listed);
            from.add(listed).copy_to_nonoverlapping(left.as_mut_ptr(), rest);
        }
    }
    p.waiting = Waiting { count: rest as u32, numbers: left };
    listed
}

#[allow(invalid_value)]
#[allow(clippy::uninit_assumed_init)]
fn scratch<T>() -> T {
    unsafe { MaybeUninit::uninit().assume_init() }
}

#[derive(Clone)]
pub struct Limit(pub Planner);

impl Limit {
    pub fn hold(&mut self, buffer: &mut [u16]) -> Held {
        let refused = |answer| Held { answer, start: 0, n: 0 };
        let p = &mut self.0;
        let mut c: Columns = scratch();
        let Some(first) = in_range(p, &mut c) else { return refused(5) };
        let Some(start) = lazy_start(&p.table.streams, p.table.count, slots_for_streams(p), p.frame, p.gap, &c, first) else { return refused(5) };
        let mut rows: [u8; 64] = scratch();
        if !is_filed(p, &c, &mut rows) {
            return refused(5);
        }
        if buffer.len() < p.slots as usize {
            return refused(16);
        }
        if p.last + 1 + start > 1_000_000_000 {
            return refused(17);
        }
        let times = unsafe { due_times(&c, p.table.count, start as i16) };
        let start = p.last + 1 + start;
        let ids = serve_all(p, &rows, times, start, buffer);
        let n = ids + list(p, ids, buffer);
        p.last = start;
        Held { answer: 0, start, n: n as u32 }
    }

    // 6 to 11.
    fn offer_refusal(&self, o: Offer) -> u32 {
        let p = &self.0;
        if o.id.wrapping_sub(1) >= 32767 {
            6
        } else if p.table.streams[..p.table.count].iter().any(|s| s.id == o.id) {
            7
        } else if p.table.count == 64 {
            8
        } else if o.period.wrapping_sub(1) >= 240 || p.frame % o.period != 0 {
            9
        } else if o.deadline.wrapping_sub(1) >= o.period {
            10
        } else if o.start <= p.last || o.start > p.last + 240 {
            11
        } else {
            0
        }
    }

    // The stream in its row, the later ones one up; in the queue the first free place.
    fn take_in(&mut self, o: Offer) {
        let p = &mut self.0;
        let mut row = p.table.count;
        while row > 0 && get(&p.table.streams, row - 1).id > o.id {
            let moved = get(&p.table.streams, row - 1);
            set(&mut p.table.streams, row, moved);
            row -= 1;
        }
        set(&mut p.table.streams, row, Stream { id: o.id, period: o.period, deadline: o.deadline, release: o.start });
        p.table.count += 1;
        let mut x = 0;
        while get(&p.queue.ids, x) != 0 {
            x += 1;
        }
        let due = o.start + o.deadline;
        let n = position(p, 64 + due as usize % BUCKETS, o.start, o.id as u16);
        set(&mut p.queue.ids, x, o.id as u16);
        set(&mut p.queue.keys, x, due);
        set(&mut p.queue.releases, x, o.start);
        link_before(p, x, n);
    }
}

impl Host for Limit {
    fn round(&mut self) -> u32 {
        let mut buffer = [0u16; 64];
        let held = self.hold(&mut buffer);
        assert_eq!(held.answer, 0);
        mixed(held.start, &buffer[..held.n as usize])
    }

    fn add(&mut self, o: Offer) -> u32 {
        let p = &self.0;
        let mut c: Columns = scratch();
        let Some(first) = in_range(p, &mut c) else { return 5 };
        if !is_filed(p, &c, &mut scratch()) {
            return 5;
        }
        let rules = |streams: &[Stream; 64], count, c: &Columns, first| lazy_start(streams, count, slots_for_streams(p), p.frame, p.gap, c, first).is_some();
        let refusal = self.offer_refusal(o);
        if refusal != 0 {
            return if rules(&p.table.streams, p.table.count, &c, first) { refusal } else { 5 };
        }
        // the rules do not ask for an order of rows: the offer stands in the next one
        let with = p.table.count;
        let mut streams: [Stream; 64] = p.table.streams;
        streams[with] = Stream { id: o.id, period: o.period, deadline: o.deadline, release: o.start };
        if with % 8 == 0 {
            for k in with..with + 8 {
                (c.periods[k], c.deadlines[k], c.dues[k]) = (f32::INFINITY, FAR, FAR);
            }
        }
        let due = (o.start + o.deadline - p.last - 1) as i16;
        (c.periods[with], c.deadlines[with], c.dues[with]) = (o.period as f32, o.deadline as i16, due);
        if rules(&streams, with + 1, &c, first.min(due as usize)) {
            self.take_in(o);
            return 0;
        }
        (c.periods[with], c.deadlines[with], c.dues[with]) = (f32::INFINITY, FAR, FAR);
        if !rules(&p.table.streams, with, &c, first) {
            return 5;
        }
        c.periods[with] = o.period as f32;
        c.deadlines[with] = o.deadline as i16;
        if self.keeps_demand_rule(&streams, with + 1, &c) {
            13
        } else {
            12
        }
    }

    fn remove(&mut self, id: u32) -> u32 {
        let p = &self.0;
        if !self.is_sound() {
            return 5;
        }
        let Some(row) = p.table.streams[..p.table.count].iter().position(|s| s.id == id) else { return 14 };
        let p = &mut self.0;
        p.table.streams.copy_within(row + 1..p.table.count, row);
        p.table.count -= 1;
        p.table.streams[p.table.count] = Stream { id: 0, period: 0, deadline: 0, release: 0 };
        let mut x = 0;
        while u32::from(get(&p.queue.ids, x)) != id {
            x += 1;
        }
        unlink(p, x);
        (p.queue.ids[x], p.queue.keys[x], p.queue.releases[x], p.queue.next[x], p.queue.prev[x]) = (0, 0, 0, 0, 0);
        0
    }

    fn send(&mut self, number: u32) -> u32 {
        if !self.is_sound() {
            return 5;
        }
        let p = &mut self.0;
        if number.wrapping_sub(32_768) >= 32_768 || p.messages == 0 {
            return 29;
        }
        if p.waiting.count == 32 {
            return 30;
        }
        set(&mut p.waiting.numbers, p.waiting.count as usize, number as u16);
        p.waiting.count += 1;
        0
    }

    fn fill_waiting(&mut self) {
        self.0.fill_waiting();
    }
}

impl Limit {
    #[inline(always)]
    fn is_sound(&self) -> bool {
        let p = &self.0;
        let mut c: Columns = scratch();
        let Some(first) = in_range(p, &mut c) else { return false };
        is_filed(p, &c, &mut scratch()) && lazy_start(&p.table.streams, p.table.count, slots_for_streams(p), p.frame, p.gap, &c, first).is_some()
    }

    fn keeps_demand_rule(&self, streams: &[Stream; 64], count: usize, c: &Columns) -> bool {
        let slots = slots_for_streams(&self.0);
        let Some(busy) = (unsafe { busy_length(count, slots, self.0.frame, c) }) else { return false };
        let mut counts: Counts = [MaybeUninit::uninit(); 5120];
        unsafe { count_times(streams, &c.deadlines, count, 1, busy, &mut counts) };
        let mut sum = 0;
        (0..busy).all(|t| {
            sum += u32::from(unsafe { counts[t].assume_init() });
            sum <= slots * (t as u32 + 1)
        })
    }
}
