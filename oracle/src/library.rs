//! The library's answers, through its C interface (bindings/c/yuthpram.h).

use std::ops::Range;

use crate::answer::{Answer, Case, MOST, Op};

unsafe extern "C" {
    fn yuthpram_number_size(value: u64, count: *mut usize) -> u8;
    fn yuthpram_number_read(src: *const u8, src_len: usize, value: *mut u64, count: *mut usize, saved: *mut usize) -> u8;
    fn yuthpram_number_write(value: u64, out: *mut u8, out_len: usize, count: *mut usize) -> u8;
    fn yuthpram_cid_read(src: *const u8, src_len: usize, cid: *mut u8, cid_len: usize, count: *mut usize) -> u8;
    fn yuthpram_cid_write(cid: *const u8, cid_len: usize, out: *mut u8, out_len: usize, count: *mut usize) -> u8;
    fn yuthpram_default(record: *mut u8, record_len: usize) -> u8;
    fn yuthpram_check(record: *const u8, record_len: usize, side: u8) -> u8;
    fn yuthpram_read(side: u8, src: *const u8, src_len: usize, record: *mut u8, record_len: usize) -> u8;
    fn yuthpram_check_order(order: *const u8, order_len: usize) -> u8;
    fn yuthpram_order_fault(order: *const u8, order_len: usize, position: *mut usize) -> u8;
    fn yuthpram_write(record: *const u8, record_len: usize, out: *mut u8, out_len: usize, count: *mut usize) -> u8;
    fn yuthpram_length(record: *const u8, record_len: usize, count: *mut usize) -> u8;
    fn yuthpram_tidy(side: u8, src: *const u8, src_len: usize, out: *mut u8, out_len: usize, count: *mut usize) -> u8;
    fn yuthpram_new(
        settings: *const u64,
        settings_len: usize,
        cid: *const u8,
        cid_len: usize,
        draw: u64,
        payload: *const u8,
        payload_len: usize,
        order: *const u8,
        order_len: usize,
        record: *mut u8,
        record_len: usize,
    ) -> u8;
    fn yuthpram_validate_resumption_from(record: *const u8, record_len: usize, cached: *const u8, cached_len: usize) -> u8;
    fn yuthpram_issue_cids_limit(record: *const u8, record_len: usize, limit: *mut u64) -> u8;
    fn yuthpram_authenticate_cids(
        side: u8,
        record: *const u8,
        record_len: usize,
        initial_src_cid: *const u8,
        initial_src_cid_len: usize,
        original_dst_cid: *const u8,
        original_dst_cid_len: usize,
        retry_seen: u8,
        retry_src_cid: *const u8,
        retry_src_cid_len: usize,
    ) -> u8;
    // the five of the struct, in its order
    fn yuthpram_report(side: u8, src: *const u8, src_len: usize, counts: *mut [usize; 5]) -> u8;
}

/// How many bytes the shortest form of a number has.
unsafe fn number_size(value: u64, count: *mut usize) -> u8 {
    unsafe { yuthpram_number_size(value, count) }
}

/// The bytes before and behind the longest output, which are lent to no call.
const MARGIN: usize = 64;
const ALL: usize = MARGIN + MOST + MARGIN;

/// What stands in every byte, and in every number, before a call: bytes that differ from their neighbours.
const FILL: [u8; ALL] = fill();
const UNTOUCHED: u64 = 0xa7a7_a7a7_a7a7_a7a7;

const fn fill() -> [u8; ALL] {
    let mut bytes = [0xa7; ALL];
    let mut i = 0;
    while i < ALL {
        bytes[i] ^= (i % 251) as u8;
        i += 1;
    }
    bytes
}

/// Where a value, a count, the bytes saved and the five counts of a report stand among the numbers: others are before, between and behind them.
const VALUE: usize = 1;
const COUNT: usize = 3;
const SAVED: usize = 5;
const COUNTS: Range<usize> = 7..12;
const NUMBERS: usize = 13;
const OTHERS: [usize; 5] = [0, 2, 4, 6, 12];

/// The answer, and every byte around as the call left it.
pub struct Called {
    pub code: u8,
    pub number: u64,
    bytes: [u8; ALL],
}

/// What a refusal looks like.
pub fn refused(code: u8) -> Called {
    Called { code, number: 0, bytes: FILL }
}

impl Called {
    /// Whether the call gave this answer and left every other byte alone: of the output, before it and behind it.
    pub fn is(&self, a: &Answer) -> bool {
        let end = MARGIN + a.len;
        self.code == a.code
            && self.number == a.number
            && self.bytes[..MARGIN] == FILL[..MARGIN]
            && &self.bytes[MARGIN..end] == a.due()
            && self.bytes[end..] == FILL[end..]
    }

    /// The longest output.
    pub fn output(&self) -> &[u8] {
        &self.bytes[MARGIN..MARGIN + MOST]
    }

    /// The `k`th number of eight bytes in the output.
    pub fn eight(&mut self, k: usize) -> &mut [u8; 8] {
        let at = MARGIN + 8 * k;
        (&mut self.bytes[at..at + 8]).try_into().unwrap()
    }

    /// Flips a bit of the byte at a place that counts from the output's start.
    pub fn flip(&mut self, at: isize) {
        self.bytes[MARGIN.wrapping_add_signed(at)] ^= 1;
    }

    /// The places, counted from the output's start, of the bytes that have changed but lie outside of it.
    pub fn outside(&self, room: usize) -> Vec<isize> {
        let inside = MARGIN..MARGIN + room;
        let changed = (0..ALL).filter(|at| !inside.contains(at) && self.bytes[*at] != FILL[*at]);
        changed.map(|at| at as isize - MARGIN as isize).collect()
    }
}

/// The number of an answer; one that no answer has if a number changed that shouldn't. A refused call gives none; of order_fault 0 gives none, and 6
/// comes with the position.
fn number(op: Op, code: u8, numbers: [u64; NUMBERS]) -> u64 {
    let is_given = (code == 0) != (op == Op::OrderFault);
    let mut changed = (0..NUMBERS).filter(|at| numbers[*at] != UNTOUCHED);
    if changed.any(|at| !is_given || OTHERS.contains(&at)) {
        return u64::MAX;
    }
    match op {
        _ if !is_given => 0,
        Op::Issue => numbers[VALUE],
        Op::Default | Op::Read | Op::New | Op::Resume | Op::Check | Op::CheckOrder | Op::Authenticate | Op::Report => 0,
        _ => numbers[COUNT],
    }
}

/// Tidies what tidying gave.
fn tidy_twice(c: &Case) -> Called {
    let once = call(&Case { op: Op::Tidy, room: MOST, ..*c });
    if once.code != 0 || once.number as usize > MOST {
        return once;
    }
    let x = &once.output()[..once.number as usize];
    call(&Case { op: Op::Tidy, x, ..*c })
}

pub fn call(c: &Case) -> Called {
    if c.op == Op::TidyTwice {
        return tidy_twice(c);
    }
    if let Some(other) = c.other_order() {
        return call(&other);
    }
    let (mut bytes, mut numbers) = (FILL, [UNTOUCHED; NUMBERS]);
    let settings: Vec<u64> = if c.op == Op::New { eights(c.x) } else { Vec::new() };
    let side = c.number as u8;
    let (x, n, y, z, w) = (c.x.as_ptr(), c.x.len(), c.y, c.z, c.w);
    let (room, given) = (c.room, numbers.as_mut_ptr());
    assert!(room <= MOST);
    // Safety: each pointer and length is that of a part of a slice that outlives the call, and the output overlaps no input.
    let code = unsafe {
        let (out, value, count) = (bytes.as_mut_ptr().add(MARGIN), given.add(VALUE), given.add(COUNT).cast());
        match c.op {
            Op::NumberSize => number_size(c.number, count),
            Op::NumberRead => yuthpram_number_read(x, n, value, count, given.add(SAVED).cast()),
            Op::NumberWrite => yuthpram_number_write(c.number, out, room, count),
            Op::CidRead => yuthpram_cid_read(x, n, out, room, count),
            Op::CidWrite => yuthpram_cid_write(x, n, out, room, count),
            Op::Default => yuthpram_default(out, room),
            Op::Read => yuthpram_read(side, x, n, out, room),
            Op::Write => yuthpram_write(x, n, out, room, count),
            Op::New => yuthpram_new(
                settings.as_ptr(),
                settings.len(),
                y.as_ptr(),
                y.len(),
                c.number,
                z.as_ptr(),
                z.len(),
                w.as_ptr(),
                w.len(),
                out,
                room,
            ),
            Op::Resume => yuthpram_validate_resumption_from(x, n, y.as_ptr(), y.len()),
            Op::Issue => yuthpram_issue_cids_limit(x, n, value),
            Op::Check => yuthpram_check(x, n, side),
            Op::Tidy | Op::TidyTwice => yuthpram_tidy(side, x, n, out, room, count),
            Op::CheckOrder => yuthpram_check_order(x, n),
            Op::Length => yuthpram_length(x, n, count),
            Op::OrderFault => yuthpram_order_fault(x, n, count),
            Op::Authenticate => {
                let retry_seen = (c.number >> 8) as u8;
                yuthpram_authenticate_cids(side, x, n, y.as_ptr(), y.len(), z.as_ptr(), z.len(), retry_seen, w.as_ptr(), w.len())
            }
            Op::Report => yuthpram_report(side, x, n, given.add(COUNTS.start).cast()),
            Op::Rearranged | Op::TidyRearranged => unreachable!("the other order was called for"),
        }
    };
    let mut called = Called { code, number: number(c.op, code, numbers), bytes };
    // What number_read and report store, but for the count, goes where bytes go.
    let stored = match c.op {
        _ if code != 0 => &[][..],
        Op::NumberRead => &[numbers[VALUE], numbers[SAVED]],
        Op::Report => &numbers[COUNTS],
        _ => &[],
    };
    for (k, x) in stored.iter().enumerate() {
        *called.eight(k) = x.to_be_bytes();
    }
    called
}

/// Numbers of eight bytes each.
fn eights(b: &[u8]) -> Vec<u64> {
    b.chunks(8).map(|b| u64::from_be_bytes(b.try_into().unwrap())).collect()
}
