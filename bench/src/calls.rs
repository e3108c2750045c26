//! The operations, of each library.

use crate::{
    Side,
    image::{self, Record},
    samples::Sample,
    transport_parameters::TransportParameters,
};
use std::{
    ffi::{CStr, c_char},
    hint::black_box,
};

#[derive(Clone, Copy, PartialEq, Eq, Debug)]
pub enum Op {
    Read,
    /// reading, each time with the parameters in another order
    ReadOrders,
    Write,
    /// writing in an order of the record's own
    Ordered,
    /// the same, each time in another order
    WriteOrders,
    Tidy,
    /// no row: writing in an order as Yuthpram's in many is called, with the record made from its image each time
    Singly,
}

#[derive(Clone, Copy, PartialEq, Eq, Debug)]
pub enum Who {
    /// quinn's Rust
    Quinn,
    /// Yuthpram's functions as another crate of Rattle calls them
    Rattle,
    /// Yuthpram through its C interface, with the record's image
    Interface,
    /// Yuthpram through its Rust crate, with the crate's record
    Rust,
    /// ngtcp2's C
    Ngtcp2,
}

impl Op {
    pub fn name(self) -> &'static str {
        match self {
            Op::Read => "read",
            Op::ReadOrders => "read, 512 orders",
            Op::Write => "write",
            Op::Ordered => "write in an order",
            Op::WriteOrders => "write in 512 orders",
            Op::Tidy => "tidy",
            Op::Singly => "write singly",
        }
    }

    /// Whether it takes another order each time.
    pub fn many(self) -> bool {
        matches!(self, Op::ReadOrders | Op::WriteOrders)
    }

    /// Whether it takes a record, and not bytes.
    fn writes(self) -> bool {
        !matches!(self, Op::Read | Op::ReadOrders | Op::Tidy)
    }
}

impl Who {
    pub fn name(self) -> &'static str {
        match self {
            Who::Quinn => "quinn",
            Who::Rattle => "Yuthpram",
            Who::Interface => "through C",
            Who::Rust => "through Rust",
            Who::Ngtcp2 => "ngtcp2",
        }
    }
}

pub const OPS: [Op; 6] = [Op::Read, Op::ReadOrders, Op::Write, Op::Ordered, Op::WriteOrders, Op::Tidy];
pub const ALL: [Who; 5] = [Who::Quinn, Who::Rattle, Who::Interface, Who::Rust, Who::Ngtcp2];
/// Those that store the same bytes, but for version information, which quinn does not have.
pub const ALIKE: [Who; 4] = [Who::Quinn, Who::Rattle, Who::Interface, Who::Rust];

unsafe extern "C" {
    fn timing_read(src: *const u8, src_len: usize, times: usize) -> u8;
    fn timing_write(record: *const u8, record_len: usize, times: usize, out: *mut u8, out_len: usize) -> usize;
    fn timing_tidy(src: *const u8, src_len: usize, out: *mut u8, out_len: usize) -> usize;
    fn yuthpram_read(side: u8, src: *const u8, src_len: usize, record: *mut u8, record_len: usize) -> u8;
    fn yuthpram_write(record: *const u8, record_len: usize, out: *mut u8, out_len: usize, count: *mut usize) -> u8;
    fn yuthpram_tidy(side: u8, src: *const u8, src_len: usize, out: *mut u8, out_len: usize, count: *mut usize) -> u8;
    fn peer_read(src: *const u8, src_len: usize) -> i32;
    fn peer_write(out: *mut u8, out_len: usize) -> isize;
    fn peer_version() -> *const c_char;
}

pub const ROOM: usize = 512;

pub type Output = [u8; ROOM];

// Neither is inlined, so that each function of quinn's has one caller and becomes a part of it: with more the compiler makes slower code.

#[inline(never)]
pub fn quinn_read(src: &[u8]) -> TransportParameters {
    TransportParameters::read(Side::Client, &mut &src[..]).expect("quinn reads it")
}

#[inline(never)]
fn quinn_write(p: &TransportParameters, out: &mut Output) -> usize {
    let mut rest = &mut out[..];
    p.write(&mut rest);
    ROOM - rest.len()
}

#[inline(never)]
fn crate_read(src: &[u8]) -> yuthpram::TransportParameters {
    yuthpram::TransportParameters::read(yuthpram::Side::Client, src).expect("the crate reads it")
}

#[inline(never)]
fn crate_write(p: &yuthpram::TransportParameters, out: &mut Output) -> usize {
    p.write(out).expect("the crate writes it")
}

/// So many of the things, from the front again when they are at an end; their number is a power of two.
fn turns<T>(all: &[T], times: usize) -> impl Iterator<Item = &T> {
    (0..times).map(|i| black_box(&all[i & (all.len() - 1)]))
}

fn quinn(op: Op, s: &Sample, times: usize, out: &mut Output) -> usize {
    let mut count = 0;
    match op {
        Op::Read | Op::ReadOrders => turns(s.read_by(op), times).for_each(|src| _ = black_box(&quinn_read(src))),
        Op::Tidy => turns(s.read_by(op), times).for_each(|src| count = quinn_write(&quinn_read(src), black_box(out))),
        _ => turns(s.quinn.of(op), times).for_each(|p| count = quinn_write(p, black_box(out))),
    }
    count
}

fn rust(op: Op, s: &Sample, times: usize, out: &mut Output) -> usize {
    let tidy = |src: &[u8], out: &mut Output| yuthpram::tidy(yuthpram::Side::Client, src, out).expect("the crate tidies it");
    let mut count = 0;
    match op {
        Op::Read | Op::ReadOrders => turns(s.read_by(op), times).for_each(|src| _ = black_box(&crate_read(src))),
        Op::Tidy => turns(s.read_by(op), times).for_each(|src| count = tidy(src, black_box(out))),
        _ => turns(s.rust.of(op), times).for_each(|p| count = crate_write(p, black_box(out))),
    }
    count
}

// Safety of the calls below: each pointer and length is that of a slice that outlives the call, and the output overlaps no input.

/// One input is read or written in a loop of Rattle's. With another each time the loop is here, and a record to write is made from its image
/// in each call: see `correction`.
fn rattle(op: Op, s: &Sample, times: usize, out: &mut Output) -> usize {
    let y = out.as_mut_ptr();
    let mut count = 0;
    let read = |src: &[u8], times| unsafe { timing_read(src.as_ptr(), src.len(), times) };
    let write = |image: &[u8], times, y| unsafe { timing_write(image.as_ptr(), image.len(), times, y, ROOM) };
    match op {
        Op::Read => _ = black_box(read(&s.bytes, times)),
        Op::ReadOrders => turns(s.read_by(op), times).for_each(|src| _ = black_box(read(src, 1))),
        Op::Write | Op::Ordered => count = write(&s.images.of(op)[0], times, y),
        Op::WriteOrders | Op::Singly => turns(s.images.of(op), times).for_each(|image| count = write(image, 1, black_box(y))),
        Op::Tidy => {
            let tidy = |src: &Vec<u8>| unsafe { timing_tidy(src.as_ptr(), src.len(), black_box(y), ROOM) };
            turns(s.read_by(op), times).for_each(|src| count = tidy(src));
        }
    }
    count
}

fn interface(op: Op, s: &Sample, times: usize, out: &mut Output) -> usize {
    let (y, mut image) = (out.as_mut_ptr(), s.images.of(Op::Write)[0]);
    let (mut count, mut code) = (0, 0);
    let mut read = |src: &[u8]| unsafe { yuthpram_read(0, src.as_ptr(), src.len(), black_box(image.as_mut_ptr()), image::RECORD) };
    let mut tidy = |src: &[u8]| unsafe { yuthpram_tidy(0, src.as_ptr(), src.len(), black_box(y), ROOM, &mut count) };
    match op {
        Op::Read | Op::ReadOrders => turns(s.read_by(op), times).for_each(|src| code |= read(src)),
        Op::Tidy => turns(s.read_by(op), times).for_each(|src| code |= tidy(src)),
        _ => turns(s.images.of(op), times)
            .for_each(|record| code |= unsafe { yuthpram_write(record.as_ptr(), image::RECORD, black_box(y), ROOM, &mut count) }),
    }
    assert_eq!(code, 0);
    count
}

fn ngtcp2(op: Op, s: &Sample, times: usize, out: &mut Output) -> usize {
    let y = out.as_mut_ptr();
    let read = |src: &[u8]| unsafe { peer_read(src.as_ptr(), src.len()) };
    let mut code = if op.writes() { read(&s.bytes) } else { 0 };
    let mut count = 0;
    if op.writes() {
        (0..times).for_each(|_| count = unsafe { peer_write(black_box(y), ROOM) });
    } else {
        turns(s.read_by(op), times).for_each(|src| code |= read(src));
    }
    assert_eq!(code, 0, "ngtcp2 reads it");
    count as usize
}

/// Makes the calls, one after another; how many bytes the last one stored, if it writes.
pub fn call(who: Who, op: Op, s: &Sample, times: usize, out: &mut Output) -> usize {
    match who {
        Who::Quinn => quinn(op, s, times, out),
        Who::Rattle => rattle(op, s, times, out),
        Who::Interface => interface(op, s, times, out),
        Who::Rust => rust(op, s, times, out),
        Who::Ngtcp2 => ngtcp2(op, s, times, out),
    }
}

/// Whether the library reads these bytes, and Yuthpram as quinn does, and the version information besides.
pub fn accepts(who: Who, bytes: &[u8], s: &Sample) -> bool {
    let (x, n, mut image) = (bytes.as_ptr(), bytes.len(), s.images.of(Op::Write)[0]);
    match who {
        Who::Quinn => quinn_read(bytes) == quinn_read(&s.bytes),
        Who::Rattle => unsafe { timing_read(x, n, 1) == 0 },
        Who::Interface => {
            let code = unsafe { yuthpram_read(0, x, n, image.as_mut_ptr(), image::RECORD) };
            code == 0 && image == image::of_record(&Record::from(quinn_read(bytes)).with_versions(s.versions))
        }
        Who::Rust => crate_read(bytes) == crate_read(&s.bytes),
        Who::Ngtcp2 => unsafe { peer_read(x, n) == 0 },
    }
}

pub fn ngtcp2_version() -> &'static str {
    // Safety: the header's string, which ends in 0.
    unsafe { CStr::from_ptr(peer_version()) }.to_str().expect("a version")
}

/// ngtcp2 has neither orders nor tidying; of 64 KiB of unknown parameters there is nothing to write or to shuffle.
pub fn exists(who: Who, op: Op, s: &Sample) -> bool {
    let none = who == Who::Ngtcp2 && matches!(op, Op::Ordered | Op::WriteOrders | Op::Tidy);
    !none && (s.bytes.len() <= ROOM || matches!(op, Op::Read | Op::Tidy))
}

/// What has to be taken off an operation's time, and added to it. Yuthpram's writing in many orders begins with the image each time: what the
/// many orders cost over one is the difference of two times that do so, and it is added to that of writing in one.
pub fn correction(who: Who, op: Op) -> Option<(Op, Op)> {
    (who == Who::Rattle && op == Op::WriteOrders).then_some((Op::Singly, Op::Ordered))
}
