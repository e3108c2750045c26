//! Generated inputs: extensions, records, settings. All follow from a seed.

use crate::{
    VarInt,
    coding::BufExt,
    image::{self, PLACES, RECORD, Record, VERSIONS, Versions},
    shared::ConnectionId,
    transport_parameters::*,
    versions,
};
use std::net::{SocketAddrV4, SocketAddrV6};

pub const MAX: u64 = (1 << 62) - 1;

/// Numbers at the edges: of the forms, of the defaults, of each value rule, of the identifiers.
pub const EDGES: [u64; 44] = [
    0,
    1,
    2,
    3,
    4,
    5,
    7,
    8,
    9,
    19,
    20,
    21,
    24,
    25,
    26,
    62,
    63,
    64,
    65,
    999,
    1000,
    1001,
    1199,
    1200,
    1201,
    16382,
    16383,
    16384,
    16385,
    24999,
    25000,
    25001,
    65526,
    65527,
    65528,
    16_383_000,
    16_383_001,
    (1 << 30) - 1,
    1 << 30,
    (1 << 60) - 1,
    1 << 60,
    (1 << 60) + 1,
    MAX - 1,
    MAX,
];

/// The known identifiers: first those of plain numbers.
pub const KNOWN: [u64; 21] =
    [0x01, 0x03, 0x04, 0x05, 0x06, 0x07, 0x08, 0x09, 0x0a, 0x0b, 0x0e, 0x20, 0xff04de1b, 0x02, 0x0c, 0x0d, 0x00, 0x0f, 0x10, 0x2ab2, 0x11];

/// How many of the known ones hold a number.
pub const NUMBERS: usize = 13;

/// Identifiers that are unknown: reserved ones, and neighbours of known ones.
const UNKNOWN: [u64; 13] =
    [0x1b, 0x3a, 0x12, 0x1a, 0x1f, 0x21, 0x3f, 0x2ab1, 0x2ab3, 0xff04de1a, 0xff04de1c, 31 * 148_764_065_110_560_899 + 27, MAX];

/// A generator of random numbers (splitmix64).
pub struct Dice(pub u64);

impl Dice {
    pub fn next(&mut self) -> u64 {
        self.0 = self.0.wrapping_add(0x9e37_79b9_7f4a_7c15);
        let x = (self.0 ^ self.0 >> 30).wrapping_mul(0xbf58_476d_1ce4_e5b9);
        let x = (x ^ x >> 27).wrapping_mul(0x94d0_49bb_1331_11eb);
        x ^ x >> 31
    }

    /// Below `n`.
    pub fn below(&mut self, n: usize) -> usize {
        (self.next() % n as u64) as usize
    }

    /// True once in `n` times.
    pub fn one_in(&mut self, n: usize) -> bool {
        self.below(n) == 0
    }

    pub fn of<T: Clone>(&mut self, all: &[T]) -> T {
        all[self.below(all.len())].clone()
    }

    pub fn bytes<const N: usize>(&mut self) -> [u8; N] {
        std::array::from_fn(|_| self.next() as u8)
    }

    /// A number below 2^62: an edge, or one of any width.
    pub fn number(&mut self) -> u64 {
        if self.one_in(2) { self.of(&EDGES) } else { self.next() >> (2 + self.below(62)) }
    }

    pub fn shuffle<T>(&mut self, all: &mut [T]) {
        for i in (1..all.len()).rev() {
            all.swap(i, self.below(i + 1));
        }
    }

    pub fn permutation(&mut self) -> [u8; PLACES] {
        let mut order = image::CATALOGUE_ORDER;
        self.shuffle(&mut order);
        order
    }
}

/// A number in the form of 1 << `form` bytes, or the shortest longer one that holds it.
pub fn put_number(out: &mut Vec<u8>, x: u64, form: usize) {
    let least = [6, 14, 30, 62].iter().position(|bits| x >> bits == 0).unwrap();
    let form = form.max(least);
    let tagged = x | (form as u64) << ((8 << form) - 2);
    out.extend_from_slice(&tagged.to_be_bytes()[8 - (1 << form)..]);
}

/// The form of a number: mostly the shortest, else any.
fn form(d: &mut Dice) -> usize {
    if d.one_in(3) { d.below(4) } else { 0 }
}

pub fn put_parameter(d: &mut Dice, out: &mut Vec<u8>, id: u64, value: &[u8]) {
    put_number(out, id, form(d));
    put_number(out, value.len() as u64, form(d));
    out.extend_from_slice(value);
}

/// An extension of numbers in their shortest forms.
pub fn numbers_of(parameters: &[(u64, u64)]) -> Vec<u8> {
    let mut out = Vec::new();
    for (id, x) in parameters {
        let mut value = Vec::new();
        put_number(&mut value, *x, 0);
        put_number(&mut out, *id, 0);
        out.push(value.len() as u8);
        out.extend(value);
    }
    out
}

/// A number that the value rules allow for this identifier, more often than not.
fn likely_number(d: &mut Dice, id: u64) -> u64 {
    if d.one_in(16) {
        return d.number();
    }
    match id {
        0x03 => 1200 + (d.next() >> (3 + d.below(50))),
        0x08 | 0x09 => d.next() >> (4 + d.below(60)),
        0x0a => d.below(21) as u64,
        0x0b => d.below(1 << 14) as u64,
        0x0e => 2 + (d.next() >> (3 + d.below(61))),
        0xff04de1b => d.below(25_001) as u64,
        _ => d.number(),
    }
}

/// The bytes of a preferred address; now and then no family, no ID, too long an ID, or a length that is wrong.
fn address(d: &mut Dice) -> Vec<u8> {
    let mut v = Vec::new();
    let families = if d.one_in(12) { 0 } else { 1 + d.below(3) };
    v.extend(if families & 1 == 0 { [0; 6] } else { d.bytes() });
    v.extend(if families & 2 == 0 { [0; 18] } else { d.bytes() });
    if d.one_in(12) {
        // one byte that is not zero, or one that is the only one
        let at = d.below(24);
        v[..24].fill(0);
        v[at] = 1 << d.below(8);
    }
    let len = if d.one_in(12) { d.of(&[0, 21, 22, 255]) } else { 1 + d.below(20) };
    v.push(len as u8);
    v.extend((0..len.min(40)).map(|_| d.next() as u8));
    v.extend(d.bytes::<16>());
    match d.below(24) {
        0 => v.truncate(d.below(v.len())),
        1 => v.push(d.next() as u8),
        _ => {}
    }
    v
}

/// A version: one that is used, one with a single bit, or any.
fn version(d: &mut Dice) -> [u8; 4] {
    match d.below(3) {
        0 => d.of(&[1u32, 2, 0x6b33_43cf, 0x7090_9a0a, 0xff00_001d, 0x0a1a_2a3a, u32::MAX]).to_be_bytes(),
        1 => (1u32 << d.below(32)).to_be_bytes(),
        _ => d.bytes(),
    }
}

/// The value of version information; now and then of another length, with a version of 0, or with a chosen one that is not available.
fn version_information(d: &mut Dice) -> Vec<u8> {
    if d.one_in(12) {
        return (0..d.below(81)).map(|_| d.next() as u8).collect();
    }
    let mut all: Vec<[u8; 4]> = (0..d.below(17)).map(|_| version(d)).collect();
    let chosen = if all.is_empty() || d.one_in(12) { version(d) } else { d.of(&all) };
    all.insert(0, chosen);
    if d.one_in(12) {
        let at = d.below(all.len());
        all[at] = [0; 4];
    }
    all.concat()
}

/// Values of version information at the edges: of every length; of each number of available versions one with a 0 at each place, and one with the chosen
/// version at each place alone, or at none, where the others differ from it in one bit.
pub fn version_edges(d: &mut Dice) -> Vec<Vec<u8>> {
    let mut all: Vec<Vec<u8>> = (0..=80).map(|len| vec![7; len]).collect();
    for n in 0..=16 {
        for at in 0..=n {
            let mut with_zero = vec![version(d); 1 + n];
            with_zero[at] = [0; 4];
            let chosen: [u8; 4] = d.bytes();
            let mut with_chosen: Vec<[u8; 4]> = (0..=n).map(|_| (u32::from_be_bytes(chosen) ^ 1 << d.below(32)).to_be_bytes()).collect();
            with_chosen[0] = chosen;
            with_chosen[at] = chosen;
            all.extend([with_zero.concat(), with_chosen.concat()]);
        }
    }
    all
}

/// A value for an identifier: one that fits, more often than not.
pub fn value(d: &mut Dice, id: u64) -> Vec<u8> {
    let rough = d.one_in(40);
    let mut v = Vec::new();
    match id {
        0x00 | 0x0f | 0x10 => {
            let len = if rough { d.below(64) } else { d.below(21) };
            v.extend((0..len).map(|_| d.next() as u8));
        }
        0x02 => v.extend(&d.bytes::<24>()[..if rough { d.below(25) } else { 16 }]),
        0x0c | 0x2ab2 => v.extend(&d.bytes::<2>()[..if rough { d.below(3) } else { 0 }]),
        0x0d => v = address(d),
        versions::ID => v = version_information(d),
        _ if KNOWN.contains(&id) => {
            let x = likely_number(d, id);
            put_number(&mut v, x, form(d));
            match (rough, d.below(3)) {
                (false, _) => {}
                (_, 0) => v.truncate(d.below(v.len())),
                (_, 1) => v.push(d.next() as u8),
                _ => v.splice(0..0, d.bytes::<1>()).for_each(drop),
            }
        }
        _ => v.extend((0..d.below(24)).map(|_| d.next() as u8)),
    }
    v
}

pub fn unknown(d: &mut Dice) -> u64 {
    match d.below(3) {
        0 => d.of(&UNKNOWN),
        1 => 31 * (d.next() >> (7 + d.below(57))) + 27,
        _ => Some(d.number()).filter(|id| !KNOWN.contains(id)).unwrap_or(0x1b),
    }
}

/// An extension with these known parameters (bits of `mask`), in random order, unknown ones in between, now and then a second copy.
pub fn extension(d: &mut Dice, mask: u32) -> Vec<u8> {
    let mut ids: Vec<u64> = (0..KNOWN.len()).filter(|i| mask >> i & 1 == 1).map(|i| KNOWN[i]).collect();
    for _ in 0..d.below(3) {
        ids.push(unknown(d));
    }
    if d.one_in(16) && !ids.is_empty() {
        ids.push(d.of(&ids));
    }
    d.shuffle(&mut ids);
    let mut out = Vec::new();
    for id in ids {
        let v = value(d, id);
        put_parameter(d, &mut out, id, &v);
    }
    out
}

/// The extensions that real clients sent.
pub fn real() -> Vec<Vec<u8>> {
    let list = include_str!("../../tests/real/clients.txt");
    list.lines().filter_map(|l| l.strip_prefix("extension ")).map(unhex).collect()
}

pub fn unhex(text: &str) -> Vec<u8> {
    (0..text.len()).step_by(2).map(|i| u8::from_str_radix(&text[i..i + 2], 16).unwrap()).collect()
}

/// A whole parameter of an extension.
pub struct Parameter<'a> {
    /// as it stands
    pub bytes: &'a [u8],
    pub id: u64,
    pub value: &'a [u8],
}

impl Parameter<'_> {
    pub fn is_unknown(&self) -> bool {
        !KNOWN.contains(&self.id)
    }

    /// Its identifier or its length is not in the shortest form.
    pub fn is_long(&self) -> bool {
        let size = |x: u64| VarInt(x).size();
        self.bytes.len() - self.value.len() > size(self.id) + size(self.value.len() as u64)
    }
}

/// The whole parameters of an extension that is made of them.
pub fn parameters(mut x: &[u8]) -> Vec<Parameter<'_>> {
    let mut all = Vec::new();
    while !x.is_empty() {
        let mut rest = x;
        let (id, len) = (rest.get_var().unwrap(), rest.get_var().unwrap());
        let (value, behind) = rest.split_at(len as usize);
        all.push(Parameter { bytes: &x[..x.len() - behind.len()], id, value });
        x = behind;
    }
    all
}

/// Their identifiers and values.
fn values(x: &[u8]) -> Vec<(u64, Vec<u8>)> {
    parameters(x).iter().map(|p| (p.id, p.value.to_vec())).collect()
}

/// The parameters of one extension, now and then with some of another, shuffled, in any forms; one or the other dropped, doubled, given
/// another value, or joined by one more. Half of the time without version information.
pub fn mixed(d: &mut Dice, all: &[Vec<u8>]) -> Vec<u8> {
    let mut kept = values(&all[d.below(all.len())]);
    let mut others = values(&all[d.below(all.len())]);
    if d.one_in(2) {
        for values in [&mut kept, &mut others] {
            values.retain(|(id, _)| *id != versions::ID);
        }
    }
    match d.below(6) {
        0 => kept.truncate(d.below(kept.len() + 1)),
        1 => kept.push(d.of(&kept)),
        2 => {
            let at = d.below(kept.len());
            kept[at].1 = value(d, kept[at].0);
        }
        3 => {
            let id = if d.one_in(2) { d.of(&KNOWN) } else { unknown(d) };
            kept.push((id, value(d, id)));
        }
        4 => {
            let at = d.below(others.len());
            kept.truncate(d.below(kept.len() + 1));
            kept.extend_from_slice(&others[at..]);
        }
        _ => {}
    }
    d.shuffle(&mut kept);
    let mut out = Vec::new();
    for (id, v) in &kept {
        put_parameter(d, &mut out, *id, v);
    }
    out
}

/// A mask of known parameters: few, some or nearly all; often only what a client may send, often no version information.
pub fn mask(d: &mut Dice) -> u32 {
    let m = d.next() as u32;
    let m = match d.below(4) {
        0 => m & d.next() as u32 & d.next() as u32,
        1 => m | d.next() as u32,
        _ => m,
    };
    let server_only = 1 << 13 | 1 << 15 | 1 << 16 | 1 << 18;
    let m = if d.one_in(2) { m & !server_only } else { m };
    if d.one_in(2) { m & !(1 << 20) } else { m }
}

pub fn cid(d: &mut Dice) -> ConnectionId {
    ConnectionId::new(&d.bytes::<20>()[..d.below(21)])
}

fn maybe<T>(d: &mut Dice, x: impl FnOnce(&mut Dice) -> T) -> Option<T> {
    d.one_in(2).then(|| x(d))
}

/// A well-formed record: every field present or absent, numbers of every width and at every edge. `legal` asks for likely numbers.
pub fn record(d: &mut Dice, legal: bool) -> Record {
    let mut p = Record::from(TransportParameters::default());
    let number = |d: &mut Dice, id| VarInt(if legal { likely_number(d, id) } else { d.number() });
    for (x, id) in image::numbers(&mut p).into_iter().zip(KNOWN) {
        if !d.one_in(3) {
            *x = number(d, id);
        }
    }
    p.disable_active_migration = d.one_in(2);
    p.grease_quic_bit = d.one_in(2);
    p.max_datagram_frame_size = maybe(d, |d| number(d, 0x20));
    p.min_ack_delay = maybe(d, |d| number(d, 0xff04de1b));
    p.initial_src_cid = maybe(d, cid);
    // a client's record has none of these
    if d.one_in(2) {
        p.original_dst_cid = maybe(d, cid);
        p.retry_src_cid = maybe(d, cid);
        p.stateless_reset_token = maybe(d, |d| d.bytes::<16>().into());
        p.preferred_address = maybe(d, |d| PreferredAddress {
            address_v4: maybe(d, |d| match d.below(8) {
                0 => SocketAddrV4::new([0; 4].into(), 0),
                1 => SocketAddrV4::new([0; 4].into(), 1 + d.below(65535) as u16),
                2 => SocketAddrV4::new([0, 0, 0, 1].into(), 0),
                _ => SocketAddrV4::new(d.bytes::<4>().into(), d.next() as u16),
            }),
            address_v6: maybe(d, |d| match d.below(8) {
                0 => SocketAddrV6::new([0u8; 16].into(), 0, 0, 0),
                1 => SocketAddrV6::new([0u8; 16].into(), 256, 0, 0),
                _ => SocketAddrV6::new(d.bytes::<16>().into(), d.next() as u16, 0, 0),
            }),
            connection_id: cid(d),
            stateless_reset_token: d.bytes::<16>().into(),
        });
    }
    p.grease_transport_parameter = maybe(d, |d| {
        let id = match d.below(4) {
            0 => 27,
            1 => MAX - (MAX - 27) % 31,
            _ => 31 * (d.next() >> (7 + d.below(57))) + 27,
        };
        image::reserved(id, &d.bytes::<16>()[..d.below(17)])
    });
    // often none, so that quinn can be asked
    if d.one_in(3) {
        p.versions = Some(version_information(d)).filter(|v| versions::fits(v)).map(|v| Versions::of(&v));
    }
    p.in_order(maybe(d, Dice::permutation))
}

/// A well-formed record that has everything, as long as it can be.
pub fn longest() -> Record {
    let id = ConnectionId::new(&[1; 20]);
    let mut p = Record::from(TransportParameters::default());
    image::numbers(&mut p).into_iter().for_each(|x| x.0 = MAX);
    p.disable_active_migration = true;
    p.grease_quic_bit = true;
    (p.max_datagram_frame_size, p.min_ack_delay) = (Some(VarInt(MAX)), Some(VarInt(MAX)));
    (p.original_dst_cid, p.initial_src_cid, p.retry_src_cid) = (Some(id), Some(id), Some(id));
    p.stateless_reset_token = Some([2; 16].into());
    p.preferred_address = Some(PreferredAddress {
        address_v4: Some(SocketAddrV4::new([3; 4].into(), 4)),
        address_v6: Some(SocketAddrV6::new([5; 16].into(), 6, 0, 0)),
        connection_id: id,
        stateless_reset_token: [7; 16].into(),
    });
    p.versions = Some(Versions::of(&[8; 68]));
    p.grease_transport_parameter = Some(image::reserved(MAX - (MAX - 27) % 31, &[9; 16]));
    p
}

/// Settings that building does not refuse.
pub fn settings(d: &mut Dice) -> [u64; 12] {
    let flag = |d: &mut Dice| if d.one_in(2) { 0 } else { d.of(&[1, 1, 2, 256, 1 << 32]) };
    let any = |d: &mut Dice| if d.one_in(4) { d.of(&[0, 1, 65534, 65535, 65536, 1 << 62, u64::MAX]) } else { d.number() };
    [
        d.number(),
        d.number(),
        d.number(),
        d.number(),
        if d.one_in(3) { 0 } else { d.number() },
        d.number(),
        flag(d),
        flag(d),
        any(d),
        if d.one_in(3) { 0 } else { any(d) },
        flag(d),
        flag(d),
    ]
}

/// What building takes; nothing of it is refused.
pub struct Plan {
    pub settings: [u64; 12],
    pub settings_len: usize,
    pub cid: Vec<u8>,
    pub draw: u64,
    pub payload: Vec<u8>,
    pub order: Vec<u8>,
    pub room: usize,
}

impl Plan {
    pub fn new(d: &mut Dice) -> Self {
        Plan {
            settings: settings(d),
            settings_len: 12,
            cid: image::of_cid(&cid(d)).to_vec(),
            draw: match d.below(4) {
                0 => d.of(&[0, 1, 30, 31, 61, 62, 92, 93]),
                1 => MAX - 27 - d.below(64) as u64,
                _ => d.number() % (MAX - 26),
            },
            payload: d.bytes::<15>()[..d.below(16)].to_vec(),
            order: d.permutation().to_vec(),
            room: if d.one_in(16) { d.of(&[0, RECORD - 1, RECORD + 1]) } else { RECORD },
        }
    }
}

/// How many ways there are to spoil a record.
pub const SPOILS: usize = 20;

/// Makes the image of a well-formed record that of a record that is not, in way `i`.
pub fn spoil(d: &mut Dice, i: usize, x: &mut [u8; RECORD]) {
    let bit = 1 << d.below(8);
    // where an optional field stands: its flag, and its length behind it
    let absent = |d: &mut Dice, x: &mut [u8; RECORD], at: usize, len: usize| {
        x[at..at + 1 + len].fill(0);
        x[at + 1 + d.below(len)] = bit;
    };
    let cid = d.of(&[109, 131, 153, 218]);
    let present = |x: &mut [u8; RECORD]| x[if cid == 218 { 191 } else { cid - 1 }] = 1;
    match i % SPOILS {
        0 => x[8 * d.below(11)] = 0x40 << d.below(2),
        1 => {
            let at = d.of(&[90, 99]);
            x[at] = 1;
            x[at + 1] = 0x40 << d.below(2);
        }
        2 => {
            let at = d.of(&[90, 99]);
            absent(d, x, at, 8);
        }
        3 => {
            let at = d.of(&[108, 130, 152]);
            absent(d, x, at, 21);
        }
        4 => {
            present(x);
            x[cid] = 21 + d.below(235) as u8;
        }
        5 => {
            present(x);
            x[cid] = d.below(20) as u8;
            x[cid + 1..cid + 21].fill(0);
            let len = x[cid] as usize;
            x[cid + 1 + len + d.below(20 - len)] = bit;
        }
        6 => absent(d, x, 174, 16),
        7 => absent(d, x, 191, 63),
        8 => {
            x[191] = 1;
            absent(d, x, 192, 6);
        }
        9 => {
            x[191] = 1;
            absent(d, x, 199, 18);
        }
        10 => absent(d, x, 255, 25),
        11 => {
            // a remainder other than 27
            x[255..281].fill(0);
            x[255] = 1;
            let id = 31 * d.below(1 << 40) as u64 + d.of(&[0, 1, 26, 28, 30]);
            x[256..264].copy_from_slice(&id.to_be_bytes());
        }
        12 => {
            // the least identifier from 2^62 on that has the remainder
            x[255..281].fill(0);
            x[255] = 1;
            let id = (MAX + 1..).find(|id| id % 31 == 27).unwrap();
            x[256..264].copy_from_slice(&id.to_be_bytes());
        }
        13 => {
            x[255..281].fill(0);
            x[255] = 1;
            x[263] = 27;
            x[264] = 17 + d.below(239) as u8;
        }
        14 => {
            x[255..281].fill(0);
            x[255] = 1;
            x[263] = 27;
            x[264] = d.below(16) as u8;
            let len = x[264] as usize;
            x[265 + len + d.below(16 - len)] = bit;
        }
        15 => x[d.of(&[88, 89, 90, 99, 108, 130, 152, 174, 191, 255, VERSIONS])] = 2 + d.below(254) as u8,
        16 => absent(d, x, VERSIONS, 69),
        17 => {
            x[VERSIONS] = 1;
            x[VERSIONS + 1] = 17 + d.below(239) as u8;
        }
        18 => {
            // a version behind the last one
            x[VERSIONS..].fill(0);
            x[VERSIONS] = 1;
            x[VERSIONS + 1] = d.below(16) as u8;
            let unused = VERSIONS + 6 + 4 * x[VERSIONS + 1] as usize;
            x[unused + d.below(RECORD - unused)] = bit;
        }
        _ => absent(d, x, 281, PLACES),
    }
}
