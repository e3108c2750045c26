//! The extensions and records that are timed, all as a client reads them.

use crate::{
    calls::{Op, quinn_read},
    crate_record,
    image::{self, PLACES, Record, Versions},
    transport_parameters::TransportParameters,
};

/// How many orders are drawn.
pub const ORDERS: usize = 512;

pub type Image = [u8; image::RECORD];

/// A record in each library's form, in catalogue order, in one order, and in each of the drawn ones.
pub struct Records<T> {
    plain: [T; 1],
    ordered: [T; 1],
    orders: Vec<T>,
}

impl<T> Records<T> {
    /// What an operation writes, by turns.
    pub fn of(&self, op: Op) -> &[T] {
        match op {
            Op::Ordered | Op::Singly => &self.ordered,
            Op::WriteOrders => &self.orders,
            _ => &self.plain,
        }
    }

    fn map<U>(&self, to: impl Fn(&T) -> U) -> Records<U> {
        let one = |x: &[T; 1]| [to(&x[0])];
        Records { plain: one(&self.plain), ordered: one(&self.ordered), orders: self.orders.iter().map(&to).collect() }
    }
}

pub struct Sample {
    pub name: &'static str,
    /// what is read and tidied
    pub bytes: Vec<u8>,
    /// the same, and then with its parameters in each of the drawn orders
    plain: [Vec<u8>; 1],
    shuffled: Vec<Vec<u8>>,
    /// what is read besides what quinn reads
    pub versions: Option<Versions>,
    /// what is written: as an image, as quinn's record, as the Rust crate's
    pub images: Records<Image>,
    pub quinn: Records<TransportParameters>,
    pub rust: Records<yuthpram::TransportParameters>,
}

impl Sample {
    /// What an operation reads, by turns.
    pub fn read_by(&self, op: Op) -> &[Vec<u8>] {
        if op == Op::ReadOrders { &self.shuffled } else { &self.plain }
    }
}

/// A number in the form of 1, 2, 4 or 8 bytes.
fn number(width: usize, x: u64) -> Vec<u8> {
    let mut bytes = x.to_be_bytes()[8 - width..].to_vec();
    bytes[0] |= (width.trailing_zeros() as u8) << 6;
    bytes
}

/// A parameter: its identifier's bytes, then its value behind its length.
fn parameter(id: &[u8], value: &[u8]) -> Vec<u8> {
    let width = if value.len() < 64 { 1 } else { 2 };
    [id, &number(width, value.len() as u64), value].concat()
}

/// Bytes that are all different from 0.
fn bytes<const N: usize>() -> [u8; N] {
    std::array::from_fn(|i| i as u8 + 1)
}

const VERSIONS: u8 = 0x11;
const MIN_ACK_DELAY: [u8; 8] = [0xc0, 0, 0, 0, 0xff, 0x04, 0xde, 0x1b];

/// The IDs that a server has to send.
fn ids() -> Vec<u8> {
    [parameter(&[0x00], &bytes::<4>()), parameter(&[0x0f], &bytes::<4>())].concat()
}

/// These, and an idle timeout of 30 s.
fn small() -> Vec<u8> {
    [ids(), parameter(&[0x01], &number(4, 30_000))].concat()
}

/// About what a quinn server sends.
fn typical() -> Vec<u8> {
    [
        parameter(&[0x01], &number(4, 30_000)),
        parameter(&[0x03], &number(2, 1472)),
        parameter(&[0x04], &number(8, (1 << 62) - 1)),
        parameter(&[0x05], &number(4, 1_250_000)),
        parameter(&[0x06], &number(4, 1_250_000)),
        parameter(&[0x07], &number(4, 1_250_000)),
        parameter(&[0x08], &number(2, 100)),
        parameter(&[0x09], &number(2, 100)),
        parameter(&[0x0e], &number(1, 5)),
        parameter(&[0x20], &number(4, 65_535)),
        parameter(&[0x00], &bytes::<8>()),
        parameter(&[0x0f], &bytes::<8>()),
        parameter(&[0x6a, 0xb2], &[]),
        parameter(&MIN_ACK_DELAY, &number(2, 1000)),
    ]
    .concat()
}

const RESERVED: u64 = 31 * (1 << 55) + 27;

/// Every parameter, each in its longest form, and a reserved one: 385 bytes.
fn full() -> Vec<u8> {
    let largest = [1 << 61, 1 << 61, 1 << 61, 1 << 61, 1 << 61, 1 << 61, 1 << 60, 1 << 60, 20, 16_383, 1 << 61];
    let ids = [0x01, 0x03, 0x04, 0x05, 0x06, 0x07, 0x08, 0x09, 0x0a, 0x0b, 0x0e];
    let reserved = number(8, RESERVED);
    let address = [&bytes::<24>()[..], &[20], &bytes::<20>(), &bytes::<16>()].concat();
    let numbers = ids.iter().zip(largest).flat_map(|(id, x)| parameter(&[*id], &number(8, x)));
    let others = [
        parameter(&reserved, &bytes::<16>()),
        parameter(&[0x02], &bytes::<16>()),
        parameter(&[0x0c], &[]),
        parameter(&[0x20], &number(8, 1 << 61)),
        parameter(&[0x0d], &address),
        parameter(&[0x00], &bytes::<20>()),
        parameter(&[0x0f], &bytes::<20>()),
        parameter(&[0x10], &bytes::<20>()),
        parameter(&[0x6a, 0xb2], &[]),
        parameter(&MIN_ACK_DELAY, &number(8, 16_383_000)),
        parameter(&[VERSIONS], &bytes::<68>()),
    ];
    numbers.chain(others.concat()).collect()
}

/// What Chromium sent, the first in tests/real/clients.txt, and the IDs that a server has to send in place of its empty one.
fn chromium() -> Vec<u8> {
    let list = include_str!("../../tests/real/clients.txt");
    let text = list.lines().find_map(|l| l.strip_prefix("extension ")).expect("an extension");
    let sent: Vec<u8> = (0..text.len()).step_by(2).map(|i| u8::from_str_radix(&text[i..i + 2], 16).expect("two digits")).collect();
    let others = parameters(&sent).into_iter().filter(|p| p.place != image::place(0x0f));
    others.flat_map(|p| p.whole.to_vec()).chain(ids()).collect()
}

/// The IDs and unknown parameters, 64 KiB: reserved identifiers of each width, values of 0 to 16 bytes.
fn unknown() -> Vec<u8> {
    let mut all = ids();
    for i in 0.. {
        let width = 1 << (i % 4);
        let id = number(width, if width == 1 { 27 } else { 31 * (i % 400) + 27 });
        let next = parameter(&id, &bytes::<16>()[..i as usize % 17]);
        if all.len() + next.len() > (1 << 16) - 3 {
            break;
        }
        all.extend(next);
    }
    while all.len() < 1 << 16 {
        let left = (1 << 16) - all.len();
        all.extend(parameter(&[27], &bytes::<60>()[..left.min(62) - 2]));
    }
    all
}

/// The IDs and four unknown parameters, 64 KiB.
fn few() -> Vec<u8> {
    let left = (1 << 16) - ids().len();
    let head = [&[27][..], &number(2, left as u64 / 4 - 3)].concat();
    let one = [head, vec![7; left / 4 - 3]].concat();
    [ids(), one.repeat(4)].concat()
}

/// The record of `full`, made larger where only reading sets a limit, and with the reserved parameter: it is written as 385 bytes.
fn full_record(read: Image) -> Image {
    let mut p = image::to_record(&read);
    p.ack_delay_exponent.0 = 1 << 61;
    p.max_ack_delay.0 = 1 << 61;
    p.min_ack_delay.as_mut().unwrap().0 = 1 << 61;
    let mut record = image::of_record(&p);
    record[255] = 1;
    record[256..264].copy_from_slice(&RESERVED.to_be_bytes());
    record[264] = 16;
    record[265..281].copy_from_slice(&bytes::<16>());
    record
}

type Order = [u8; PLACES];

/// The orders: each a shuffle, from a fixed seed (xorshift).
fn orders() -> Vec<Order> {
    let mut seed: u64 = 88_172_645_463_325_252;
    let mut below = |n: usize| {
        seed ^= seed << 13;
        seed ^= seed >> 7;
        seed ^= seed << 17;
        (seed % n as u64) as usize
    };
    let mut order: Order = std::array::from_fn(|i| i as u8);
    let mut next = || {
        (1..order.len()).rev().for_each(|i| order.swap(i, below(i + 1)));
        order
    };
    (0..ORDERS).map(|_| next()).collect()
}

/// The order of the rows with one: every 9th place.
fn one_order() -> Order {
    std::array::from_fn(|i| (i * 9 % PLACES) as u8)
}

fn ordered(mut record: Image, order: &Order) -> Image {
    record[281] = 1;
    record[282..image::VERSIONS].copy_from_slice(order);
    record
}

/// A number at the front of `x`, which is moved behind it.
fn take(x: &mut &[u8]) -> u64 {
    let width = 1 << (x[0] >> 6);
    let (head, rest) = x.split_at(width);
    *x = rest;
    head[1..].iter().fold(u64::from(head[0] & 0x3f), |number, byte| number << 8 | u64::from(*byte))
}

/// A parameter of an extension: its place, that of the reserved one if it is unknown, and its bytes.
struct Parameter<'a> {
    place: u8,
    whole: &'a [u8],
    value: &'a [u8],
}

fn parameters(bytes: &[u8]) -> Vec<Parameter<'_>> {
    let mut rest = bytes;
    let mut all = Vec::new();
    while !rest.is_empty() {
        let start = rest;
        let id = take(&mut rest);
        let len = take(&mut rest) as usize;
        let (value, behind) = rest.split_at(len);
        rest = behind;
        all.push(Parameter { place: image::place(id), whole: &start[..start.len() - rest.len()], value });
    }
    all
}

fn is_versions(p: &Parameter) -> bool {
    p.place == image::place(VERSIONS.into())
}

/// The extension with its parameters in an order.
fn shuffled(bytes: &[u8], order: &Order) -> Vec<u8> {
    let mut all = parameters(bytes);
    all.sort_by_key(|p| order.iter().position(|place| *place == p.place));
    all.iter().flat_map(|p| p.whole.to_vec()).collect()
}

/// What quinn writes of what is written.
pub fn without_versions(bytes: &[u8]) -> Vec<u8> {
    parameters(bytes).iter().filter(|p| !is_versions(p)).flat_map(|p| p.whole.to_vec()).collect()
}

const MAKE: [(&str, fn() -> Vec<u8>); 6] = [
    ("small", small),
    ("typical", typical),
    ("full", full),
    ("64 KiB unknown", unknown),
    ("64 KiB, few and long", few),
    ("Chromium's", chromium),
];

/// The sample at a place.
pub fn sample(at: usize) -> Sample {
    let (name, make) = MAKE[at];
    let bytes = make();
    let versions = parameters(&bytes).iter().find(|p| is_versions(p)).map(|p| Versions::of(p.value));
    let read = image::of_record(&Record::from(quinn_read(&bytes)).with_versions(versions));
    let record = if name == "full" { full_record(read) } else { read };
    let drawn = orders();
    let images = Records {
        plain: [record],
        ordered: [ordered(record, &one_order())],
        orders: drawn.iter().map(|order| ordered(record, order)).collect(),
    };
    let small = bytes.len() <= crate::calls::ROOM;
    let shuffled = drawn.iter().filter(|_| small).map(|order| shuffled(&bytes, order)).collect();
    let (quinn, rust) = (images.map(|i| *image::to_record(i)), images.map(|i| crate_record::of(&bytes, i)));
    Sample { name, plain: [bytes.clone()], bytes, shuffled, versions, images, quinn, rust }
}

pub fn samples() -> Vec<Sample> {
    (0..MAKE.len()).map(sample).collect()
}
