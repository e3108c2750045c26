//! The image of a record and of a connection ID (bindings/c/yuthpram.h), to and from quinn's types.

use std::{
    net::{SocketAddrV4, SocketAddrV6},
    ops::{Deref, DerefMut},
};

use crate::{
    ResetToken, VarInt,
    cid_generator::ConnectionIdGenerator,
    coding::BufExt,
    config::{EndpointConfig, ServerConfig, TransportConfig},
    shared::ConnectionId,
    transport_parameters::{PreferredAddress, ReservedTransportParameter, TransportParameters},
};

pub const CID: usize = 21;
pub const RECORD: usize = 374;

/// Where an image's order and its version information stand.
const ORDER: usize = 281;
pub const VERSIONS: usize = 304;

/// How many places an order has.
pub const PLACES: usize = 22;

/// The identifiers by place; that of the reserved parameter, place 11, is drawn, and the least one stands for it.
const IDS: [u64; PLACES] = [
    0x01, 0x03, 0x04, 0x05, 0x06, 0x07, 0x08, 0x09, 0x0a, 0x0b, 0x0e, 27, 0x02, 0x0c, 0x20, 0x0d, 0x00, 0x0f, 0x10, 0x2ab2, 0xff04de1b,
    0x11,
];

/// The place of an identifier that is written.
pub fn place(id: u64) -> u8 {
    IDS.iter().position(|known| *known == id).unwrap_or(11) as u8
}

pub const CATALOGUE_ORDER: [u8; PLACES] = [0, 1, 2, 3, 4, 5, 6, 7, 8, 9, 10, 11, 12, 13, 14, 15, 16, 17, 18, 19, 20, 21];

/// An order is a permutation of 0 to 21 (docs/SCOPE.md, Orders).
pub fn is_permutation(order: &[u8]) -> bool {
    let mut places = order.to_vec();
    places.sort();
    places == CATALOGUE_ORDER
}

/// Version information: the value on the wire, as which it stands in an image too, zeros behind it.
#[derive(Clone, Copy)]
pub struct Versions {
    bytes: [u8; 68],
    len: usize,
}

impl Versions {
    /// Of a value that fits.
    pub fn of(value: &[u8]) -> Self {
        let mut bytes = [0; 68];
        bytes[..value.len()].copy_from_slice(value);
        Versions { bytes, len: value.len() }
    }

    pub fn value(&self) -> &[u8] {
        &self.bytes[..self.len]
    }
}

/// A record: quinn's, and what quinn does not have, version information and its place in the order.
#[derive(Clone, Copy)]
pub struct Record {
    quinn: TransportParameters,
    pub versions: Option<Versions>,
    /// the position of place 21, if there is an order: quinn has it with that place struck
    position: usize,
}

impl From<TransportParameters> for Record {
    fn from(quinn: TransportParameters) -> Self {
        Record { quinn, versions: None, position: PLACES - 1 }
    }
}

impl Deref for Record {
    type Target = TransportParameters;
    fn deref(&self) -> &TransportParameters {
        &self.quinn
    }
}

impl DerefMut for Record {
    fn deref_mut(&mut self) -> &mut TransportParameters {
        &mut self.quinn
    }
}

impl Record {
    pub fn with_versions(self, versions: Option<Versions>) -> Self {
        Record { versions, ..self }
    }

    pub fn in_order(mut self, order: Option<[u8; PLACES]>) -> Self {
        self.position = order.map_or(PLACES - 1, |order| position(&order));
        self.write_order = order.map(|order| struck(&order));
        self
    }

    pub fn order(&self) -> Option<[u8; PLACES]> {
        let (before, behind) = self.write_order.as_ref()?.split_at(self.position);
        Some([before, &[21], behind].concat().try_into().unwrap())
    }
}

/// The position of place 21 in an order.
fn position(order: &[u8]) -> usize {
    order.iter().position(|place| *place == 21).expect("a permutation has every place")
}

/// An order of quinn's places: place 21 is struck.
fn struck(order: &[u8]) -> [u8; PLACES - 1] {
    let left: Vec<u8> = order.iter().copied().filter(|place| *place != 21).collect();
    left.try_into().expect("one place is struck")
}

/// The numbers of catalogue places 0 to 10.
pub fn numbers(p: &mut TransportParameters) -> [&mut VarInt; 11] {
    [
        &mut p.max_idle_timeout,
        &mut p.max_udp_payload_size,
        &mut p.initial_max_data,
        &mut p.initial_max_stream_data_bidi_local,
        &mut p.initial_max_stream_data_bidi_remote,
        &mut p.initial_max_stream_data_uni,
        &mut p.initial_max_streams_bidi,
        &mut p.initial_max_streams_uni,
        &mut p.ack_delay_exponent,
        &mut p.max_ack_delay,
        &mut p.active_connection_id_limit,
    ]
}

pub fn of_cid(c: &ConnectionId) -> [u8; CID] {
    let mut image = [0; CID];
    image[0] = c.len() as u8;
    image[1..1 + c.len()].copy_from_slice(c);
    image
}

pub fn to_cid(image: &[u8]) -> ConnectionId {
    ConnectionId::new(&image[1..1 + image[0] as usize])
}

/// Fills an image from the front. What is absent stays zero.
struct Filler {
    image: [u8; RECORD],
    at: usize,
}

impl Filler {
    fn bytes(&mut self, b: &[u8]) {
        self.image[self.at..self.at + b.len()].copy_from_slice(b);
        self.at += b.len();
    }

    fn flag(&mut self, b: bool) {
        self.bytes(&[b as u8]);
    }

    /// A presence flag and `size` bytes.
    fn optional(&mut self, b: Option<&[u8]>, size: usize) {
        self.flag(b.is_some());
        let start = self.at;
        self.bytes(b.unwrap_or(&[]));
        self.at = start + size;
    }

    fn number(&mut self, x: Option<VarInt>) {
        self.optional(x.map(|x| x.0.to_be_bytes()).as_ref().map(|b| &b[..]), 8);
    }

    fn cid(&mut self, c: Option<ConnectionId>) {
        self.optional(c.map(|c| of_cid(&c)).as_ref().map(|b| &b[..]), CID);
    }
}

pub fn of_record(p: &Record) -> [u8; RECORD] {
    let mut f = Filler { image: [0; RECORD], at: 0 };
    for x in numbers(&mut p.quinn.clone()) {
        f.bytes(&x.0.to_be_bytes());
    }
    f.flag(p.disable_active_migration);
    f.flag(p.grease_quic_bit);
    f.number(p.max_datagram_frame_size);
    f.number(p.min_ack_delay);
    f.cid(p.original_dst_cid);
    f.cid(p.initial_src_cid);
    f.cid(p.retry_src_cid);
    f.optional(p.stateless_reset_token.as_deref(), 16);
    f.flag(p.preferred_address.is_some());
    if let Some(a) = p.preferred_address {
        f.flag(a.address_v4.is_some());
        if let Some(v4) = a.address_v4 {
            f.bytes(&v4.ip().octets());
            f.bytes(&v4.port().to_be_bytes());
        }
        f.at = 199;
        f.flag(a.address_v6.is_some());
        if let Some(v6) = a.address_v6 {
            f.bytes(&v6.ip().octets());
            f.bytes(&v6.port().to_be_bytes());
        }
        f.at = 218;
        f.bytes(&of_cid(&a.connection_id));
        f.bytes(&a.stateless_reset_token);
    }
    f.at = 255;
    f.flag(p.grease_transport_parameter.is_some());
    if let Some(r) = p.grease_transport_parameter {
        let (id, payload) = reserved_parts(r);
        f.bytes(&id.to_be_bytes());
        f.bytes(&[payload.len() as u8]);
        f.bytes(&payload);
    }
    f.at = ORDER;
    f.optional(p.order().as_ref().map(|o| &o[..]), PLACES);
    put_versions(p.versions.as_ref(), &mut f);
    assert_eq!(f.at, RECORD);
    f.image
}

/// The number of available versions stands before all of them.
fn put_versions(v: Option<&Versions>, f: &mut Filler) {
    f.flag(v.is_some());
    f.bytes(&[v.map_or(0, |v| v.len / 4 - 1) as u8]);
    f.bytes(&v.map_or([0; 68], |v| v.bytes));
}

/// Takes an image from the front.
struct Taker<'a>(&'a [u8]);

impl<'a> Taker<'a> {
    fn bytes(&mut self, n: usize) -> &'a [u8] {
        let (b, rest) = self.0.split_at(n);
        self.0 = rest;
        b
    }

    fn array<const N: usize>(&mut self) -> [u8; N] {
        self.bytes(N).try_into().unwrap()
    }

    fn flag(&mut self) -> bool {
        self.bytes(1)[0] != 0
    }

    fn number(&mut self) -> VarInt {
        VarInt(u64::from_be_bytes(self.array()))
    }

    fn port(&mut self) -> u16 {
        u16::from_be_bytes(self.array())
    }

    fn cid(&mut self) -> ConnectionId {
        to_cid(self.bytes(CID))
    }

    fn token(&mut self) -> ResetToken {
        self.array::<16>().into()
    }

    /// What stands behind a presence flag.
    fn optional<T>(&mut self, take: impl FnOnce(&mut Self) -> T) -> Option<T> {
        let present = self.flag();
        Some(take(self)).filter(|_| present)
    }
}

/// The record of a well-formed image. An order that is no permutation is left out.
pub fn to_record(image: &[u8]) -> Record {
    let mut t = Taker(image);
    let mut p = Record::from(TransportParameters::default());
    for x in numbers(&mut p) {
        *x = t.number();
    }
    p.disable_active_migration = t.flag();
    p.grease_quic_bit = t.flag();
    p.max_datagram_frame_size = t.optional(Taker::number);
    p.min_ack_delay = t.optional(Taker::number);
    p.original_dst_cid = t.optional(Taker::cid);
    p.initial_src_cid = t.optional(Taker::cid);
    p.retry_src_cid = t.optional(Taker::cid);
    p.stateless_reset_token = t.optional(Taker::token);
    p.preferred_address = t.optional(|t| PreferredAddress {
        address_v4: t.optional(|t| SocketAddrV4::new(t.array::<4>().into(), t.port())),
        address_v6: t.optional(|t| SocketAddrV6::new(t.array::<16>().into(), t.port(), 0, 0)),
        connection_id: t.cid(),
        stateless_reset_token: t.token(),
    });
    let present = t.flag();
    let (id, len, payload) = (t.number(), t.bytes(1)[0], t.bytes(16));
    if present {
        p.grease_transport_parameter = Some(reserved(id.0, &payload[..len as usize]));
    }
    let order = t.optional(Taker::array::<PLACES>).filter(|order| is_permutation(order));
    p.versions = t.optional(|t| {
        let value = 4 + 4 * t.bytes(1)[0] as usize;
        Versions::of(&t.bytes(68)[..value])
    });
    p.in_order(order)
}

/// quinn's reserved parameter keeps its fields to itself: it is made by building from the draw that gives this identifier.
pub fn reserved(id: u64, payload: &[u8]) -> ReservedTransportParameter {
    let settings = [0; 12];
    build(&settings, ConnectionId::new(&[]), id - 27, payload, &CATALOGUE_ORDER).grease_transport_parameter.unwrap()
}

/// And what it has is what a record with nothing else writes.
fn reserved_parts(r: ReservedTransportParameter) -> (u64, Vec<u8>) {
    let mut out = Vec::new();
    let p = TransportParameters { grease_transport_parameter: Some(r), ..TransportParameters::default() };
    p.write(&mut out);
    let mut rest = &out[..];
    let id = rest.get_var().unwrap();
    let len = rest.get_var().unwrap();
    assert_eq!(len, rest.len() as u64);
    (id, rest.to_vec())
}

struct Generator(usize);

impl ConnectionIdGenerator for Generator {
    fn cid_len(&self) -> usize {
        self.0
    }
}

/// `TransportParameters::new` on the settings of the C interface and the drawn values. quinn draws the order with place 21 struck.
pub fn build(s: &[u64; 12], cid: ConnectionId, draw: u64, payload: &[u8], order: &[u8]) -> Record {
    let number = |i: usize| VarInt::from_u64(s[i]).unwrap();
    let config = TransportConfig {
        max_concurrent_bidi_streams: number(0),
        max_concurrent_uni_streams: number(1),
        receive_window: number(2),
        stream_receive_window: number(3),
        max_idle_timeout: Some(number(4)).filter(|x| x.0 != 0),
        datagram_receive_buffer_size: (s[7] != 0).then_some(s[8] as usize),
    };
    let endpoint = EndpointConfig { max_udp_payload_size: number(5), grease_quic_bit: s[6] != 0 };
    let server = (s[10] != 0).then_some(ServerConfig { migration: s[11] != 0 });
    let numbers = [draw, payload.len() as u64];
    let mut drawn = rand::Drawn { numbers: &numbers, bytes: payload, order: &struck(order) };
    let built = TransportParameters::new(&config, &endpoint, &Generator(s[9] as usize), cid, server.as_ref(), &mut drawn);
    Record { position: position(order), ..built.into() }
}
