//! What a record is made of.
use crate::{ffi, Error};
use std::fmt;
use std::net::{AddrParseError, Ipv6Addr, SocketAddrV4, SocketAddrV6};
use std::ops::{Deref, Not};
use std::str::FromStr;

/// The side that **reads** an extension. What a server sends is read by a client: a server that checks its own outgoing record asks
/// `Side::Client`.
///
/// ```
/// use yuthpram::Side;
/// let me = Side::Server;
/// let peer = !me;
/// assert!(me.is_server() && peer.is_client());
/// ```
#[derive(Debug, Copy, Clone, Eq, PartialEq, Hash)]
pub enum Side {
    /// The initiator of a connection.
    Client = 0,
    /// The acceptor of a connection.
    Server = 1,
}

impl Side {
    /// Shorthand for `self == Side::Client`.
    pub fn is_client(self) -> bool {
        self == Self::Client
    }

    /// Shorthand for `self == Side::Server`.
    pub fn is_server(self) -> bool {
        self == Self::Server
    }

    pub(crate) fn byte(self) -> u8 {
        self as u8
    }
}

impl Not for Side {
    type Output = Self;
    fn not(self) -> Self {
        match self {
            Self::Client => Self::Server,
            Self::Server => Self::Client,
        }
    }
}

/// A number below 2^62 (RFC 9000 section 16).
///
/// ```
/// use yuthpram::{Error, VarInt};
/// assert_eq!(u64::from(VarInt::from(7u8)) + u64::from(VarInt::from(7u16)), 14);
/// assert_eq!(VarInt::try_from(30_000u64)?.to_string(), "30000");
/// assert_eq!(VarInt::try_from(1u64 << 62), Err(Error::VarIntBoundsExceeded));
/// # Ok::<(), Error>(())
/// ```
#[derive(Default, Copy, Clone, Eq, PartialEq, Ord, PartialOrd, Hash)]
pub struct VarInt(u64);

impl VarInt {
    /// The largest number.
    pub const MAX: Self = Self((1 << 62) - 1);
    /// The longest form, in bytes.
    pub const MAX_SIZE: usize = 8;

    /// Construct from a `u32`.
    pub const fn from_u32(x: u32) -> Self {
        Self(x as u64)
    }

    /// Succeeds if `x` < 2^62.
    pub const fn from_u64(x: u64) -> Result<Self, Error> {
        if x <= Self::MAX.0 {
            Ok(Self(x))
        } else {
            Err(Error::VarIntBoundsExceeded)
        }
    }

    /// The number.
    pub const fn into_inner(self) -> u64 {
        self.0
    }

    /// How many bytes the shortest form has.
    ///
    /// ```
    /// use yuthpram::VarInt;
    /// assert_eq!(VarInt::from_u32(63).size(), 1);
    /// assert_eq!(VarInt::from_u32(64).size(), 2);
    /// ```
    pub fn size(self) -> usize {
        ffi::number_size(self.0)
    }

    /// The number at the front of `src`, how many bytes it takes, and how many of them its shortest form would have saved.
    ///
    /// ```
    /// use yuthpram::{Decoded, VarInt};
    /// assert_eq!(VarInt::decode(&[0x7b, 0xbd, 0xff])?, Decoded { value: VarInt::from_u32(15_293), count: 2, saved: 0 });
    /// // 37 in its shortest form, and in two bytes
    /// assert_eq!(VarInt::decode(&[0x25])?, Decoded { value: VarInt::from_u32(37), count: 1, saved: 0 });
    /// assert_eq!(VarInt::decode(&[0x40, 0x25])?, Decoded { value: VarInt::from_u32(37), count: 2, saved: 1 });
    /// # Ok::<(), yuthpram::Error>(())
    /// ```
    pub fn decode(src: &[u8]) -> Result<Decoded, Error> {
        let (mut value, mut count, mut saved) = (0, 0, 0);
        Error::of(unsafe { ffi::yuthpram_number_read(src.as_ptr(), src.len(), &mut value, &mut count, &mut saved) })?;
        Ok(Decoded { value: Self(value), count, saved })
    }

    /// Writes the shortest form to the front of `out`, and gives its length.
    ///
    /// ```
    /// use yuthpram::VarInt;
    /// let mut out = [0; VarInt::MAX_SIZE];
    /// assert_eq!(VarInt::from_u32(15_293).encode(&mut out)?, 2);
    /// assert_eq!(out[..2], [0x7b, 0xbd]);
    /// # Ok::<(), yuthpram::Error>(())
    /// ```
    pub fn encode(self, out: &mut [u8]) -> Result<usize, Error> {
        let mut count = 0;
        Error::of(unsafe { ffi::yuthpram_number_write(self.0, out.as_mut_ptr(), out.len(), &mut count) })?;
        Ok(count)
    }

    /// Of a number that the library gave.
    pub(crate) fn trusted(x: u64) -> Self {
        Self(x)
    }
}

impl From<u8> for VarInt {
    fn from(x: u8) -> Self {
        Self(x.into())
    }
}

impl From<u16> for VarInt {
    fn from(x: u16) -> Self {
        Self(x.into())
    }
}

impl From<u32> for VarInt {
    fn from(x: u32) -> Self {
        Self(x.into())
    }
}

impl TryFrom<u64> for VarInt {
    type Error = Error;
    fn try_from(x: u64) -> Result<Self, Error> {
        Self::from_u64(x)
    }
}

impl From<VarInt> for u64 {
    fn from(x: VarInt) -> Self {
        x.0
    }
}

impl fmt::Debug for VarInt {
    fn fmt(&self, f: &mut fmt::Formatter<'_>) -> fmt::Result {
        self.0.fmt(f)
    }
}

impl fmt::Display for VarInt {
    fn fmt(&self, f: &mut fmt::Formatter<'_>) -> fmt::Result {
        self.0.fmt(f)
    }
}

/// A number as it was read.
#[derive(Debug, Copy, Clone, Eq, PartialEq)]
pub struct Decoded {
    /// The number.
    pub value: VarInt,
    /// How many bytes it takes.
    pub count: usize,
    /// How many of these its shortest form would have saved.
    pub saved: usize,
}

/// A connection ID of at most 20 bytes. It is shown in hexadecimal.
///
/// ```
/// use yuthpram::{ConnectionId, Error};
/// assert_eq!(ConnectionId::new(&[0x0c, 0xe1])?.to_string(), "0ce1");
/// assert_eq!(ConnectionId::new(&[0; 21]), Err(Error::IllFormed));
/// # Ok::<(), Error>(())
/// ```
#[derive(Copy, Clone, Eq, PartialEq, Ord, PartialOrd, Hash)]
pub struct ConnectionId {
    len: u8,
    bytes: [u8; 20],
}

impl ConnectionId {
    /// The longest ID, in bytes.
    pub const MAX_SIZE: usize = 20;

    /// The ID of these bytes. Refuses 7 if there are more than 20.
    pub fn new(bytes: &[u8]) -> Result<Self, Error> {
        if Self::MAX_SIZE < bytes.len() {
            return Err(Error::IllFormed);
        }
        let mut c = Self { len: bytes.len() as u8, bytes: [0; 20] };
        c.bytes[..bytes.len()].copy_from_slice(bytes);
        Ok(c)
    }

    /// The ID behind the length byte at the front of `src`, and how many bytes they take together.
    ///
    /// ```
    /// use yuthpram::ConnectionId;
    /// assert_eq!(ConnectionId::decode_long(&[2, 7, 8, 9])?, (ConnectionId::new(&[7, 8])?, 3));
    /// # Ok::<(), yuthpram::Error>(())
    /// ```
    pub fn decode_long(src: &[u8]) -> Result<(Self, usize), Error> {
        let (mut image, mut count) = ([0; ffi::CID_SIZE], 0);
        Error::of(unsafe { ffi::yuthpram_cid_read(src.as_ptr(), src.len(), image.as_mut_ptr(), image.len(), &mut count) })?;
        Ok((Self::from_image(image), count))
    }

    /// Writes the length byte and the ID to the front of `out`.
    ///
    /// ```
    /// use yuthpram::ConnectionId;
    /// let mut out = [0; 4];
    /// assert_eq!(ConnectionId::new(&[7, 8])?.encode_long(&mut out)?, 3);
    /// assert_eq!(out, [2, 7, 8, 0]);
    /// # Ok::<(), yuthpram::Error>(())
    /// ```
    pub fn encode_long(&self, out: &mut [u8]) -> Result<usize, Error> {
        let (image, mut count) = (self.image(), 0);
        Error::of(unsafe { ffi::yuthpram_cid_write(image.as_ptr(), image.len(), out.as_mut_ptr(), out.len(), &mut count) })?;
        Ok(count)
    }

    pub(crate) fn image(&self) -> [u8; ffi::CID_SIZE] {
        let mut b = [0; ffi::CID_SIZE];
        b[0] = self.len;
        b[1..].copy_from_slice(&self.bytes);
        b
    }

    pub(crate) fn from_image(b: [u8; ffi::CID_SIZE]) -> Self {
        let mut c = Self { len: b[0], bytes: [0; 20] };
        c.bytes.copy_from_slice(&b[1..]);
        c
    }
}

impl Deref for ConnectionId {
    type Target = [u8];
    fn deref(&self) -> &[u8] {
        &self.bytes[..self.len as usize]
    }
}

impl fmt::Debug for ConnectionId {
    fn fmt(&self, f: &mut fmt::Formatter<'_>) -> fmt::Result {
        self.deref().fmt(f)
    }
}

impl fmt::Display for ConnectionId {
    fn fmt(&self, f: &mut fmt::Formatter<'_>) -> fmt::Result {
        self.iter().try_for_each(|b| write!(f, "{b:02x}"))
    }
}

/// The connection IDs that packets carried, each under the name of the parameter that is held to it (RFC 9000 section 7.3). `None` is no
/// Retry; a Retry with an empty ID is `Some`.
#[derive(Debug, Copy, Clone, Eq, PartialEq, Hash)]
pub struct SeenConnectionIds {
    /// The Source Connection ID of the peer's first Initial packet.
    pub initial_src_cid: ConnectionId,
    /// The Destination Connection ID of the client's first Initial packet.
    pub original_dst_cid: ConnectionId,
    /// The Source Connection ID of the Retry packet, if there was one.
    pub retry_src_cid: Option<ConnectionId>,
}

/// A stateless reset token. It is a secret: whoever knows it can end the connection. So `==` takes the same time wherever two tokens
/// differ, `Debug` does not show the bytes, and there is no `Display`.
///
/// ```
/// use yuthpram::ResetToken;
/// let token = ResetToken::from([7; 16]);
/// assert_eq!(format!("{token:?}"), "ResetToken(..)");
/// assert_eq!((&token[..], <[u8; 16]>::from(token)), (&[7; 16][..], [7; 16]));
/// ```
#[derive(Copy, Clone, Eq, Hash)]
#[allow(clippy::derived_hash_with_manual_eq)]
pub struct ResetToken([u8; 16]);

impl PartialEq for ResetToken {
    fn eq(&self, other: &Self) -> bool {
        differing_bits(&self.0, &other.0) == 0
    }
}

/// 0 if equal, in a time that does not depend on where they differ. Not inlined, as in quinn, so that no comparison that ends early is
/// made of it.
#[inline(never)]
pub(crate) fn differing_bits<const N: usize>(a: &[u8; N], b: &[u8; N]) -> u8 {
    a.iter().zip(b).fold(0, |bits, (a, b)| bits | (a ^ b))
}

impl From<[u8; 16]> for ResetToken {
    fn from(bytes: [u8; 16]) -> Self {
        Self(bytes)
    }
}

impl From<ResetToken> for [u8; 16] {
    fn from(token: ResetToken) -> Self {
        token.0
    }
}

impl AsRef<[u8]> for ResetToken {
    fn as_ref(&self) -> &[u8] {
        &self.0
    }
}

impl Deref for ResetToken {
    type Target = [u8];
    fn deref(&self) -> &[u8] {
        &self.0
    }
}

impl fmt::Debug for ResetToken {
    fn fmt(&self, f: &mut fmt::Formatter<'_>) -> fmt::Result {
        f.write_str("ResetToken(..)")
    }
}

/// An IPv6 address and port: what a preferred address carries. Flow information and scope of a `SocketAddrV6` are not carried, so they
/// cannot be said here; converting leaves them behind.
///
/// ```
/// use std::net::SocketAddrV6;
/// use yuthpram::AddressV6;
/// let address: AddressV6 = "[2001:db8::1]:443".parse()?;
/// assert_eq!(address, SocketAddrV6::new(address.ip, 443, 1, 2).into());
/// assert_eq!(SocketAddrV6::from(address), SocketAddrV6::new(address.ip, 443, 0, 0));
/// # Ok::<(), std::net::AddrParseError>(())
/// ```
#[derive(Debug, Copy, Clone, Eq, PartialEq, Hash)]
pub struct AddressV6 {
    /// The address.
    pub ip: Ipv6Addr,
    /// The port.
    pub port: u16,
}

impl From<SocketAddrV6> for AddressV6 {
    fn from(a: SocketAddrV6) -> Self {
        Self { ip: *a.ip(), port: a.port() }
    }
}

impl From<AddressV6> for SocketAddrV6 {
    fn from(a: AddressV6) -> Self {
        Self::new(a.ip, a.port, 0, 0)
    }
}

impl FromStr for AddressV6 {
    type Err = AddrParseError;
    fn from_str(s: &str) -> Result<Self, AddrParseError> {
        s.parse().map(SocketAddrV6::into)
    }
}

impl fmt::Display for AddressV6 {
    fn fmt(&self, f: &mut fmt::Formatter<'_>) -> fmt::Result {
        SocketAddrV6::from(*self).fmt(f)
    }
}

/// A server's preferred address.
#[derive(Debug, Copy, Clone, Eq, PartialEq)]
pub struct PreferredAddress {
    /// The IPv4 address, if offered.
    pub address_v4: Option<SocketAddrV4>,
    /// The IPv6 address, if offered.
    pub address_v6: Option<AddressV6>,
    /// The ID to use with it.
    pub connection_id: ConnectionId,
    /// The token of that ID.
    pub stateless_reset_token: ResetToken,
}

/// A reserved parameter, sent so that peers go on skipping unknown ones.
#[derive(Debug, Copy, Clone, Eq, PartialEq)]
pub struct ReservedTransportParameter {
    pub(crate) id: VarInt,
    pub(crate) payload: [u8; 16],
    pub(crate) payload_len: u8,
}

impl ReservedTransportParameter {
    /// The longest payload, in bytes.
    pub const MAX_PAYLOAD: usize = 16;

    /// Of an identifier with remainder 27 on division by 31, and a payload of at most 16 bytes. Refuses 7 otherwise.
    ///
    /// ```
    /// use yuthpram::{Error, ReservedTransportParameter};
    /// let reserved = ReservedTransportParameter::new((31u32 * 5 + 27).into(), b"cue")?;
    /// assert_eq!((reserved.id().into_inner(), reserved.payload()), (182, &b"cue"[..]));
    /// assert_eq!(ReservedTransportParameter::new(5u32.into(), b""), Err(Error::IllFormed));
    /// # Ok::<(), Error>(())
    /// ```
    pub fn new(id: VarInt, payload: &[u8]) -> Result<Self, Error> {
        if id.0 % 31 != 27 || Self::MAX_PAYLOAD < payload.len() {
            return Err(Error::IllFormed);
        }
        let mut r = Self { id, payload: [0; 16], payload_len: payload.len() as u8 };
        r.payload[..payload.len()].copy_from_slice(payload);
        Ok(r)
    }

    /// The identifier.
    pub fn id(&self) -> VarInt {
        self.id
    }

    /// The payload.
    pub fn payload(&self) -> &[u8] {
        &self.payload[..self.payload_len as usize]
    }
}

/// The version chosen for a connection, and those that the sender has available (RFC 9368 section 3).
#[derive(Copy, Clone, Eq, PartialEq, Hash)]
pub struct VersionInformation {
    pub(crate) chosen: u32,
    pub(crate) available: [u32; 16],
    pub(crate) available_len: u8,
}

impl VersionInformation {
    /// The most versions that can be available.
    pub const MAX_AVAILABLE: usize = 16;

    /// Of a chosen version, and at most 16 available ones. Refuses 7 if there are more. Whether a version is 0, and the chosen one available, is
    /// not looked at: reading and checking do that.
    ///
    /// ```
    /// use yuthpram::{Error, VersionInformation};
    /// let versions = VersionInformation::new(1, &[0x6b3343cf, 1])?;
    /// assert_eq!((versions.chosen(), versions.available()), (1, &[0x6b3343cf, 1][..]));
    /// assert_eq!(VersionInformation::new(1, &[1; 17]), Err(Error::IllFormed));
    /// # Ok::<(), Error>(())
    /// ```
    pub fn new(chosen: u32, available: &[u32]) -> Result<Self, Error> {
        if Self::MAX_AVAILABLE < available.len() {
            return Err(Error::IllFormed);
        }
        let mut v = Self { chosen, available: [0; 16], available_len: available.len() as u8 };
        v.available[..available.len()].copy_from_slice(available);
        Ok(v)
    }

    /// The chosen version.
    pub fn chosen(&self) -> u32 {
        self.chosen
    }

    /// The available versions.
    pub fn available(&self) -> &[u32] {
        &self.available[..self.available_len as usize]
    }
}

impl fmt::Debug for VersionInformation {
    fn fmt(&self, f: &mut fmt::Formatter<'_>) -> fmt::Result {
        f.debug_struct("VersionInformation").field("chosen", &self.chosen).field("available", &self.available()).finish()
    }
}
