//! Proved QUIC transport parameters, for a Rust process: safe types with quinn's names over the C interface of the static library.
//! What each operation does is proved, for every input, in the library; this crate only moves bytes across.
//!
//! ```
//! use yuthpram::{Side, TransportParameters};
//!
//! let params = TransportParameters::read(Side::Client, &[0x01, 0x04, 0x80, 0x00, 0x75, 0x30])?;
//! assert_eq!(params.max_idle_timeout.into_inner(), 30_000);
//!
//! let mut out = [0; TransportParameters::MAX_SIZE];
//! let n = params.write(&mut out)?;
//! assert_eq!(&out[..n], &[0x01, 0x04, 0x80, 0x00, 0x75, 0x30]);
//! # Ok::<(), yuthpram::Error>(())
//! ```
#![warn(missing_docs)]

mod error;
mod ffi;
mod image;
mod types;

pub use error::Error;
pub use types::{
    AddressV6, ConnectionId, Decoded, PreferredAddress, ReservedTransportParameter, ResetToken, SeenConnectionIds, Side, VarInt,
    VersionInformation,
};

/// What building takes besides a connection ID and drawn values: quinn's configuration, as `TransportParameters::new` uses it.
/// The defaults are quinn's, of a client.
///
/// ```
/// use yuthpram::Settings;
/// let of_server = Settings { server_migration: Some(true), ..Settings::default() };
/// assert_eq!(of_server.max_udp_payload_size, 1472);
/// ```
#[derive(Debug, Copy, Clone)]
pub struct Settings {
    /// Streams that the peer may open.
    pub max_concurrent_bidi_streams: u64,
    /// Streams that the peer may open.
    pub max_concurrent_uni_streams: u64,
    /// The connection's receive window.
    pub receive_window: u64,
    /// A stream's receive window.
    pub stream_receive_window: u64,
    /// Milliseconds.
    pub max_idle_timeout: Option<u64>,
    /// The largest UDP payload that is taken.
    pub max_udp_payload_size: u64,
    /// Whether the fixed bit may be greased.
    pub grease_quic_bit: bool,
    /// Whether and how many bytes of datagrams are buffered.
    pub datagram_receive_buffer_size: Option<u64>,
    /// The length of the IDs that the generator makes.
    pub cid_len: u64,
    /// Of a server: whether clients may migrate.
    pub server_migration: Option<bool>,
}

impl Default for Settings {
    fn default() -> Self {
        // 100 milliseconds at 12,500,000 bytes a second
        const STREAM_RECEIVE_WINDOW: u64 = 1_250_000;
        Self {
            max_concurrent_bidi_streams: 100,
            max_concurrent_uni_streams: 100,
            receive_window: VarInt::MAX.into_inner(),
            stream_receive_window: STREAM_RECEIVE_WINDOW,
            max_idle_timeout: Some(30_000),
            max_udp_payload_size: 1472,
            grease_quic_bit: true,
            datagram_receive_buffer_size: Some(STREAM_RECEIVE_WINDOW),
            cid_len: 8,
            server_migration: None,
        }
    }
}

/// Transport parameters, to send or as received. Two are equal if they say the same to a peer: the order of writing and the reserved
/// parameter, which a peer skips, are left out.
///
/// ```
/// use yuthpram::{ReservedTransportParameter, TransportParameters};
/// let plain = TransportParameters::default();
/// let mut greased = plain;
/// greased.grease_transport_parameter = Some(ReservedTransportParameter::new(27u32.into(), b"cue")?);
/// greased.write_order = Some(std::array::from_fn(|i| 21 - i as u8));
/// assert_eq!(greased, plain);
/// greased.grease_quic_bit = true;
/// assert_ne!(greased, plain);
/// # Ok::<(), yuthpram::Error>(())
/// ```
#[derive(Debug, Copy, Clone, Eq)]
#[allow(missing_docs)]
pub struct TransportParameters {
    pub max_idle_timeout: VarInt,
    pub max_udp_payload_size: VarInt,
    pub initial_max_data: VarInt,
    pub initial_max_stream_data_bidi_local: VarInt,
    pub initial_max_stream_data_bidi_remote: VarInt,
    pub initial_max_stream_data_uni: VarInt,
    pub initial_max_streams_bidi: VarInt,
    pub initial_max_streams_uni: VarInt,
    pub ack_delay_exponent: VarInt,
    pub max_ack_delay: VarInt,
    pub active_connection_id_limit: VarInt,
    pub disable_active_migration: bool,
    pub max_datagram_frame_size: Option<VarInt>,
    pub initial_src_cid: Option<ConnectionId>,
    pub grease_quic_bit: bool,
    pub min_ack_delay: Option<VarInt>,
    pub original_dst_cid: Option<ConnectionId>,
    pub retry_src_cid: Option<ConnectionId>,
    pub stateless_reset_token: Option<ResetToken>,
    pub preferred_address: Option<PreferredAddress>,
    pub version_information: Option<VersionInformation>,
    pub grease_transport_parameter: Option<ReservedTransportParameter>,
    pub write_order: Option<[u8; TransportParameters::PLACES]>,
}

impl PartialEq for TransportParameters {
    fn eq(&self, other: &Self) -> bool {
        let said = |p: &Self| image::image_of(&Self { grease_transport_parameter: None, write_order: None, ..*p });
        types::differing_bits(&said(self), &said(other)) == 0
    }
}

impl Default for TransportParameters {
    fn default() -> Self {
        let mut image = [0; ffi::RECORD_SIZE];
        let number = unsafe { ffi::yuthpram_default(image.as_mut_ptr(), image.len()) };
        debug_assert_eq!(number, 0);
        image::record_of(&image)
    }
}

impl TransportParameters {
    /// The longest extension, in bytes.
    pub const MAX_SIZE: usize = 385;
    /// How many places an order has.
    pub const PLACES: usize = 22;
    /// The largest draw that building takes.
    pub const MAX_DRAW: u64 = (1 << 62) - 28;
    /// The longest reserved payload that building takes, in bytes.
    pub const MAX_DRAWN_PAYLOAD: usize = 15;

    /// Reads an extension for a side, the one that **reads**: a server reads what a client sent by `Side::Server`. Gives the record, or
    /// the first fault.
    ///
    /// ```
    /// use yuthpram::{Error, Side, TransportParameters};
    /// assert_eq!(TransportParameters::read(Side::Client, &[]), Ok(TransportParameters::default()));
    /// // original_dst_cid: only a server sends it, so only a client may read it.
    /// assert!(TransportParameters::read(Side::Client, &[0x00, 0x00]).is_ok());
    /// assert_eq!(TransportParameters::read(Side::Server, &[0x00, 0x00]), Err(Error::IllegalValue));
    /// // grease_quic_bit; a second copy is refused, as that of every known parameter is.
    /// assert!(TransportParameters::read(Side::Client, &[0x6a, 0xb2, 0x00]).is_ok());
    /// assert_eq!(TransportParameters::read(Side::Client, &[0x6a, 0xb2, 0x00, 0x6a, 0xb2, 0x00]), Err(Error::SecondCopy));
    /// // A message that is cut off is told from a wrong sender.
    /// assert_eq!(TransportParameters::read(Side::Client, &[0x6a, 0xb2]), Err(Error::Cut));
    /// assert_eq!(TransportParameters::read(Side::Client, &[0x6a, 0xb2, 0x01, 0x00]), Err(Error::Misfit));
    /// // Version information: a server asks that the chosen version be available, a client does not.
    /// let versions = [0x11, 0x08, 0x00, 0x00, 0x00, 0x01, 0x6b, 0x33, 0x43, 0xcf];
    /// let read = TransportParameters::read(Side::Client, &versions)?;
    /// assert_eq!(read.version_information.unwrap().available(), [0x6b3343cf]);
    /// assert_eq!(TransportParameters::read(Side::Server, &versions), Err(Error::IllegalValue));
    /// // What is accepted is accepted in every order of its parameters, with the same record.
    /// let (grease, idle) = ([0x6a, 0xb2, 0x00], [0x01, 0x01, 0x05]);
    /// let read = TransportParameters::read(Side::Client, &[grease, idle].concat())?;
    /// assert_eq!(read.max_idle_timeout, 5u32.into());
    /// assert_eq!(TransportParameters::read(Side::Client, &[idle, grease].concat())?, read);
    /// # Ok::<(), yuthpram::Error>(())
    /// ```
    pub fn read(side: Side, src: &[u8]) -> Result<Self, Error> {
        let mut image = [0; ffi::RECORD_SIZE];
        Error::of(unsafe { ffi::yuthpram_read(side.byte(), src.as_ptr(), src.len(), image.as_mut_ptr(), image.len()) })?;
        Ok(image::record_of(&image))
    }

    /// Writes the extension to the front of `out`, in `write_order` or catalogue order, and gives its length.
    ///
    /// ```
    /// use yuthpram::{Error, Side, TransportParameters};
    /// let mut params = TransportParameters::default();
    /// params.grease_quic_bit = true;
    /// let mut out = [0; 8];
    /// assert_eq!(params.write(&mut out)?, 3);
    /// assert_eq!(out[..3], [0x6a, 0xb2, 0x00]);
    /// assert_eq!(params.write(&mut out[..2]), Err(Error::BufferTooShort));
    /// # Ok::<(), yuthpram::Error>(())
    /// ```
    pub fn write(&self, out: &mut [u8]) -> Result<usize, Error> {
        let (image, mut count) = (image::image_of(self), 0);
        Error::of(unsafe { ffi::yuthpram_write(image.as_ptr(), image.len(), out.as_mut_ptr(), out.len(), &mut count) })?;
        Ok(count)
    }

    /// How many bytes `write` stores of the record, whatever its order: for a packer that keeps room before the order is drawn. `write_order`
    /// is not looked at. At most `MAX_SIZE`; no record of these types is refused.
    ///
    /// ```
    /// use yuthpram::TransportParameters;
    /// let mut params = TransportParameters { grease_quic_bit: true, ..Default::default() };
    /// let mut room = vec![0; params.length()];
    /// params.write_order = Some(std::array::from_fn(|i| 21 - i as u8));
    /// assert_eq!(params.write(&mut room)?, room.len());
    /// assert_eq!(room, [0x6a, 0xb2, 0x00]);
    /// # Ok::<(), yuthpram::Error>(())
    /// ```
    pub fn length(&self) -> usize {
        let (image, mut count) = (image::image_of(self), 0);
        let number = unsafe { ffi::yuthpram_length(image.as_ptr(), image.len(), &mut count) };
        debug_assert_eq!(number, 0);
        count
    }

    /// Checks the record for a side, the one that **reads** it, without reading or writing it: a server that checks what it is about to
    /// send asks `Side::Client`.
    ///
    /// ```
    /// use yuthpram::{Error, ResetToken, Side, TransportParameters};
    /// let of_server = TransportParameters { stateless_reset_token: Some(ResetToken::from([7; 16])), ..Default::default() };
    /// assert_eq!(of_server.check(Side::Client), Ok(()));
    /// assert_eq!(of_server.check(Side::Server), Err(Error::IllegalValue));
    /// ```
    pub fn check(&self, side: Side) -> Result<(), Error> {
        let image = image::image_of(self);
        Error::of(unsafe { ffi::yuthpram_check(image.as_ptr(), image.len(), side.byte()) })
    }

    /// Builds a record to send: `draw` gives the reserved identifier, `payload` (at most 15 bytes) goes with it. It has no version information: that
    /// is set in what was built.
    ///
    /// ```
    /// use yuthpram::{ConnectionId, Settings, TransportParameters};
    /// let order: Vec<u8> = (0..22).rev().collect();
    /// let params = TransportParameters::new(&Settings::default(), ConnectionId::new(&[1, 2, 3])?, 1000, b"cue", &order)?;
    /// assert_eq!(params.active_connection_id_limit.into_inner(), 5);
    /// assert_eq!(params.grease_transport_parameter.unwrap().id().into_inner(), 31 * 32 + 27);
    /// # Ok::<(), yuthpram::Error>(())
    /// ```
    pub fn new(settings: &Settings, initial_src_cid: ConnectionId, draw: u64, payload: &[u8], order: &[u8]) -> Result<Self, Error> {
        let s = settings;
        let numbers: [u64; ffi::SETTINGS] = [
            s.max_concurrent_bidi_streams,
            s.max_concurrent_uni_streams,
            s.receive_window,
            s.stream_receive_window,
            s.max_idle_timeout.unwrap_or(0),
            s.max_udp_payload_size,
            s.grease_quic_bit as u64,
            s.datagram_receive_buffer_size.is_some() as u64,
            s.datagram_receive_buffer_size.unwrap_or(0),
            s.cid_len,
            s.server_migration.is_some() as u64,
            s.server_migration.unwrap_or(true) as u64,
        ];
        let (cid, mut image) = (initial_src_cid.image(), [0; ffi::RECORD_SIZE]);
        Error::of(unsafe {
            ffi::yuthpram_new(
                numbers.as_ptr(),
                numbers.len(),
                cid.as_ptr(),
                cid.len(),
                draw,
                payload.as_ptr(),
                payload.len(),
                order.as_ptr(),
                order.len(),
                image.as_mut_ptr(),
                image.len(),
            )
        })?;
        Ok(image::record_of(&image))
    }

    /// Checks that these parameters are legal when resuming from certain cached parameters. Called on the record that the server sent
    /// now; `cached` is the remembered one.
    ///
    /// ```
    /// use yuthpram::{Error, TransportParameters};
    /// let of_limit = |n: u32| TransportParameters { initial_max_data: n.into(), ..Default::default() };
    /// let (fresh, remembered) = (of_limit(5), of_limit(8));
    /// assert_eq!(fresh.validate_resumption_from(&remembered), Err(Error::LimitReduced));
    /// assert_eq!(remembered.validate_resumption_from(&fresh), Ok(()));
    /// ```
    ///
    /// An absent max_datagram_frame_size counts as 0, its default (RFC 9221 section 3), where quinn has it below 0. The two records differ all the same:
    ///
    /// ```
    /// # use yuthpram::TransportParameters;
    /// let of_size = |size| TransportParameters { max_datagram_frame_size: size, ..Default::default() };
    /// let (fresh, remembered) = (of_size(None), of_size(Some(0u32.into())));
    /// assert_eq!(fresh.validate_resumption_from(&remembered), Ok(()));
    /// assert_ne!(fresh, remembered);
    /// ```
    pub fn validate_resumption_from(&self, cached: &Self) -> Result<(), Error> {
        let (image, cached) = (image::image_of(self), image::image_of(cached));
        Error::of(unsafe { ffi::yuthpram_validate_resumption_from(image.as_ptr(), image.len(), cached.as_ptr(), cached.len()) })
    }

    /// Maximum number of connection IDs to issue to this peer.
    ///
    /// ```
    /// use yuthpram::TransportParameters;
    /// assert_eq!(TransportParameters::default().issue_cids_limit(), 2);
    /// ```
    pub fn issue_cids_limit(&self) -> u64 {
        let (image, mut limit) = (image::image_of(self), 0);
        let number = unsafe { ffi::yuthpram_issue_cids_limit(image.as_ptr(), image.len(), &mut limit) };
        debug_assert_eq!(number, 0);
        limit
    }

    /// Whether the peer that sent these parameters is the one that the packets came from (RFC 9000 section 7.3), for a side, which is ours. What
    /// a server looks at is `initial_src_cid` alone. Whether the parameters are legal is not looked at: reading does that.
    ///
    /// ```
    /// use yuthpram::{ConnectionId, Error, SeenConnectionIds, Side, TransportParameters};
    /// let (server, first, relay) = (ConnectionId::new(&[1, 2, 3])?, ConnectionId::new(&[4; 8])?, ConnectionId::new(&[5])?);
    /// let mut params = TransportParameters { initial_src_cid: Some(server), original_dst_cid: Some(first), ..Default::default() };
    /// let mut seen = SeenConnectionIds { initial_src_cid: server, original_dst_cid: first, retry_src_cid: None };
    /// assert_eq!(params.authenticate_cids(Side::Client, &seen), Ok(()));
    /// // A relay sent Retry: its ID is needed, and it is the one seen.
    /// seen.retry_src_cid = Some(relay);
    /// assert_eq!(params.authenticate_cids(Side::Client, &seen), Err(Error::CidAbsent));
    /// params.retry_src_cid = Some(relay);
    /// assert_eq!(params.authenticate_cids(Side::Client, &seen), Ok(()));
    /// // Without Retry there is no such ID.
    /// seen.retry_src_cid = None;
    /// assert_eq!(params.authenticate_cids(Side::Client, &seen), Err(Error::CidMismatch));
    /// # Ok::<(), Error>(())
    /// ```
    pub fn authenticate_cids(&self, side: Side, seen: &SeenConnectionIds) -> Result<(), Error> {
        let image = image::image_of(self);
        let (initial, original) = (seen.initial_src_cid.image(), seen.original_dst_cid.image());
        let retry = seen.retry_src_cid.map_or([0; ffi::CID_SIZE], |c| c.image());
        Error::of(unsafe {
            ffi::yuthpram_authenticate_cids(
                side.byte(),
                image.as_ptr(),
                image.len(),
                initial.as_ptr(),
                initial.len(),
                original.as_ptr(),
                original.len(),
                seen.retry_src_cid.is_some() as u8,
                retry.as_ptr(),
                retry.len(),
            )
        })
    }

    pub(crate) fn numbers(&self) -> [VarInt; 11] {
        [
            self.max_idle_timeout,
            self.max_udp_payload_size,
            self.initial_max_data,
            self.initial_max_stream_data_bidi_local,
            self.initial_max_stream_data_bidi_remote,
            self.initial_max_stream_data_uni,
            self.initial_max_streams_bidi,
            self.initial_max_streams_uni,
            self.ack_delay_exponent,
            self.max_ack_delay,
            self.active_connection_id_limit,
        ]
    }

    pub(crate) fn with_numbers(n: [VarInt; 11]) -> Self {
        Self {
            max_idle_timeout: n[0],
            max_udp_payload_size: n[1],
            initial_max_data: n[2],
            initial_max_stream_data_bidi_local: n[3],
            initial_max_stream_data_bidi_remote: n[4],
            initial_max_stream_data_uni: n[5],
            initial_max_streams_bidi: n[6],
            initial_max_streams_uni: n[7],
            ack_delay_exponent: n[8],
            max_ack_delay: n[9],
            active_connection_id_limit: n[10],
            disable_active_migration: false,
            max_datagram_frame_size: None,
            initial_src_cid: None,
            grease_quic_bit: false,
            min_ack_delay: None,
            original_dst_cid: None,
            retry_src_cid: None,
            stateless_reset_token: None,
            preferred_address: None,
            version_information: None,
            grease_transport_parameter: None,
            write_order: None,
        }
    }
}

/// Whether an order is a permutation of 0 to 21.
///
/// ```
/// use yuthpram::{check_order, Error};
/// let order: Vec<u8> = (0..22).rev().collect();
/// assert_eq!(check_order(&order), Ok(()));
/// assert_eq!(check_order(&order[1..]), Err(Error::InvalidOrder));
/// ```
pub fn check_order(order: &[u8]) -> Result<(), Error> {
    Error::of(unsafe { ffi::yuthpram_check_order(order.as_ptr(), order.len()) })
}

/// What is wrong with an order of any length: the position, from 0, of the first entry that is over 21 or repeats an earlier one; the order's
/// length if entries are only missing. `None` exactly for a permutation of 0 to 21, which `check_order` accepts.
///
/// ```
/// use yuthpram::order_fault;
/// let mut order: Vec<u8> = (0..22).rev().collect();
/// assert_eq!(order_fault(&order), None);
/// assert_eq!(order_fault(&order[..5]), Some(5));
/// order[7] = order[3];
/// assert_eq!(order_fault(&order), Some(7));
/// order[4] = 22;
/// assert_eq!(order_fault(&order), Some(4));
/// ```
pub fn order_fault(order: &[u8]) -> Option<usize> {
    let mut position = 0;
    let number = unsafe { ffi::yuthpram_order_fault(order.as_ptr(), order.len(), &mut position) };
    (number != 0).then_some(position)
}

/// Reads an extension for a side, the one that **reads** it, and writes its one shortest form to the front of `out`.
///
/// ```
/// use yuthpram::{tidy, Side};
/// let mut out = [0; 16];
/// let n = tidy(Side::Client, &[0x40, 0x01, 0x40, 0x02, 0x40, 0x05, 0x0e, 0x01, 0x02], &mut out)?;
/// assert_eq!(out[..n], [0x01, 0x01, 0x05]);
/// # Ok::<(), yuthpram::Error>(())
/// ```
pub fn tidy(side: Side, src: &[u8], out: &mut [u8]) -> Result<usize, Error> {
    let mut count = 0;
    Error::of(unsafe { ffi::yuthpram_tidy(side.byte(), src.as_ptr(), src.len(), out.as_mut_ptr(), out.len(), &mut count) })?;
    Ok(count)
}

/// Where the bytes of an extension go. The first four are bytes, and together they make its length.
#[derive(Debug, Copy, Clone, Eq, PartialEq)]
#[repr(C)]
pub struct Counts {
    /// The tidied length: what `tidy` stores.
    pub tidied: usize,
    /// Whole parameters that are unknown.
    pub skipped: usize,
    /// Whole parameters of catalogue places 0 to 10 that restate a default, in whatever form.
    pub restated: usize,
    /// What shortest forms would have saved in the identifiers, lengths and numbers of the others.
    pub saved: usize,
    /// How many different known parameters there are, with those that restate a default.
    pub named: usize,
}

/// Reports where the bytes of an extension go, for a side, the one that **reads** it. Refuses as reading does. What is accepted has the same counts in
/// every order of its whole parameters.
///
/// ```
/// use yuthpram::{report, tidy, Counts, Side};
/// // max_idle_timeout 30,000, which four bytes hold, in eight; active_connection_id_limit at its default, 2; an unknown parameter.
/// let idle = [0x01, 0x08, 0xc0, 0x00, 0x00, 0x00, 0x00, 0x00, 0x75, 0x30];
/// let (limit, unknown) = ([0x0e, 0x01, 0x02], [0x1b, 0x02, 0xaa, 0xbb]);
/// let src = [&idle[..], &limit, &unknown].concat();
/// let counts = report(Side::Client, &src)?;
/// assert_eq!(counts, Counts { tidied: 6, skipped: 4, restated: 3, saved: 4, named: 2 });
/// assert_eq!(counts.tidied + counts.skipped + counts.restated + counts.saved, src.len());
/// assert_eq!(counts.tidied, tidy(Side::Client, &src, &mut [0; 6])?);
/// # Ok::<(), yuthpram::Error>(())
/// ```
pub fn report(side: Side, src: &[u8]) -> Result<Counts, Error> {
    let mut counts = Counts { tidied: 0, skipped: 0, restated: 0, saved: 0, named: 0 };
    Error::of(unsafe { ffi::yuthpram_report(side.byte(), src.as_ptr(), src.len(), &mut counts) })?;
    Ok(counts)
}
