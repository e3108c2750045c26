//! TLS sessions that keep what passed through them: the record to send, and both extensions as they travelled.
use crate::handshake::Finder;
use quinn_proto::crypto::{self, ExportKeyingMaterialError, HeaderKey, KeyPair, Keys, PacketKey, Session, UnsupportedVersion};
use quinn_proto::transport_parameters::TransportParameters;
use quinn_proto::{ConnectError, Connection, ConnectionId, Side, TransportError};
use std::any::Any;
use std::cell::Cell;
use std::sync::Arc;

/// What passed through a session.
pub struct Seen {
    /// The record that quinn handed over to be sent.
    pub sent: TransportParameters,
    /// The extension within what was sent.
    pub sent_bytes: Vec<u8>,
    /// The extension within what was received.
    pub received_bytes: Vec<u8>,
    /// How often quinn read the peer's extension.
    pub reads: u64,
    /// What the session itself tells.
    pub inner: Option<Box<dyn Any>>,
}

/// What passed through the session of a connection whose TLS is watched.
pub fn seen(connection: &Connection) -> Box<Seen> {
    connection.crypto_session().handshake_data().and_then(|d| d.downcast().ok()).expect("the session is watched")
}

/// A TLS configuration whose sessions are watched.
pub struct Watched<C>(pub Arc<C>);

impl crypto::ClientConfig for Watched<rustls::ClientConfig> {
    fn start_session(
        self: Arc<Self>,
        version: u32,
        server_name: &str,
        params: &TransportParameters,
    ) -> Result<Box<dyn Session>, ConnectError> {
        Ok(WatchedSession::boxed(crypto::ClientConfig::start_session(self.0.clone(), version, server_name, params)?, params))
    }
}

impl crypto::ServerConfig for Watched<rustls::ServerConfig> {
    fn initial_keys(&self, version: u32, dst_cid: &ConnectionId, side: Side) -> Result<Keys, UnsupportedVersion> {
        self.0.initial_keys(version, dst_cid, side)
    }

    fn retry_tag(&self, version: u32, orig_dst_cid: &ConnectionId, packet: &[u8]) -> [u8; 16] {
        self.0.retry_tag(version, orig_dst_cid, packet)
    }

    fn start_session(self: Arc<Self>, version: u32, params: &TransportParameters) -> Box<dyn Session> {
        WatchedSession::boxed(crypto::ServerConfig::start_session(self.0.clone(), version, params), params)
    }
}

struct WatchedSession {
    session: Box<dyn Session>,
    params: TransportParameters,
    written: Finder,
    read: Finder,
    reads: Cell<u64>,
}

impl WatchedSession {
    fn boxed(session: Box<dyn Session>, params: &TransportParameters) -> Box<dyn Session> {
        Box::new(Self { session, params: *params, written: Finder::default(), read: Finder::default(), reads: Cell::new(0) })
    }
}

impl Session for WatchedSession {
    fn handshake_data(&self) -> Option<Box<dyn Any>> {
        Some(Box::new(Seen {
            sent: self.params,
            sent_bytes: self.written.found().unwrap_or_default().to_vec(),
            received_bytes: self.read.found().unwrap_or_default().to_vec(),
            reads: self.reads.get(),
            inner: self.session.handshake_data(),
        }))
    }

    fn read_handshake(&mut self, buf: &[u8]) -> Result<bool, TransportError> {
        self.read.take(buf);
        self.session.read_handshake(buf)
    }

    fn write_handshake(&mut self, buf: &mut Vec<u8>) -> Option<Keys> {
        let before = buf.len();
        let keys = self.session.write_handshake(buf);
        self.written.take(&buf[before..]);
        keys
    }

    fn transport_parameters(&self) -> Result<Option<TransportParameters>, TransportError> {
        self.reads.set(self.reads.get() + 1);
        self.session.transport_parameters()
    }

    fn initial_keys(&self, dst_cid: &ConnectionId, side: Side) -> Keys {
        self.session.initial_keys(dst_cid, side)
    }

    fn peer_identity(&self) -> Option<Box<dyn Any>> {
        self.session.peer_identity()
    }

    fn early_crypto(&self) -> Option<(Box<dyn HeaderKey>, Box<dyn PacketKey>)> {
        self.session.early_crypto()
    }

    fn early_data_accepted(&self) -> Option<bool> {
        self.session.early_data_accepted()
    }

    fn is_handshaking(&self) -> bool {
        self.session.is_handshaking()
    }

    fn next_1rtt_keys(&mut self) -> Option<KeyPair<Box<dyn PacketKey>>> {
        self.session.next_1rtt_keys()
    }

    fn is_valid_retry(&self, orig_dst_cid: &ConnectionId, header: &[u8], payload: &[u8]) -> bool {
        self.session.is_valid_retry(orig_dst_cid, header, payload)
    }

    fn export_keying_material(&self, output: &mut [u8], label: &[u8], context: &[u8]) -> Result<(), ExportKeyingMaterialError> {
        self.session.export_keying_material(output, label, context)
    }
}
