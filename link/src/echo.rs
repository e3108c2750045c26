//! The two applications: a server that echoes what comes on a stream, and a client that sends something and wants it back.
use crate::node::Application;
use bytes::Bytes;
use link::watch;
use quinn_proto::{Connection, ConnectionHandle, Dir, Event, StreamEvent, StreamId, VarInt};
use std::collections::HashMap;
use std::time::Instant;
use yuthpram::TransportParameters;

/// No echo is longer.
const MOST: usize = 64 * 1024;

/// What one end of a connection knows of both records.
#[derive(Clone)]
pub struct Report {
    /// The record that quinn had sent.
    pub sent: TransportParameters,
    /// The extension as it left this end.
    pub sent_bytes: Vec<u8>,
    /// The peer's record as quinn sees it.
    pub seen: TransportParameters,
    /// The peer's extension as it arrived.
    pub received_bytes: Vec<u8>,
}

impl Report {
    pub fn of(connection: &Connection) -> Self {
        let s = watch::seen(connection);
        let seen = connection.crypto_session().transport_parameters().unwrap().expect("the handshake is done");
        Self { sent: (&s.sent).into(), sent_bytes: s.sent_bytes, seen: (&seen).into(), received_bytes: s.received_bytes }
    }
}

/// What the client numbered `index` sends: the number and something that depends on it.
pub fn message(index: u64) -> Vec<u8> {
    let tail = (0..992u64).map(|i| (index.wrapping_mul(31).wrapping_add(i * 7) >> 3) as u8);
    index.to_be_bytes().into_iter().chain(tail).collect()
}

/// What a stream has given so far; whether it has ended.
fn drain(connection: &mut Connection, id: StreamId, into: &mut Vec<u8>) -> bool {
    let mut stream = connection.recv_stream(id);
    let Ok(mut chunks) = stream.read(true) else { return false };
    let ended = loop {
        match chunks.next(MOST) {
            Ok(Some(c)) => into.extend_from_slice(&c.bytes),
            Ok(None) => break true,
            Err(_) => break false,
        }
    };
    let _ = chunks.finalize();
    ended
}

#[derive(Default)]
pub struct Server {
    streams: HashMap<(ConnectionHandle, StreamId), Vec<u8>>,
    /// By the number that the client sent.
    pub reports: HashMap<u64, Report>,
    says: Option<fn(&Connection, Option<String>)>,
}

impl Server {
    /// One that tells of every connection when it is made, and why when it ends.
    pub fn saying(says: fn(&Connection, Option<String>)) -> Self {
        Self { says: Some(says), ..Self::default() }
    }

    fn read(&mut self, handle: ConnectionHandle, connection: &mut Connection, id: StreamId) {
        let got = self.streams.entry((handle, id)).or_default();
        let ended = drain(connection, id, got);
        if MOST < got.len() {
            connection.close(Instant::now(), VarInt::from_u32(1), Bytes::from_static(b"too long"));
        } else if ended && id.dir() == Dir::Bi {
            let got = self.streams.remove(&(handle, id)).unwrap();
            // At most 64 KiB: the windows take it whole.
            let mut stream = connection.send_stream(id);
            if stream.write(&got).is_ok_and(|n| n == got.len()) {
                let _ = stream.finish();
            }
            if let Some(index) = got.get(..8) {
                self.reports.insert(u64::from_be_bytes(index.try_into().unwrap()), Report::of(connection));
            }
        }
    }
}

impl Application for Server {
    fn event(&mut self, handle: ConnectionHandle, connection: &mut Connection, event: Event) {
        match event {
            Event::Connected => self.says.into_iter().for_each(|says| says(connection, None)),
            Event::ConnectionLost { reason } => self.says.into_iter().for_each(|says| says(connection, Some(reason.to_string()))),
            Event::Stream(StreamEvent::Opened { dir }) => {
                while let Some(id) = connection.streams().accept(dir) {
                    self.read(handle, connection, id);
                }
            }
            Event::Stream(StreamEvent::Readable { id }) => self.read(handle, connection, id),
            _ => {}
        }
    }

    fn gone(&mut self, handle: ConnectionHandle) {
        self.streams.retain(|&(h, _), _| h != handle);
    }
}

#[derive(Default)]
pub struct Client {
    /// By connection: its number and what came back.
    pub open: HashMap<ConnectionHandle, (u64, Vec<u8>)>,
    pub reports: HashMap<u64, Report>,
    pub failures: Vec<String>,
}

impl Client {
    /// The connection has ended, well or not.
    fn end(&mut self, handle: ConnectionHandle, connection: &mut Connection, fault: Option<String>) {
        if let Some((index, _)) = self.open.remove(&handle) {
            match fault {
                None => drop(self.reports.insert(index, Report::of(connection))),
                Some(f) => self.failures.push(format!("connection {index}: {f}")),
            }
            connection.close(Instant::now(), VarInt::from_u32(0), Bytes::new());
        }
    }
}

impl Application for Client {
    fn event(&mut self, handle: ConnectionHandle, connection: &mut Connection, event: Event) {
        let Some((index, got)) = self.open.get_mut(&handle) else { return };
        match event {
            Event::Connected => {
                let id = connection.streams().open(Dir::Bi).expect("the server takes streams");
                let mut stream = connection.send_stream(id);
                let wrote = stream.write(&message(*index));
                assert!(wrote.is_ok_and(|n| n == 1000) && stream.finish().is_ok());
            }
            Event::Stream(StreamEvent::Readable { id }) if drain(connection, id, got) => {
                let fault = (*got != message(*index)).then(|| "another echo".into());
                self.end(handle, connection, fault);
            }
            Event::ConnectionLost { reason } => self.end(handle, connection, Some(reason.to_string())),
            _ => {}
        }
    }

    fn gone(&mut self, _: ConnectionHandle) {}
}
