//! An endpoint of quinn's over one UDP socket of the standard library, driven by turns.
use quinn_proto::{
    ClientConfig, ConnectError, Connection, ConnectionHandle, DatagramEvent, Endpoint, EndpointConfig, Event, ServerConfig, Transmit,
};
use std::collections::HashMap;
use std::io::{self, ErrorKind};
use std::net::{SocketAddr, UdpSocket};
use std::sync::Arc;
use std::time::{Duration, Instant};

/// What a node does about what happens on its connections.
pub trait Application {
    fn event(&mut self, handle: ConnectionHandle, connection: &mut Connection, event: Event);
    /// The handle may be given to another connection from now on.
    fn gone(&mut self, handle: ConnectionHandle);
}

pub struct Node {
    endpoint: Endpoint,
    socket: UdpSocket,
    connections: HashMap<ConnectionHandle, Connection>,
}

impl Node {
    pub fn new(address: SocketAddr, server: Option<ServerConfig>) -> io::Result<Self> {
        // Loopback only.
        assert!(address.ip().is_loopback());
        let config = EndpointConfig::default();
        Ok(Self {
            endpoint: Endpoint::new(Arc::new(config), server.map(Arc::new)),
            socket: UdpSocket::bind(address)?,
            connections: HashMap::new(),
        })
    }

    pub fn address(&self) -> io::Result<SocketAddr> {
        self.socket.local_addr()
    }

    pub fn connect(&mut self, config: ClientConfig, remote: SocketAddr) -> Result<ConnectionHandle, ConnectError> {
        let (handle, connection) = self.endpoint.connect(config, remote, "localhost")?;
        self.connections.insert(handle, connection);
        Ok(handle)
    }

    /// Sends what is due, waits for at most `limit` for something to happen, and handles it.
    pub fn turn(&mut self, application: &mut impl Application, limit: Duration) -> io::Result<()> {
        self.settle(application)?;
        let now = Instant::now();
        let due = self.connections.values_mut().filter_map(Connection::poll_timeout).min();
        let wait = due.map_or(limit, |t| t.saturating_duration_since(now).min(limit));
        self.receive(wait)?;
        let now = Instant::now();
        for c in self.connections.values_mut() {
            if c.poll_timeout().is_some_and(|t| t <= now) {
                c.handle_timeout(now);
            }
        }
        self.settle(application)
    }

    /// Hands on events and sends datagrams until there are none.
    fn settle(&mut self, application: &mut impl Application) -> io::Result<()> {
        let now = Instant::now();
        for (&handle, c) in &mut self.connections {
            loop {
                while let Some(e) = c.poll() {
                    application.event(handle, c, e);
                }
                let Some(e) = c.poll_endpoint_events() else { break };
                if let Some(e) = self.endpoint.handle_event(handle, e) {
                    c.handle_event(e);
                }
            }
            while let Some(t) = c.poll_transmit(now, 1) {
                send(&self.socket, &t)?;
            }
        }
        while let Some(t) = self.endpoint.poll_transmit() {
            send(&self.socket, &t)?;
        }
        self.connections.retain(|&handle, c| {
            if c.is_drained() {
                application.gone(handle);
            }
            !c.is_drained()
        });
        Ok(())
    }

    /// Everything that has arrived, waiting for the first.
    fn receive(&mut self, wait: Duration) -> io::Result<()> {
        let mut buffer = [0; 2048];
        self.socket.set_read_timeout(Some(wait.max(Duration::from_micros(100))))?;
        loop {
            match self.socket.recv_from(&mut buffer) {
                Ok((n, remote)) => self.datagram(remote, &buffer[..n]),
                Err(e) if matches!(e.kind(), ErrorKind::WouldBlock | ErrorKind::TimedOut | ErrorKind::Interrupted) => break,
                Err(e) => return Err(e),
            }
            self.socket.set_nonblocking(true)?;
        }
        self.socket.set_nonblocking(false)
    }

    fn datagram(&mut self, remote: SocketAddr, bytes: &[u8]) {
        match self.endpoint.handle(Instant::now(), remote, None, None, bytes.into()) {
            Some((handle, DatagramEvent::NewConnection(c))) => {
                self.connections.insert(handle, c);
            }
            Some((handle, DatagramEvent::ConnectionEvent(e))) => {
                if let Some(c) = self.connections.get_mut(&handle) {
                    c.handle_event(e);
                }
            }
            None => {}
        }
    }
}

/// A datagram that the socket has no room for is lost, as on any network.
fn send(socket: &UdpSocket, t: &Transmit) -> io::Result<()> {
    match socket.send_to(&t.contents, t.destination) {
        Err(e) if !matches!(e.kind(), ErrorKind::WouldBlock | ErrorKind::Interrupted | ErrorKind::OutOfMemory) => Err(e),
        _ => Ok(()),
    }
}
