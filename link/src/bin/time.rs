//! How much of a connection's set-up the transport parameters are: `time own|yuthpram CERTIFICATES`, built against quinn's own quinn-proto
//! or the patched one. It prints nanoseconds: a connection from nothing until both ends are connected, in memory and in one thread; and
//! the module's part of it at both ends, from the same records.
use link::{tls, watch};
use quinn_proto::crypto::{self, Session};
use quinn_proto::transport_parameters::TransportParameters;
use quinn_proto::{
    ClientConfig, ConnectError, Connection, ConnectionHandle, ConnectionIdGenerator, DatagramEvent, Endpoint, EndpointConfig,
    EndpointEvent, Event, RandomConnectionIdGenerator, ServerConfig, Side,
};
use rand::{rngs::StdRng, seq::SliceRandom, Rng, SeedableRng};
use std::hint::black_box;
use std::net::{Ipv4Addr, SocketAddr};
use std::path::Path;
use std::sync::Arc;
use std::time::{Duration, Instant};

const ROUNDS: usize = 250;
const CONNECTIONS: u32 = 4;
const CALLS: u32 = 500;

fn main() -> std::io::Result<()> {
    let words: Vec<String> = std::env::args().skip(1).collect();
    let [module, folder] = &words[..] else { panic!("own or yuthpram, and the certificates' folder") };
    let (proved, folder) = (module == "yuthpram", Path::new(folder));
    let mut pair = Pair::new(folder)?;
    let setup = least(|| {
        let took: Duration = (0..CONNECTIONS).map(|_| pair.connect().took).sum();
        took / CONNECTIONS
    });
    let c = pair.connect();
    let ends = [(c.client, Side::Client), (c.server, Side::Server)];

    let build = 2 * building(folder)?;
    let write = ends.iter().map(|(seen, _)| least(|| writing(&seen.sent))).sum::<u64>();
    let read = ends.iter().map(|(seen, side)| seen.reads * least(|| reading(*side, &seen.received_bytes))).sum::<u64>();
    let reads = ends.iter().map(|(seen, _)| seen.reads).sum::<u64>();
    let sizes = ends.each_ref().map(|(seen, _)| seen.sent_bytes.len());
    // quinn's own is the smaller of two numbers, and draws nothing.
    let (limit, draws) = if proved { (2 * issue_limit(), 2 * drawing()) } else { (0, 0) };
    let sum = build + write + read + limit;
    println!(
        "{module:9} {build:6} {draws:6} {write:6} {read:6} {limit:6} {sum:6} {setup:8} {:6.2} %   {reads} reads; {} and {} bytes",
        100.0 * sum as f64 / setup as f64,
        sizes[0],
        sizes[1]
    );
    Ok(())
}

/// Nanoseconds, of the round that was disturbed least.
fn least(mut round: impl FnMut() -> Duration) -> u64 {
    (0..ROUNDS).map(|_| round()).min().unwrap().as_nanos() as u64
}

fn each(mut call: impl FnMut()) -> Duration {
    let start = Instant::now();
    for _ in 0..CALLS {
        call();
    }
    start.elapsed() / CALLS
}

fn writing(params: &TransportParameters) -> Duration {
    each(|| {
        let mut out = Vec::new();
        black_box(params).write(&mut out);
        black_box(out);
    })
}

fn reading(side: Side, bytes: &[u8]) -> Duration {
    each(|| {
        black_box(TransportParameters::read(side, &mut std::io::Cursor::new(black_box(bytes)))).unwrap();
    })
}

fn issue_limit() -> u64 {
    let params = yuthpram::TransportParameters::default();
    least(|| {
        each(|| {
            black_box(black_box(&params).issue_cids_limit());
        })
    })
}

/// The part of building that draws: the reserved parameter and the order.
fn drawing() -> u64 {
    let mut rng = StdRng::from_entropy();
    least(|| {
        each(|| {
            let draw = rng.gen_range(0..=yuthpram::TransportParameters::MAX_DRAW);
            let payload: [u8; yuthpram::TransportParameters::MAX_DRAWN_PAYLOAD] = rng.gen();
            let len = rng.gen_range(0..=payload.len());
            let mut order: [u8; yuthpram::TransportParameters::PLACES] = std::array::from_fn(|i| i as u8);
            order.shuffle(&mut rng);
            black_box((draw, payload, len, order));
        })
    })
}

/// A client that goes no further than building its record: what is left when the two connection IDs that it draws are taken off.
fn building(folder: &Path) -> std::io::Result<u64> {
    struct Unwilling;
    impl crypto::ClientConfig for Unwilling {
        fn start_session(self: Arc<Self>, _: u32, _: &str, p: &TransportParameters) -> Result<Box<dyn Session>, ConnectError> {
            black_box(p);
            Err(ConnectError::EndpointStopping)
        }
    }
    let mut endpoint = Pair::new(folder)?.client;
    let config = ClientConfig::new(Arc::new(Unwilling));
    let whole = least(|| {
        each(|| {
            black_box(endpoint.connect(config.clone(), address(1), "localhost")).unwrap_err();
        })
    });
    let ids = least(|| {
        each(|| {
            black_box(config.clone());
            black_box(RandomConnectionIdGenerator::new(20).generate_cid());
            black_box(RandomConnectionIdGenerator::default().generate_cid());
        })
    });
    Ok(whole.saturating_sub(ids))
}

fn address(port: u16) -> SocketAddr {
    (Ipv4Addr::LOCALHOST, port).into()
}

/// A client and a server without a network between them.
struct Pair {
    client: Endpoint,
    server: Endpoint,
    config: ClientConfig,
}

struct Connected {
    took: Duration,
    client: Box<watch::Seen>,
    server: Box<watch::Seen>,
}

impl Pair {
    fn new(folder: &Path) -> std::io::Result<Self> {
        let config = Arc::new(EndpointConfig::default());
        let server = ServerConfig::with_crypto(Arc::new(watch::Watched(tls::server(folder)?)));
        Ok(Self {
            client: Endpoint::new(config.clone(), None),
            server: Endpoint::new(config, Some(Arc::new(server))),
            config: ClientConfig::new(Arc::new(watch::Watched(tls::client(folder)?))),
        })
    }

    /// One connection, until both ends are connected.
    fn connect(&mut self) -> Connected {
        let start = Instant::now();
        let (handle, connection) = self.client.connect(self.config.clone(), address(1), "localhost").unwrap();
        let mut client = End { handle, connection, connected: false };
        let mut server: Option<End> = None;
        let mut idle = false;
        while !(client.connected && server.as_ref().is_some_and(|s| s.connected)) {
            assert!(!idle, "the handshake stopped");
            idle = true;
            while let Some(t) = client.connection.poll_transmit(Instant::now(), 1) {
                idle = false;
                match self.server.handle(Instant::now(), address(2), None, None, t.contents[..].into()) {
                    Some((handle, DatagramEvent::NewConnection(connection))) => {
                        server = Some(End { handle, connection, connected: false });
                    }
                    Some((_, DatagramEvent::ConnectionEvent(e))) => server.as_mut().unwrap().connection.handle_event(e),
                    None => {}
                }
            }
            let server = server.as_mut().unwrap();
            server.settle(&mut self.server);
            while let Some(t) = server.connection.poll_transmit(Instant::now(), 1) {
                idle = false;
                if let Some((_, DatagramEvent::ConnectionEvent(e))) =
                    self.client.handle(Instant::now(), address(1), None, None, t.contents[..].into())
                {
                    client.connection.handle_event(e);
                }
            }
            client.settle(&mut self.client);
        }
        let took = start.elapsed();
        let server = server.unwrap();
        self.client.handle_event(client.handle, EndpointEvent::drained());
        self.server.handle_event(server.handle, EndpointEvent::drained());
        Connected { took, client: watch::seen(&client.connection), server: watch::seen(&server.connection) }
    }
}

struct End {
    handle: ConnectionHandle,
    connection: Connection,
    connected: bool,
}

impl End {
    fn settle(&mut self, endpoint: &mut Endpoint) {
        loop {
            while let Some(e) = self.connection.poll() {
                self.connected |= matches!(e, Event::Connected);
            }
            let Some(e) = self.connection.poll_endpoint_events() else { break };
            if let Some(e) = endpoint.handle_event(self.handle, e) {
                self.connection.handle_event(e);
            }
        }
    }
}
