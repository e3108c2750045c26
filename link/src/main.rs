//! quinn on Yuthpram over plain UDP sockets, on loopback.
//!
//!     link connections CERTIFICATES [COUNT]     makes connections (10,000) and compares what both ends sent and saw
//!     link server CERTIFICATES PORT SECONDS     a server for other clients: says who connected, and what they sent in hexadecimal
//!     link client CERTIFICATES PORT             one connection to it
mod echo;
mod node;

use echo::{Client, Report, Server};
use link::{tls, watch};
use node::Node;
use quinn_proto::{crypto::rustls::HandshakeData, ClientConfig, Connection, ServerConfig};
use std::collections::{HashMap, HashSet};
use std::net::{Ipv4Addr, SocketAddr};
use std::path::Path;
use std::process::ExitCode;
use std::sync::atomic::{AtomicBool, Ordering};
use std::sync::Arc;
use std::time::{Duration, Instant};
use yuthpram::Side;

type Failure = Box<dyn std::error::Error + Send + Sync>;

/// Connections that are being made at a time.
const AT_ONCE: usize = 32;
/// No run lasts longer.
const LONGEST: Duration = Duration::from_secs(600);
const TURN: Duration = Duration::from_millis(50);

fn main() -> ExitCode {
    let words: Vec<String> = std::env::args().skip(1).collect();
    let words: Vec<&str> = words.iter().map(String::as_str).collect();
    let done = match words[..] {
        ["connections", folder] => connections(Path::new(folder), 10_000),
        ["connections", folder, count] => count.parse().map_err(Failure::from).and_then(|n| connections(Path::new(folder), n)),
        ["server", folder, port, seconds] => serve(Path::new(folder), port, seconds),
        ["client", folder, port] => client(Path::new(folder), port),
        _ => Err("connections FOLDER [COUNT], server FOLDER PORT SECONDS, or client FOLDER PORT".into()),
    };
    match done {
        Ok(()) => ExitCode::SUCCESS,
        Err(e) => {
            eprintln!("link: {e}");
            ExitCode::FAILURE
        }
    }
}

fn loopback(port: u16) -> SocketAddr {
    (Ipv4Addr::LOCALHOST, port).into()
}

fn server_config(folder: &Path) -> Result<ServerConfig, Failure> {
    Ok(ServerConfig::with_crypto(Arc::new(watch::Watched(tls::server(folder)?))))
}

fn client_config(folder: &Path) -> Result<ClientConfig, Failure> {
    Ok(ClientConfig::new(Arc::new(watch::Watched(tls::client(folder)?))))
}

/// Runs a client until `count` connections have been made, echoed and closed, or time is up.
fn run_client(folder: &Path, remote: SocketAddr, count: u64) -> Result<Client, Failure> {
    let (config, mut node, mut client) = (client_config(folder)?, Node::new(loopback(0), None)?, Client::default());
    let (start, mut next) = (Instant::now(), 0);
    while next < count || !client.open.is_empty() {
        if LONGEST < start.elapsed() {
            return Err(format!("time is up after {} connections", client.reports.len()).into());
        }
        while next < count && client.open.len() < AT_ONCE {
            client.open.insert(node.connect(config.clone(), remote)?, (next, Vec::new()));
            next += 1;
        }
        node.turn(&mut client, TURN)?;
    }
    Ok(client)
}

fn connections(folder: &Path, count: u64) -> Result<(), Failure> {
    let mut node = Node::new(loopback(0), Some(server_config(folder)?))?;
    let remote = node.address()?;
    let stop = Arc::new(AtomicBool::new(false));
    let stopped = stop.clone();
    let server = std::thread::spawn(move || -> Result<Server, std::io::Error> {
        let (mut server, start) = (Server::default(), Instant::now());
        while !stopped.load(Ordering::Relaxed) && start.elapsed() < LONGEST {
            node.turn(&mut server, TURN)?;
        }
        Ok(server)
    });
    let start = Instant::now();
    let client = run_client(folder, remote, count);
    let took = start.elapsed();
    stop.store(true, Ordering::Relaxed);
    let (server, client) = (server.join().expect("the server's thread ends")?, client?);
    if let Some(first) = client.failures.first() {
        return Err(format!("{} connections failed; {first}", client.failures.len()).into());
    }
    for index in 0..count {
        let (Some(c), Some(s)) = (client.reports.get(&index), server.reports.get(&index)) else {
            return Err(format!("connection {index} was not reported at both ends").into());
        };
        compare(c, s).map_err(|e| format!("connection {index}: {e}"))?;
    }
    println!("{count} connections made and echoed in {:.1} s, 0 failed", took.as_secs_f64());
    println!("{} records, as the peer saw them, equal those sent", 2 * count);
    drawn(&client.reports, &server.reports);
    Ok(())
}

/// What one end sent is what the other saw: records, and bytes.
fn compare(client: &Report, server: &Report) -> Result<(), String> {
    for (from, to, reader, name) in [(client, server, Side::Server, "client"), (server, client, Side::Client, "server")] {
        if from.sent != to.seen {
            return Err(format!("the {name}'s record: {:?} was sent, {:?} seen", from.sent, to.seen));
        }
        if from.sent_bytes.is_empty() || from.sent_bytes != to.received_bytes {
            return Err(format!("the {name}'s bytes: {:02x?} were sent, {:02x?} arrived", from.sent_bytes, to.received_bytes));
        }
        if yuthpram::TransportParameters::read(reader, &to.received_bytes) != Ok(from.sent) {
            return Err(format!("the {name}'s bytes say another record: {:02x?}", to.received_bytes));
        }
        if from.sent.write_order.is_none() || from.sent.grease_transport_parameter.is_none() {
            return Err(format!("the {name} drew no order or no reserved parameter"));
        }
    }
    Ok(())
}

/// How different what was drawn is.
fn drawn(client: &HashMap<u64, Report>, server: &HashMap<u64, Report>) {
    let sent = || client.values().chain(server.values()).map(|r| r.sent);
    let orders: HashSet<_> = sent().filter_map(|p| p.write_order).collect();
    let ids: HashSet<_> = sent().filter_map(|p| p.grease_transport_parameter).map(|r| r.id()).collect();
    let lengths: HashSet<_> = sent().filter_map(|p| p.grease_transport_parameter).map(|r| r.payload().len()).collect();
    println!(
        "{} different orders, {} different reserved identifiers, {} payload lengths were drawn",
        orders.len(),
        ids.len(),
        lengths.len()
    );
}

fn serve(folder: &Path, port: &str, seconds: &str) -> Result<(), Failure> {
    let mut node = Node::new(loopback(port.parse()?), Some(server_config(folder)?))?;
    let limit = Duration::from_secs(seconds.parse()?).min(LONGEST);
    let mut server = Server::saying(says);
    println!("listening on {} for {} s", node.address()?, limit.as_secs());
    let start = Instant::now();
    while start.elapsed() < limit {
        node.turn(&mut server, TURN)?;
    }
    Ok(())
}

fn says(connection: &Connection, lost: Option<String>) {
    let remote = connection.remote_address();
    match lost {
        Some(reason) => println!("{remote} closed: {reason}"),
        None => {
            let seen = watch::seen(connection);
            let data = seen.inner.and_then(|d| d.downcast::<HandshakeData>().ok());
            let protocol = data.and_then(|d| d.protocol).unwrap_or_default();
            let hex: String = seen.received_bytes.iter().map(|b| format!("{b:02x}")).collect();
            println!("{remote} connected, protocol {}", String::from_utf8_lossy(&protocol));
            println!("{remote} sent {hex}");
        }
    }
}

fn client(folder: &Path, port: &str) -> Result<(), Failure> {
    let client = run_client(folder, loopback(port.parse()?), 1)?;
    if let Some(f) = client.failures.first() {
        return Err(f.clone().into());
    }
    println!("connected and echoed; the server's record: {:?}", client.reports[&0].seen);
    Ok(())
}

#[cfg(test)]
mod test {
    use super::*;
    use yuthpram::{ReservedTransportParameter, TransportParameters};

    fn report(sent: TransportParameters, seen: TransportParameters) -> Report {
        let bytes = |p: TransportParameters| {
            let mut out = [0; TransportParameters::MAX_SIZE];
            let n = p.write(&mut out).unwrap();
            out[..n].to_vec()
        };
        Report { sent, sent_bytes: bytes(sent), seen, received_bytes: bytes(seen) }
    }

    /// The comparison sees a record, or bytes, that differ.
    #[test]
    fn differences_are_seen() {
        let drawn = |timeout: u32| TransportParameters {
            max_idle_timeout: timeout.into(),
            grease_transport_parameter: Some(ReservedTransportParameter::new(27u32.into(), b"cue").unwrap()),
            write_order: Some(std::array::from_fn(|i| 21 - i as u8)),
            ..Default::default()
        };
        let (a, b) = (drawn(1), drawn(2));
        assert_eq!(compare(&report(a, b), &report(b, a)), Ok(()));
        assert!(compare(&report(a, b), &report(b, b)).unwrap_err().contains("client's record"));
        assert!(compare(&report(a, a), &report(b, a)).unwrap_err().contains("server's record"));
        let mut cut = report(b, a);
        cut.received_bytes.pop();
        assert!(compare(&report(a, b), &cut).unwrap_err().contains("client's bytes"));
        let plain = TransportParameters { write_order: None, ..a };
        assert!(compare(&report(plain, b), &report(b, plain)).unwrap_err().contains("drew no order"));
    }
}
