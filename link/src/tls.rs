//! TLS for both ends, with the certificate that `run` made.
use std::path::Path;
use std::sync::Arc;
use std::{fs, io};

/// The protocols that the server answers to: its own, DNS over QUIC (kdig) and HTTP/3 (browsers).
const PROTOCOLS: [&str; 3] = ["echo", "doq", "h3"];

fn certificate(folder: &Path) -> io::Result<rustls::Certificate> {
    Ok(rustls::Certificate(fs::read(folder.join("certificate.der"))?))
}

pub fn server(folder: &Path) -> io::Result<Arc<rustls::ServerConfig>> {
    let (chain, key) = (vec![certificate(folder)?], rustls::PrivateKey(fs::read(folder.join("key.der"))?));
    let mut config = rustls::ServerConfig::builder()
        .with_safe_default_cipher_suites()
        .with_safe_default_kx_groups()
        .with_protocol_versions(&[&rustls::version::TLS13])
        .and_then(|c| c.with_no_client_auth().with_single_cert(chain, key))
        .map_err(io::Error::other)?;
    config.alpn_protocols = PROTOCOLS.iter().map(|p| p.as_bytes().to_vec()).collect();
    Ok(Arc::new(config))
}

pub fn client(folder: &Path) -> io::Result<Arc<rustls::ClientConfig>> {
    let mut roots = rustls::RootCertStore::empty();
    roots.add(&certificate(folder)?).map_err(io::Error::other)?;
    let mut config = rustls::ClientConfig::builder()
        .with_safe_default_cipher_suites()
        .with_safe_default_kx_groups()
        .with_protocol_versions(&[&rustls::version::TLS13])
        .map_err(io::Error::other)?
        .with_root_certificates(roots)
        .with_no_client_auth();
    config.alpn_protocols = vec![PROTOCOLS[0].into()];
    Ok(Arc::new(config))
}
