//! What the link's programs share: certificates, and sessions that keep what passed through them.
pub mod handshake;
pub mod tls;
pub mod watch;
