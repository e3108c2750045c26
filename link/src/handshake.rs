//! The transport parameter extension in a stream of TLS 1.3 handshake messages (RFC 8446 section 4, RFC 9001 section 8.2).

const CLIENT_HELLO: u8 = 1;
const ENCRYPTED_EXTENSIONS: u8 = 8;
const QUIC_TRANSPORT_PARAMETERS: usize = 0x39;

/// Takes handshake bytes as they come and keeps the first such extension.
#[derive(Default)]
pub struct Finder {
    pending: Vec<u8>,
    found: Option<Vec<u8>>,
}

impl Finder {
    pub fn take(&mut self, bytes: &[u8]) {
        if self.found.is_some() {
            return;
        }
        self.pending.extend_from_slice(bytes);
        while let Some((kind, body, rest)) = message(&self.pending) {
            let found = match kind {
                CLIENT_HELLO => client_hello(body),
                ENCRYPTED_EXTENSIONS => extension(body),
                _ => None,
            };
            if found.is_some() {
                self.found = found.map(<[u8]>::to_vec);
                return;
            }
            self.pending = rest.to_vec();
        }
    }

    pub fn found(&self) -> Option<&[u8]> {
        self.found.as_deref()
    }
}

/// A number of `n` bytes at the front, and what comes after it.
fn number(b: &[u8], n: usize) -> Option<(usize, &[u8])> {
    let x = b.get(..n)?.iter().fold(0, |x, &b| x << 8 | b as usize);
    Some((x, &b[n..]))
}

/// The bytes behind a length of `n` bytes, and what comes after them.
fn vector(b: &[u8], n: usize) -> Option<(&[u8], &[u8])> {
    let (len, b) = number(b, n)?;
    Some((b.get(..len)?, &b[len..]))
}

fn message(b: &[u8]) -> Option<(u8, &[u8], &[u8])> {
    let (kind, b) = number(b, 1)?;
    let (body, rest) = vector(b, 3)?;
    Some((kind as u8, body, rest))
}

fn client_hello(b: &[u8]) -> Option<&[u8]> {
    let b = b.get(2 + 32..)?; // version, random
    let (_session, b) = vector(b, 1)?;
    let (_suites, b) = vector(b, 2)?;
    let (_compression, b) = vector(b, 1)?;
    extension(b)
}

fn extension(b: &[u8]) -> Option<&[u8]> {
    let (mut all, _) = vector(b, 2)?;
    while let Some((kind, b)) = number(all, 2) {
        let (body, rest) = vector(b, 2)?;
        if kind == QUIC_TRANSPORT_PARAMETERS {
            return Some(body);
        }
        all = rest;
    }
    None
}

#[cfg(test)]
mod test {
    use super::*;

    #[test]
    fn found_in_pieces() {
        let server_hello = [2, 0, 0, 1, 0xff];
        let encrypted = [8, 0, 0, 13, 0, 11, 0, 16, 0, 0, 0, 0x39, 0, 3, 1, 1, 5];
        let all = [&server_hello[..], &encrypted].concat();
        let mut f = Finder::default();
        for (i, b) in all.iter().enumerate() {
            assert_eq!(f.found(), None, "{i}");
            f.take(&[*b]);
        }
        assert_eq!(f.found(), Some(&[1, 1, 5][..]));
    }
}
