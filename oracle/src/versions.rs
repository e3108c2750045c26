//! Version information (RFC 9368: the layout in section 3, what is refused in section 4). quinn
//! does not know it, and is asked for the rest alone; what it adds is a plain reading of
//! docs/SCOPE.md and the RFC that shares nothing with the library, and of quinn only how a number
//! is decoded.

use crate::{coding::BufExt, inputs, kinds};

pub const ID: u64 = 0x11;

/// Whether a value is a chosen version and up to 16 available ones, four bytes each.
pub fn fits(value: &[u8]) -> bool {
    !value.is_empty() && value.len() % 4 == 0 && value.len() / 4 <= 1 + 16
}

/// The value rules: no version is 0, and a server asks that the chosen one be among the available ones.
pub fn is_allowed(value: &[u8], is_server: bool) -> bool {
    let all: Vec<&[u8]> = value.chunks(4).collect();
    let is_available = all[1..].contains(&all[0]);
    !all.contains(&&[0; 4][..]) && (is_available || !is_server)
}

/// The parameter as it is written.
pub fn parameter(value: &[u8]) -> Vec<u8> {
    let mut out = Vec::new();
    inputs::put_number(&mut out, ID, 0);
    inputs::put_number(&mut out, value.len() as u64, 0);
    out.extend(value);
    out
}

/// An extension from which version information is struck, with its value; none if it names none. Where it is at fault, cut off, a second copy or of a value that
/// does not fit, an identifier that cannot be read stands in its place, and there is no value: quinn finds that, or what is wrong before it.
pub fn struck(x: &[u8]) -> Option<(Vec<u8>, Option<Vec<u8>>)> {
    // in every form that identifier has a byte of its value
    if !x.contains(&(ID as u8)) {
        return None;
    }
    let (mut kept, mut found) = (Vec::new(), None);
    let mut rest = x;
    while !rest.is_empty() {
        let id = (&mut &rest[..]).get_var().ok();
        let (value, behind) = kinds::whole(rest).map_or((None, &[][..]), |(_, value, behind)| (Some(value), behind));
        match value.filter(|value| found.is_none() && fits(value)) {
            _ if id != Some(ID) => kept.extend(&rest[..rest.len() - behind.len()]),
            Some(value) => found = Some(value.to_vec()),
            None => return Some(([&kept[..], &[0x40]].concat(), None)),
        }
        rest = behind;
    }
    found.map(|value| (kept, Some(value)))
}
