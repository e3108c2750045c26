//! Which kind of malformed an extension is: cut off, a second copy, a misfit. quinn tells no kinds,
//! so this is a plain reading of docs/SCOPE.md, Reading.

use crate::{coding::BufExt, inputs::KNOWN, versions};

/// The kinds, by number.
pub const KINDS: [(u8, &str); 3] = [(10, "10: cut off"), (11, "11: misfit"), (12, "12: second copy")];

/// For each parameter in turn: 10, then 12, then 11. None if nothing is malformed, or a preferred address with neither family comes before it.
pub fn kind(mut x: &[u8]) -> Option<u8> {
    let mut met = [false; KNOWN.len()];
    while !x.is_empty() {
        let Some((id, value, rest)) = whole(x) else { return Some(10) };
        if let Some(i) = KNOWN.iter().position(|known| *known == id) {
            if met[i] {
                return Some(12);
            }
            met[i] = true;
            match fits(id, value) {
                Some(true) => {}
                Some(false) => return Some(11),
                None => return None,
            }
        }
        x = rest;
    }
    None
}

/// What a refusal counts as against the Rust: all three kinds are Malformed.
pub fn by_quinn(code: u8) -> u8 {
    if KINDS.iter().any(|(kind, _)| *kind == code) { 1 } else { code }
}

/// The identifier and the value of the parameter at the front, and what is behind it, if it is whole.
pub fn whole(mut x: &[u8]) -> Option<(u64, &[u8], &[u8])> {
    let id = x.get_var().ok()?;
    let len = x.get_var().ok()?;
    let (value, rest) = x.split_at_checked(usize::try_from(len).ok()?)?;
    Some((id, value, rest))
}

/// Whether a value uses exactly its length; none for an address with neither family, which is found before the bytes left over.
fn fits(id: u64, value: &[u8]) -> Option<bool> {
    Some(match id {
        0x00 | 0x0f | 0x10 => value.len() <= 20,
        0x02 => value.len() == 16,
        0x0c | 0x2ab2 => value.is_empty(),
        versions::ID => versions::fits(value),
        0x0d => match address_len(value) {
            None => false,
            Some(_) if value[..24].iter().all(|b| *b == 0) => return None,
            Some(len) => len == value.len(),
        },
        _ => {
            let mut rest = value;
            rest.get_var().is_ok() && rest.is_empty()
        }
    })
}

/// How many bytes the parts of a preferred address take: two families, a length byte, an ID of up to 20 bytes, a token. None if they are not there.
fn address_len(value: &[u8]) -> Option<usize> {
    let id_len = usize::from(*value.get(24)?);
    let len = 24 + 1 + id_len + 16;
    (id_len <= 20 && len <= value.len()).then_some(len)
}
