//! Where the bytes of an extension go, and what is lost on a longer form than a number needs. quinn
//! counts none of it, so this is a plain reading of docs/SCOPE.md that shares nothing with the
//! library, and of quinn only how a number is decoded and how long its shortest form is.

use crate::{
    VarInt,
    coding::BufExt,
    inputs::{self, KNOWN, NUMBERS, Parameter},
};

/// The defaults of places 0 to 10, the first of the known ones.
const DEFAULTS: [u64; 11] = [0, 65527, 0, 0, 0, 0, 0, 0, 3, 25, 2];

/// The number at the front, and how many bytes its shortest form would have saved. Goes past it.
fn number(x: &mut &[u8]) -> Option<(u64, u64)> {
    let before = x.len();
    let number = x.get_var().ok()?;
    Some((number, (before - x.len() - VarInt(number).size()) as u64))
}

/// How many bytes the shortest form of the number at the front would have saved, if it can be read.
pub fn saved(mut x: &[u8]) -> Option<u64> {
    Some(number(&mut x)?.1)
}

/// Of an extension that is accepted, in bytes: the unknown parameters, those that restate a default, and what shortest forms would have saved in the
/// identifiers, lengths and numbers of the others; and how many known ones there are, of which none comes twice.
pub fn of(x: &[u8]) -> [u64; 4] {
    let [mut skipped, mut restated, mut saved, mut named] = [0; 4];
    for p in inputs::parameters(x) {
        let all = p.bytes.len() as u64;
        match KNOWN.iter().position(|id| *id == p.id) {
            None => skipped += all,
            Some(i) => {
                named += 1;
                let (number, long) = numbers(&p, i < NUMBERS);
                let is_default = DEFAULTS.get(i).is_some_and(|default| number == Some(*default));
                if is_default { restated += all } else { saved += long }
            }
        }
    }
    [skipped, restated, saved, named]
}

/// The number that the value is, if it is one; and what shortest forms would have saved in that, the identifier and the length.
fn numbers(p: &Parameter, is_number: bool) -> (Option<u64>, u64) {
    let mut rest = p.bytes;
    let (id, len) = (number(&mut rest).unwrap(), number(&mut rest).unwrap());
    let value = is_number.then(|| number(&mut rest).unwrap());
    (value.map(|v| v.0), id.1 + len.1 + value.map_or(0, |v| v.1))
}
