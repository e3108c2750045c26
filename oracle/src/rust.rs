//! quinn's answers.

use std::panic::{UnwindSafe, catch_unwind, set_hook, take_hook};

use crate::{
    Connection, Side, VarInt,
    answer::{Answer, Case, MOST, Op},
    coding::Codec,
    image,
    shared::ConnectionId,
    transport_parameters::{Error, TransportParameters},
    versions,
};

pub fn side(number: u64) -> Side {
    if number == 0 { Side::Client } else { Side::Server }
}

/// The side and the IDs that packets carried, of a case of authentication; the last only after a Retry.
pub fn seen(c: &Case) -> (Side, [Option<ConnectionId>; 3]) {
    let retry = (c.number >> 8 != 0).then(|| image::to_cid(c.w));
    (side(c.number & 255), [Some(image::to_cid(c.y)), Some(image::to_cid(c.z)), retry])
}

fn refusal(e: Error) -> Answer {
    Answer::refused(match e {
        Error::Malformed => 1,
        Error::IllegalValue => 2,
    })
}

/// The bytes that `write` stores.
fn stored(write: impl FnOnce(&mut &mut [u8])) -> Answer {
    let mut bytes = [0; MOST];
    let mut rest = &mut bytes[..];
    write(&mut rest);
    let len = MOST - rest.len();
    Answer { code: 0, number: len as u64, len, bytes }
}

/// Leaves the one panic that is expected without a message: that of the size of a number from 2^62 on.
pub fn quiet_panics() {
    let usual = take_hook();
    set_hook(Box::new(move |panic| {
        if panic.payload().downcast_ref() != Some(&"malformed VarInt") {
            usual(panic);
        }
    }));
}

/// The answer; or the refusal that stands in the place of a panic (docs/SCOPE.md, Refusals).
fn unless_it_panics(refusal: u8, answer: impl FnOnce() -> Answer + UnwindSafe) -> Answer {
    catch_unwind(answer).unwrap_or_else(|_| Answer::refused(refusal))
}

/// quinn is asked of no extension and no record with version information.
fn read(number: u64, src: &[u8]) -> Result<TransportParameters, Error> {
    assert!(versions::struck(src).is_none());
    TransportParameters::read(side(number), &mut &src[..])
}

fn record(image: &[u8]) -> TransportParameters {
    let p = image::to_record(image);
    assert!(p.versions.is_none());
    *p
}

/// The answer to a case that is put to quinn, with a buffer as long as is needed.
pub fn answer(c: &Case) -> Answer {
    match c.op {
        Op::NumberSize => unless_it_panics(4, || Answer::number(VarInt(c.number).size() as u64)),
        Op::NumberRead => {
            let mut rest = c.x;
            match VarInt::decode(&mut rest) {
                Ok(x) => Answer::stored((c.x.len() - rest.len()) as u64, &x.0.to_be_bytes()),
                Err(_) => Answer::refused(3),
            }
        }
        Op::NumberWrite => match VarInt::from_u64(c.number) {
            Ok(x) => stored(|out| x.encode(out)),
            Err(_) => Answer::refused(4),
        },
        Op::CidRead => {
            let mut rest = c.x;
            match ConnectionId::decode_long(&mut rest) {
                Some(cid) => Answer::stored((c.x.len() - rest.len()) as u64, &image::of_cid(&cid)),
                None => Answer::refused(1),
            }
        }
        Op::CidWrite => stored(|out| image::to_cid(c.x).encode_long(out)),
        Op::Default => Answer::stored(0, &image::of_record(&TransportParameters::default().into())),
        Op::Read | Op::Rearranged => match read(c.number, c.x) {
            Ok(p) => Answer::stored(0, &image::of_record(&p.into())),
            Err(e) => refusal(e),
        },
        Op::Write => stored(|out| record(c.x).write(out)),
        Op::New => {
            let mut settings = [0; 12];
            for (s, b) in settings.iter_mut().zip(c.x.chunks(8)) {
                *s = u64::from_be_bytes(b.try_into().unwrap());
            }
            Answer::stored(0, &image::of_record(&image::build(&settings, image::to_cid(c.y), c.number, c.z, c.w)))
        }
        Op::Resume => match record(c.x).validate_resumption_from(&record(c.y)) {
            Ok(()) => Answer::refused(0),
            Err(_) => Answer::refused(8),
        },
        Op::Issue => Answer::number(record(c.x).issue_cids_limit()),
        Op::Check => {
            let mut p = record(c.x);
            p.grease_transport_parameter = None;
            p.write_order = None;
            let written = stored(|out| p.write(out));
            match read(c.number, written.due()) {
                Ok(q) if q == p => Answer::refused(0),
                Ok(_) => Answer::refused(2),
                Err(e) => refusal(e),
            }
        }
        Op::Tidy | Op::TidyTwice | Op::TidyRearranged => match read(c.number, c.x) {
            Ok(p) => stored(|out| p.write(out)),
            Err(e) => refusal(e),
        },
        Op::Report => Answer { len: 0, ..answer(&Case { op: Op::Tidy, ..*c }) },
        Op::CheckOrder | Op::OrderFault => unreachable!("quinn has no such test"),
        Op::Authenticate => {
            let (side, seen) = seen(c);
            let mut connection =
                Connection { side, orig_rem_cid: seen[0].unwrap(), initial_dst_cid: seen[1].unwrap(), retry_src_cid: seen[2] };
            match connection.authenticate(record(c.x)) {
                Ok(()) => Answer::refused(0),
                Err(_) => Answer::refused(14),
            }
        }
        Op::Length => Answer::number(stored(|out| record(c.x).write(out)).number),
    }
}
