//! The answer that is due to a case: quinn's; where quinn has none, or parts from the product, the
//! one that docs/SCOPE.md gives. Of an extension that quinn calls Malformed the kind is due, and of
//! connection IDs that it refuses whether one is absent; of what it reads also where the bytes go.
//! What has version information is put to quinn without it.

use crate::{
    VarInt,
    answer::{Answer, Case, Op},
    coding::BufExt,
    counts,
    image::{self, PLACES, RECORD, VERSIONS, Versions},
    inputs, kinds, rust,
    transport_parameters::TransportParameters,
    versions,
};

/// Who says what is due to a case.
#[derive(Clone, Copy)]
pub enum By {
    Quinn,
    /// docs/SCOPE.md: the order test and the first fault of an order have no counterpart in quinn,
    /// nor have calls on which the Rust panics or that its types rule out.
    Scope,
    /// quinn is not asked: the extension has a second grease_quic_bit or min_ack_delay, which
    /// starts here.
    SecondCopy(usize),
    /// quinn is not asked: the cached datagram size is 0 and the new one absent.
    AbsentSize,
    /// quinn is asked of the rest: the extension, or a record, has version information.
    Versions,
}

/// Where product and quinn may part: the mark that such a case has in the recorded list, and the
/// inputs on which quinn is not asked.
pub const PARTINGS: [(u8, &str); 3] = [
    (2, "extensions that repeat grease_quic_bit or min_ack_delay"),
    (5, "resumption from a datagram size of 0 to an absent one"),
    (9, "extensions and records with version information"),
];

impl By {
    /// The mark of a case of which quinn is not asked as it is; else 0.
    pub fn mark(self) -> u8 {
        match self {
            By::Quinn | By::Scope => 0,
            By::SecondCopy(_) => 2,
            By::AbsentSize => 5,
            By::Versions => 9,
        }
    }
}

pub fn by(c: &Case) -> By {
    match c.op {
        _ if c.declined != 0 => By::Scope,
        Op::CheckOrder | Op::OrderFault => By::Scope,
        _ if has_versions(c) => By::Versions,
        op if op.takes_extension() => second_copy(c.x).map_or(By::Quinn, By::SecondCopy),
        Op::Resume if size(c.x).is_none() && size(c.y) == Some(VarInt(0)) => By::AbsentSize,
        _ => By::Quinn,
    }
}

fn has_versions(c: &Case) -> bool {
    if c.op.takes_extension() {
        return versions::struck(c.x).is_some();
    }
    let is_with = |image: &[u8]| image::to_record(image).versions.is_some();
    c.op.takes_record() && (is_with(c.x) || c.op == Op::Resume && is_with(c.y))
}

/// Where the second grease_quic_bit or min_ack_delay starts, of the two that quinn lets repeat. Only whole parameters count: what is cut
/// quinn refuses too.
fn second_copy(x: &[u8]) -> Option<usize> {
    let mut met = [false; 2];
    let mut rest = x;
    loop {
        let start = x.len() - rest.len();
        let (id, len) = (rest.get_var().ok()?, rest.get_var().ok()?);
        rest = rest.get(usize::try_from(len).ok()?..)?;
        if let Some(i) = [0x2ab2, 0xff04de1b].iter().position(|known| *known == id) {
            if met[i] {
                return Some(start);
            }
            met[i] = true;
        }
    }
}

/// The max_datagram_frame_size of a record's image.
fn size(image: &[u8]) -> Option<VarInt> {
    image::to_record(image).max_datagram_frame_size
}

fn check_order(order: &[u8]) -> u8 {
    if image::is_permutation(order) { 0 } else { 6 }
}

/// The position of the first entry that is out of range or repeats an earlier one; the order's
/// length if entries are only missing.
fn order_fault(order: &[u8]) -> Option<usize> {
    let is_wrong = |k: &usize| order[*k] > 21 || order[..*k].contains(&order[*k]);
    (0..order.len()).find(is_wrong).or((order.len() < PLACES).then_some(order.len()))
}

fn by_scope(c: &Case) -> Answer {
    match c.op {
        Op::CheckOrder => Answer::refused(check_order(c.x)),
        Op::OrderFault => order_fault(c.x).map_or(Answer::refused(0), |k| Answer { code: 6, ..Answer::number(k as u64) }),
        _ => Answer::refused(c.declined),
    }
}

/// A second copy is malformed, whatever its value and whatever follows, unless a parameter before
/// it is at fault. So is an identifier that cannot be read, which quinn finds where the second copy
/// starts.
fn by_second_copy(c: &Case, start: usize) -> Answer {
    rust::answer(&Case { x: &[&c.x[..start], &[0x40]].concat(), ..*c })
}

/// An absent size counts as 0, so that each record stands for the one which has that size. Between
/// two sizes that are there quinn and the product do not part.
pub fn by_sizes(c: &Case) -> Answer {
    let with_size = |image: &[u8]| {
        let mut p = image::to_record(image);
        p.max_datagram_frame_size = p.max_datagram_frame_size.or(Some(VarInt(0)));
        image::of_record(&p)
    };
    rust::answer(&Case { x: &with_size(c.x), y: &with_size(c.y), ..*c })
}

/// The rest is put to quinn, as it would be if there were no version information, which is then
/// added to what is accepted.
fn by_versions(c: &Case) -> Answer {
    let (x, value) = if c.op.takes_extension() {
        versions::struck(c.x).expect("it names version information")
    } else {
        (without_versions(c.x), image::to_record(c.x).versions.map(|v| v.value().to_vec()))
    };
    let y = if c.op == Op::Resume { without_versions(c.y) } else { c.y.to_vec() };
    let rest = Case { x: &x, y: &y, ..*c };
    let a = answer_of(by(&rest), &rest);
    match value {
        Some(value) if a.code == 0 => with_versions(c, &value, a),
        _ => a,
    }
}

fn without_versions(image: &[u8]) -> Vec<u8> {
    [&image[..VERSIONS], &[0; RECORD - VERSIONS]].concat()
}

/// What version information of this value adds: the value rules, which come last with the others; the value in an image; the parameter where bytes are
/// written, in catalogue order behind all others. Resumption, the issue limit and authentication do not look at it.
fn with_versions(c: &Case, value: &[u8], a: Answer) -> Answer {
    let is_server = rust::side(c.number).is_server();
    if (c.op.takes_extension() || c.op == Op::Check) && !versions::is_allowed(value, is_server) {
        return Answer::refused(2);
    }
    let more = versions::parameter(value);
    let number = a.number + more.len() as u64;
    match c.op {
        Op::Read | Op::Rearranged => {
            let p = image::to_record(a.due()).with_versions(Some(Versions::of(value)));
            Answer::stored(0, &image::of_record(&p))
        }
        Op::Tidy | Op::TidyTwice | Op::TidyRearranged => Answer::stored(number, &[a.due(), &more].concat()),
        Op::Write => {
            let (before, behind) = a.due().split_at(before_versions(c.x, a.due()));
            Answer::stored(number, &[before, &more, behind].concat())
        }
        Op::Report | Op::Length => Answer { number, ..a },
        _ => a,
    }
}

/// How many of the bytes that are written stand before version information in a record's order: all, if it has none.
fn before_versions(image: &[u8], written: &[u8]) -> usize {
    let Some(order) = image::to_record(image).order() else { return written.len() };
    let before = order.split(|place| *place == 21).next().unwrap();
    let parameters = inputs::parameters(written);
    parameters.iter().filter(|p| before.contains(&image::place(p.id))).map(|p| p.bytes.len()).sum()
}

/// What quinn calls Malformed is one of three kinds, and nothing else is.
fn in_kinds(c: &Case, a: Answer) -> Answer {
    if !c.op.takes_extension() {
        return a;
    }
    let kind = kinds::kind(c.x);
    assert_eq!(kind.is_some(), a.code == 1, "10, 11 or 12 is due exactly where quinn says Malformed: {:02x?}", c.x);
    kind.map_or(a, Answer::refused)
}

/// What quinn refuses is 13 if an ID that is needed is absent, else 14: both need initial_src_cid,
/// and a client original_dst_cid and, after a Retry, retry_src_cid.
fn in_stages(c: &Case, a: Answer) -> Answer {
    if c.op != Op::Authenticate || c.declined != 0 {
        return a;
    }
    let (side, seen) = rust::seen(c);
    let TransportParameters { initial_src_cid, original_dst_cid, retry_src_cid, .. } = *image::to_record(c.x);
    let looked_at = if side.is_client() { 3 } else { 1 };
    let is_absent = (0..looked_at).any(|i| seen[i].is_some() && [initial_src_cid, original_dst_cid, retry_src_cid][i].is_none());
    assert!(a.code != 0 || !is_absent, "quinn accepts nothing that lacks an ID which is needed");
    if is_absent { Answer::refused(13) } else { a }
}

/// Behind a number that quinn reads stands how many bytes its shortest form would have saved. Of an
/// extension that it accepts all five counts are due, the first being how many bytes it writes; the
/// four that are bytes make the length.
fn in_counts(c: &Case, a: Answer) -> Answer {
    match c.op {
        _ if a.code != 0 => a,
        Op::NumberRead => {
            let saved = counts::saved(c.x).expect("quinn reads it");
            Answer::stored(a.number, &[a.due(), &saved.to_be_bytes()].concat())
        }
        Op::Report => {
            let [skipped, restated, saved, named] = counts::of(c.x);
            assert_eq!(a.number + skipped + restated + saved, c.x.len() as u64, "together they make the length: {:02x?}", c.x);
            Answer::stored(0, &[a.number, skipped, restated, saved, named].map(u64::to_be_bytes).concat())
        }
        _ => a,
    }
}

/// 5 if the output is shorter than the bytes due.
fn in_room(c: &Case, a: Answer) -> Answer {
    if c.room < a.len { Answer::refused(5) } else { a }
}

/// With quinn's refusals, and all the room that is needed.
fn answer_of(by: By, c: &Case) -> Answer {
    match by {
        By::Quinn => rust::answer(c),
        By::Scope => by_scope(c),
        By::SecondCopy(start) => by_second_copy(c, start),
        By::AbsentSize => by_sizes(c),
        By::Versions => by_versions(c),
    }
}

pub fn answer_by(by: By, c: &Case) -> Answer {
    in_room(c, in_counts(c, in_stages(c, in_kinds(c, answer_of(by, c)))))
}

/// Whether quinn itself gives another answer than the one due, to a reading or a resumption without version information. All three kinds count as its
/// Malformed.
pub fn is_parted(c: &Case, want: &Answer) -> bool {
    let a = in_room(c, rust::answer(c));
    (a.code, a.number, a.due()) != (kinds::by_quinn(want.code), want.number, want.due())
}

pub fn answer(c: &Case) -> Answer {
    answer_by(by(c), c)
}
