//! The recorded list: some thousands of cases with the answers due, quinn's but where the head says otherwise, which crates/replay runs in the
//! gate.
//!
//! Each entry is a head of 32 bytes and then x, y, z, w and the bytes due, one behind the other; all numbers have the high byte first.
//!
//! | at | head |
//! |---|---|
//! | 0 | operation, by its place in `Op` |
//! | 1 | refusal due, or 0; 10, 11 and 12 of reading, tidying and reports are quinn's Malformed, told apart; so are 13 and 14, its one refusal of connection IDs |
//! | 2, 4, 6, 8, 10 | where x, y, z, w and the bytes due end, counted from the head's end |
//! | 12 | length of the output |
//! | 14 | a mark if quinn is not asked of the case as it is (`PARTINGS` of `due.rs`): 2 a second copy, 5 an absent datagram size, 9 version information; else 0 |
//! | 15 | the refusal again if the Rust has no answer, else 0 |
//! | 16 | number of the case (eight bytes) |
//! | 24 | number due (eight bytes) |
//!
//! What the fields are for each operation is said at `Case` and `Answer`. Of what number_read and
//! report store, the value and the tidied length are quinn's, the rest is the product's own.

use std::{
    collections::HashSet,
    io::{Read, Write, stdin, stdout},
};

use crate::{
    answer::{Answer, COUNTS, Case, MOST, NUMBER, Op},
    compare::SEED,
    due,
    image::{self, RECORD, Record, VERSIONS, Versions},
    inputs::{self, Dice, EDGES, KNOWN, MAX},
    library,
    shared::ConnectionId,
    suite::Suite,
    transport_parameters::TransportParameters,
    versions,
};

impl Suite<'_> {
    /// Each edge: its size, written with just enough room and with too little, read in the shortest and the longest form and cut.
    pub fn number_edges(&mut self) {
        for x in EDGES.into_iter().chain([1 << 62, u64::MAX]) {
            let due = due::answer(&Case::new(Op::NumberWrite, x, &[], MOST)).len;
            self.case(Op::NumberWrite, x, &[], due);
            self.case(Op::NumberWrite, x, &[], due.saturating_sub(1));
            self.case(Op::NumberSize, x, &[], 0);
            if x <= MAX {
                for form in [0, 3] {
                    let mut bytes = Vec::new();
                    inputs::put_number(&mut bytes, x, form);
                    self.case(Op::NumberRead, 0, &bytes, NUMBER);
                    self.case(Op::NumberRead, 0, &bytes[..bytes.len() - 1], NUMBER);
                }
            }
        }
    }

    /// Each length of ID: read whole, cut and with a byte more; written with just enough room and with too little; not well formed.
    pub fn cid_edges(&mut self) {
        for len in (0..=22).chain([63, 64, 255]) {
            let x = [&[len as u8][..], &[0xc1; 256]].concat();
            for total in [0, len, len + 1, len + 2] {
                self.case(Op::CidRead, 0, &x[..total], 21);
            }
            self.case(Op::CidRead, 0, &x[..len + 1], 20);
            let mut cid = [0; image::CID];
            let held = len.min(20);
            cid[..=held].copy_from_slice(&x[..=held]);
            let declined = if len > 20 { 7 } else { 0 };
            for room in [held, held + 1, 22] {
                (self.sink)(&Case::new(Op::CidWrite, 0, &cid, room).declined(declined));
            }
            if len < 20 {
                cid[20] = 1;
                (self.sink)(&Case::new(Op::CidWrite, 0, &cid, 22).declined(7));
            }
        }
        for len in [0, 20, 22] {
            (self.sink)(&Case::new(Op::CidWrite, 0, &[0; 22][..len], 22).declined(7));
        }
    }

    /// Each number on either side of its own rule.
    pub fn rule_edges(&mut self) {
        for (id, edges) in [
            (0x03, &[1199, 1200, 65527][..]),
            (0x08, &[1 << 60, (1 << 60) + 1]),
            (0x09, &[1 << 60, (1 << 60) + 1]),
            (0x0a, &[3, 20, 21]),
            (0x0b, &[25, 16383, 16384, MAX]),
            (0x0e, &[0, 1, 2, 3]),
            (0x20, &[0, MAX]),
            (0xff04de1b, &[0, 25000, 25001, MAX]),
        ] {
            for edge in edges {
                let x = inputs::numbers_of(&[(id, *edge)]);
                self.extension(&x);
            }
        }
        for ms in [0, 1, 24, 16383, 16384] {
            self.delays(ms);
        }
    }

    /// Each parameter alone: whole, twice, cut by a byte, one byte longer or shorter than its value, empty, with a length that is beyond
    /// the end, with a length that cannot be read.
    pub fn faults(&mut self) {
        for id in KNOWN.into_iter().chain([0x1b, 0x12]) {
            let v = match id {
                0x00 | 0x0f | 0x10 => vec![7; 20],
                0x02 => vec![9; 16],
                0x0c | 0x2ab2 => vec![],
                0x0d => [&[1; 24][..], &[3, 1, 2, 3], &[5; 16]].concat(),
                0x0b => vec![25],
                versions::ID => vec![1; 8],
                0x03 => vec![0x80, 0, 0xff, 0xff],
                _ => vec![2],
            };
            let mut head = Vec::new();
            inputs::put_number(&mut head, id, 0);
            let whole = |v: &[u8]| [&head[..], &[v.len() as u8], v].concat();
            let good = whole(&v);
            let longer = [&v[..], &[0]].concat();
            for x in [
                &good[..],
                &[&good[..], &good].concat(),
                &good[..good.len() - 1],
                &whole(&longer),
                &whole(&v[..v.len().saturating_sub(1)]),
                &whole(&[]),
                &[&head[..], &[v.len() as u8 + 1], &v].concat(),
                &[&head[..], &[0x40]].concat(),
                &[&good[..], &[0xc0, 0]].concat(),
            ] {
                self.extension(x);
            }
        }
    }

    /// Preferred addresses: each length of value and of ID, with one family, the other, both or none, and bytes left over; families of
    /// which only the address or only the port is not zero.
    pub fn addresses(&mut self) {
        let mut address = [0u8; 62];
        for families in 0..4 {
            address[..6].fill(families & 1);
            address[6..24].fill(families >> 1);
            for id_len in [0, 1, 20, 21] {
                address[24] = id_len;
                let end = 41 + id_len as usize;
                for len in [0, 3, 4, 6, 22, 24, 25, 25 + id_len as usize, end - 1, end, end + 1] {
                    let x = [&[0x0d, len.min(62) as u8][..], &address[..len.min(62)]].concat();
                    self.extension_by(0, &x);
                }
            }
        }
        for at in 0..24 {
            address[..24].fill(0);
            address[at] = 1;
            address[24] = 1;
            let x = [&[0x0d, 42][..], &address[..42]].concat();
            self.extension_by(0, &x);
        }
    }

    /// Version information: each length around those that fit; a 0 at each place, and the chosen version at each place alone, or at none; versions of which one
    /// byte is not 0, or differs; a length that does not fit and is beyond the end.
    pub fn version_edges(&mut self) {
        for len in [0, 3, 4, 5, 6, 8, 63, 64, 66, 68, 69, 72] {
            self.extension(&versions::parameter(&vec![7; len]));
        }
        for n in [1, 2, 3, 16] {
            for at in 0..=n {
                let (mut with_zero, mut with_chosen) = (vec![7; 4 * (1 + n)], vec![9; 4 * (1 + n)]);
                with_zero[4 * at..4 * at + 4].fill(0);
                with_chosen[..4].fill(7);
                with_chosen[4 * at..4 * at + 4].fill(7);
                self.extension(&versions::parameter(&with_zero));
                self.extension(&versions::parameter(&with_chosen));
            }
        }
        for byte in 0..4 {
            let (mut one, mut other) = ([0; 4], [7; 4]);
            one[byte] = 1;
            other[byte] = 6;
            self.extension(&versions::parameter(&[one, one].concat()));
            self.extension(&versions::parameter(&[other, [7; 4]].concat()));
        }
        self.extension(&[0x11, 0x40, 72, 1]);
    }

    /// Records of which version information is not well formed, in each way, or not legal; and orders of a place fewer or more.
    pub fn version_images(&mut self) {
        let mut p = Record::from(TransportParameters::default());
        let id = Some(ConnectionId::new(&[7]));
        (p.initial_src_cid, p.original_dst_cid) = (id, id);
        let good = image::of_record(&p);
        for bytes in [
            &[(VERSIONS, 2)][..],
            // absent
            &[(VERSIONS + 1, 1)],
            &[(VERSIONS + 2, 1)],
            &[(VERSIONS + 6, 1)],
            &[(RECORD - 1, 1)],
            &[(VERSIONS + 1, 1), (VERSIONS + 6, 1)],
            // too many; one behind the last
            &[(VERSIONS, 1), (VERSIONS + 1, 17)],
            &[(VERSIONS, 1), (VERSIONS + 1, 255)],
            &[(VERSIONS, 1), (VERSIONS + 6, 1)],
            &[(VERSIONS, 1), (VERSIONS + 1, 15), (RECORD - 1, 1)],
        ] {
            let mut x = good;
            bytes.iter().for_each(|(at, byte)| x[*at] = *byte);
            self.declined_record(&x, &good, MOST);
            let ids = [image::of_cid(&id.unwrap()); 2];
            (self.sink)(&Case { y: &ids[0], z: &ids[1], w: &[0; 21], ..Case::new(Op::Authenticate, 0, &x, 0) }.declined(7));
        }
        for value in [&[0; 4][..], &[7; 4], &[7; 8], &[7; 64], &[7; 68]] {
            let with = p.with_versions(Some(Versions::of(value)));
            self.record(&with);
            self.authenticate(0, &with, [id, id, None]);
            self.authenticate(1, &with, [id, id, None]);
            let x = image::of_record(&with);
            (self.sink)(&Case { y: &good, ..Case::new(Op::Resume, 0, &x, 0) });
            (self.sink)(&Case { y: &x, ..Case::new(Op::Resume, 0, &good, 0) });
        }
        for len in 20..24 {
            let order: Vec<u8> = (0..len).collect();
            self.case(Op::CheckOrder, 0, &order, 0);
            self.case(Op::OrderFault, 0, &order, 0);
        }
    }
}

fn entry(c: &Case) -> Vec<u8> {
    let by = due::by(c);
    let a = due::answer_by(by, c);
    let parts = [c.x, c.y, c.z, c.w, a.due()];
    let mut out = vec![c.op as u8, a.code];
    let mut end = 0;
    for part in parts {
        end += part.len();
        out.extend((end as u16).to_be_bytes());
    }
    out.extend((c.room as u16).to_be_bytes());
    out.extend([by.mark(), c.declined]);
    out.extend(c.number.to_be_bytes());
    out.extend(a.number.to_be_bytes());
    out.extend(parts.concat());
    out
}

/// The case as it is recorded: of a rearranged extension the other order, to which quinn has to give the same answer.
fn recorded<'a>(c: &Case<'a>) -> Case<'a> {
    let Some(other) = c.other_order() else { return *c };
    assert!(due::answer(c) == due::answer(&other));
    other
}

pub fn record() {
    // every `step`th case of each part
    let parts: [(usize, fn(&mut Suite)); 34] = [
        (1, |s| s.default()),
        (1, |s| s.shown()),
        (1, |s| s.real(97, 40)),
        (1, |s| s.number_edges()),
        (4, |s| s.numbers_short(1)),
        (1, |s| s.cid_edges()),
        (1, |s| s.rule_edges()),
        (1, |s| s.faults()),
        (1, |s| s.addresses()),
        (9, |s| s.edges()),
        (7, |s| s.sequences(2)),
        (3, |s| s.generated(200)),
        (1, |s| s.damaged(8, 29)),
        (4, |s| s.random(1)),
        (1, |s| s.records(60)),
        (61, |s| s.record_edges()),
        (6, |s| s.orders(5)),
        (47, |s| s.order_tests(200)),
        (1, |s| s.building(50)),
        (1, |s| s.building_refused(64)),
        (2, |s| s.resumption(112)),
        (3, |s| s.declined(34)),
        (1, |s| s.rearrangements(20, 4)),
        (17, |s| s.order_faults(600)),
        (1, |s| s.datagram_sizes(2)),
        (11, |s| s.kinds(2)),
        (997, |s| s.alike()),
        (1, |s| s.authentication(40)),
        (211, |s| s.forms(&[0, 2, 3, 25, 65527])),
        (7, |s| s.long_forms()),
        (1, |s| s.version_edges()),
        (1, |s| s.version_images()),
        (499, |s| s.versions(200)),
        (61, |s| s.version_records(100)),
    ];
    let (mut entries, mut bytes) = (0, 0);
    let mut marked = due::PARTINGS.map(|(mark, _)| (mark, 0));
    let mut reported = HashSet::new();
    for (step, part) in parts {
        let mut turn = 0;
        let mut put = |c: &Case| {
            let e = entry(c);
            stdout().write_all(&e).unwrap();
            entries += 1;
            bytes += e.len();
            marked.iter_mut().for_each(|(mark, n)| *n += (e[14] == *mark) as usize);
        };
        let mut sink = |c: &Case| {
            // what is tidied is reported once, and nothing else
            if c.op == Op::Report {
                return false;
            }
            if turn % step == 0 {
                let c = recorded(c);
                put(&c);
                if c.op == Op::Tidy && reported.insert((c.number, c.x.to_vec())) {
                    put(&Case::new(Op::Report, c.number, c.x, COUNTS));
                }
            }
            turn += 1;
            false
        };
        part(&mut Suite { d: Dice(SEED), shuffles: Dice(!SEED), sink: &mut sink });
    }
    eprintln!("{entries} cases, {bytes} bytes; by mark: {marked:?}");
}

/// Takes every case of a recorded list again: the answer due and the library's must both be what was recorded.
pub fn replay() {
    let mut list = Vec::new();
    stdin().read_to_end(&mut list).unwrap();
    let (mut cases, mut due, mut library) = (0, 0, 0);
    let mut at = 0;
    while at < list.len() {
        let head = &list[at..at + 32];
        let two = |i: usize| u16::from_be_bytes([head[i], head[i + 1]]) as usize;
        let eight = |i: usize| u64::from_be_bytes(head[i..i + 8].try_into().unwrap());
        let ends = [0, two(2), two(4), two(6), two(8), two(10)];
        let part = |i: usize| &list[at + 32 + ends[i]..at + 32 + ends[i + 1]];
        let c = Case {
            op: Op::ALL[head[0] as usize].0,
            number: eight(16),
            x: part(0),
            y: part(1),
            z: part(2),
            w: part(3),
            room: two(12),
            declined: head[15],
        };
        let recorded = Answer { code: head[1], ..Answer::stored(eight(24), part(4)) };
        cases += 1;
        due += (due::answer(&c) != recorded) as u64;
        library += !library::call(&c).is(&recorded) as u64;
        at += 32 + ends[5];
    }
    println!("{cases} recorded cases: quinn (or docs/SCOPE.md) differs in {due}, the library in {library}");
    if due + library > 0 {
        std::process::exit(1);
    }
}
