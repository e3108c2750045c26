//! The cases. Each function gives them to a sink, which compares or records them; `n` says how many of the random ones.

use crate::{
    VarInt,
    answer::{COUNTS, Case, MOST, NUMBER, Op},
    due,
    image::{self, PLACES, RECORD, Record, Versions},
    inputs::{self, Dice, EDGES, KNOWN, MAX, NUMBERS},
    shared::ConnectionId,
    transport_parameters::TransportParameters,
    versions,
};

/// Datagram sizes.
const SIZES: [Option<u64>; 5] = [None, Some(0), Some(1), Some(65535), Some(MAX)];

pub struct Suite<'a> {
    pub d: Dice,
    /// Draws the other orders of extensions, apart from everything else.
    pub shuffles: Dice,
    /// Takes a case, and says whether its extension is to be rearranged too.
    pub sink: &'a mut dyn FnMut(&Case) -> bool,
}

impl Suite<'_> {
    pub fn case(&mut self, op: Op, number: u64, x: &[u8], room: usize) -> bool {
        (self.sink)(&Case::new(op, number, x, room))
    }

    /// The case with room for the bytes due exactly, for one fewer, for one more, and with the most and the least room.
    fn rooms(&mut self, op: Op, number: u64, x: &[u8]) {
        let due = due::answer(&Case::new(op, number, x, MOST)).len;
        for room in [due, due.saturating_sub(1), due + 1, MOST, 0] {
            self.case(op, number, x, room);
        }
    }

    /// 0 for a client, else a server.
    fn side(&mut self) -> u64 {
        self.d.of(&[0, 0, 0, 1, 1, 255])
    }

    // Numbers

    /// Every byte string of up to `most` bytes, read as a number.
    pub fn numbers_short(&mut self, most: usize) {
        every(most, |x| {
            self.case(Op::NumberRead, 0, x, NUMBER);
        });
    }

    pub fn numbers(&mut self, n: usize) {
        let powers = (0..64).map(|bit| 1u64 << bit);
        let edges = powers.flat_map(|p| [p - 1, p, p + 1]).chain(EDGES).chain([u64::MAX]);
        let random: Vec<u64> = (0..n).map(|_| self.d.next() >> self.d.below(64)).collect();
        for x in edges.chain(random) {
            for room in 0..10 {
                self.case(Op::NumberWrite, x, &[], room);
            }
            self.case(Op::NumberSize, x, &[], 0);
            if x <= MAX {
                for form in 0..4 {
                    let mut bytes = Vec::new();
                    inputs::put_number(&mut bytes, x, form);
                    for cut in 0..=bytes.len() {
                        self.case(Op::NumberRead, 0, &bytes[..cut], NUMBER);
                    }
                    bytes.extend(self.d.bytes::<3>());
                    self.case(Op::NumberRead, 0, &bytes, NUMBER);
                }
            }
        }
    }

    // Connection IDs

    pub fn cids(&mut self, n: usize) {
        for _ in 0..n {
            for len in 0..=255 {
                let mut x = self.d.bytes::<64>();
                x[0] = len as u8;
                for total in [0, 1, len, len + 1, len + 2, 64] {
                    let room = self.d.of(&[21, 21, 20, 0, 22]);
                    self.case(Op::CidRead, 0, &x[..total.min(64)], room);
                }
                let mut cid = [0; image::CID];
                cid.copy_from_slice(&x[..21]);
                if len <= 20 {
                    cid[len + 1..].fill(0);
                    for room in 0..24 {
                        self.case(Op::CidWrite, 0, &cid, room);
                    }
                }
                // too long; a byte after the ID; another length of image
                let room = self.d.below(24);
                let mut bad = cid;
                if len < 20 {
                    bad[len + 1 + self.d.below(20 - len)] |= 1 << self.d.below(8);
                }
                if len != 20 {
                    (self.sink)(&Case::new(Op::CidWrite, 0, &bad, room).declined(7));
                }
                (self.sink)(&Case::new(Op::CidWrite, 0, &x[..self.d.below(21)], room).declined(7));
                (self.sink)(&Case::new(Op::CidWrite, 0, &x[..self.d.below(42) + 22], room).declined(7));
            }
        }
    }

    // Extensions

    /// Read, tidied and reported, by both sides, with enough room or not.
    pub fn extension(&mut self, x: &[u8]) {
        for side in [0, 1] {
            self.extension_by(side, x);
        }
    }

    pub fn extension_by(&mut self, side: u64, x: &[u8]) {
        let room = if self.d.one_in(16) { self.d.of(&[0, 1, RECORD - 1, RECORD + 1, MOST]) } else { RECORD };
        if self.case(Op::Read, side, x, room) {
            self.rearranged(side, x);
        }
        let room = if self.d.one_in(4) { self.d.below(x.len().min(400) + 1) } else { MOST };
        self.case(Op::Tidy, side, x, room);
        self.case(Op::Report, side, x, COUNTS);
        if self.d.one_in(8) {
            self.case(Op::TidyTwice, side, x, MOST);
        }
    }

    /// Every byte string of up to `most` bytes, by both sides.
    pub fn short(&mut self, most: usize) {
        every(most, |x| {
            for side in [0, 1] {
                if self.case(Op::Read, side, x, RECORD) {
                    self.rearranged(side, x);
                }
                self.case(Op::Tidy, side, x, MOST);
                self.case(Op::Report, side, x, COUNTS);
            }
        });
    }

    /// An extension that a side accepts, with up to two unknown parameters behind it: all its whole parameters in another order, which is reported too.
    fn rearranged(&mut self, side: u64, x: &[u8]) {
        let d = &mut self.shuffles;
        let mut x = x.to_vec();
        for _ in 0..d.below(3) {
            let id = inputs::unknown(d);
            let v = inputs::value(d, id);
            inputs::put_parameter(d, &mut x, id, &v);
        }
        let mut wholes: Vec<&[u8]> = inputs::parameters(&x).iter().map(|p| p.bytes).collect();
        d.shuffle(&mut wholes);
        let y = wholes.concat();
        if y != x {
            (self.sink)(&Case { y: &y, ..Case::new(Op::Rearranged, side, &x, RECORD) });
            (self.sink)(&Case { y: &y, ..Case::new(Op::TidyRearranged, side, &x, MOST) });
            self.case(Op::Report, side, &y, COUNTS);
        }
    }

    /// What real clients sent, and `n` extensions that a client accepts, each shuffled `times` times. And two faults, an address with no family
    /// and a byte left over, in both orders: the first counts.
    pub fn rearrangements(&mut self, n: usize, times: usize) {
        let real = inputs::real().into_iter().map(|x| (1, x));
        let good: Vec<_> = (0..n).map(|_| (0, self.good())).collect();
        for (side, x) in real.chain(good) {
            for _ in 0..times {
                self.rearranged(side, &x);
            }
        }
        let faults = [format!("0d2a{}01aa{}", "00".repeat(24), "bb".repeat(16)), "01020500".to_owned()].map(|x| inputs::unhex(&x));
        self.extension(&faults.concat());
        self.extension(&[&faults[1][..], &faults[0]].concat());
    }

    /// Every sequence of up to `most` pieces of which each is sound, has one fault, or hides one behind another: what comes first, and what is tested
    /// first, counts.
    pub fn kinds(&mut self, most: u32) {
        let address = |families: u8, id_len: u8, left: usize| {
            let rest = usize::from(id_len) + 16 + left;
            [&[0x0d, (25 + rest) as u8][..], &[families; 24], &[id_len], &vec![0xbb; rest]].concat()
        };
        let mut pieces = vec![
            [&[0x0f, 21][..], &[0xaa; 21]].concat(),
            address(1, 1, 0),
            address(1, 1, 1),
            address(1, 21, 0),
            address(0, 1, 0),
            address(0, 1, 1),
            address(0, 21, 0),
        ];
        // sound ones; cut within an identifier, a length, a value; too long or too short a value; values that a rule forbids; unknown ones
        for x in [
            "010105",
            "6ab200",
            "40",
            "c0",
            "0140",
            "6ab2",
            "010205",
            "6ab201",
            "01020500",
            "010140",
            "0100",
            "6ab20100",
            "0201aa",
            "0a0115",
            "0000",
            "1b00",
            "1b02aa",
            // version information: sound; with a chosen version that is not available, or 0; of three bytes; cut
            "11080000000100000001",
            "11080000000100000002",
            "11080000000100000000",
            "1103000000",
            "11080000",
        ] {
            pieces.push(inputs::unhex(x));
        }
        for len in 1..=most {
            for i in 0..pieces.len().pow(len) {
                let x: Vec<u8> = (0..len).flat_map(|k| pieces[i / pieces.len().pow(k) % pieces.len()].clone()).collect();
                self.extension(&x);
            }
        }
    }

    /// Every `step`th set of the known parameters.
    pub fn subsets(&mut self, step: usize) {
        for mask in (0..1 << KNOWN.len()).step_by(step) {
            let x = inputs::extension(&mut self.d, mask);
            self.extension(&x);
        }
    }

    /// Every form of identifier, length and value of each number, at each edge.
    pub fn forms(&mut self, edges: &[u64]) {
        for id in &KNOWN[..NUMBERS] {
            for edge in edges {
                for forms in 0..64 {
                    let (mut value, mut x) = (Vec::new(), Vec::new());
                    inputs::put_number(&mut value, *edge, forms / 16);
                    inputs::put_number(&mut x, *id, forms / 4 % 4);
                    inputs::put_number(&mut x, value.len() as u64, forms % 4);
                    x.extend(value);
                    self.extension(&x);
                }
            }
        }
    }

    /// Every form of identifier and length of each known parameter that holds no number, and of unknown ones; the value looks like a number in a longer
    /// form. Each alone, and before two numbers in forms that are drawn, a default and another.
    pub fn long_forms(&mut self) {
        let address = [&[1; 24][..], &[3, 0x40, 5, 0x40], &[5; 16]].concat();
        for id in KNOWN[NUMBERS..].iter().chain(&[0x1b, 0x3a, 0x3f, 0x2ab3, MAX]) {
            let v = match *id {
                0x02 => &[0x40; 16][..],
                0x0c | 0x2ab2 => &[],
                0x0d => &address,
                versions::ID => &[0x40, 5, 0x40, 5, 0x40, 5, 0x40, 5],
                _ => &[0x80, 0, 0, 5],
            };
            for forms in 0..16 {
                let mut x = Vec::new();
                inputs::put_number(&mut x, *id, forms / 4);
                inputs::put_number(&mut x, v.len() as u64, forms % 4);
                x.extend(v);
                self.extension(&x);
                for (id, number) in [(0x0e, 2), (0x04, 7)] {
                    let mut value = Vec::new();
                    inputs::put_number(&mut value, number, self.d.below(4));
                    inputs::put_parameter(&mut self.d, &mut x, id, &value);
                }
                self.extension(&x);
            }
        }
    }

    /// Each number at each edge, in the shortest form.
    pub fn edges(&mut self) {
        for id in &KNOWN[..NUMBERS] {
            for edge in EDGES {
                let x = inputs::numbers_of(&[(*id, edge)]);
                self.extension(&x);
            }
        }
    }

    /// Each two numbers, each at each edge: the rules together. max_ack_delay with min_ack_delay around 1,000 times it.
    pub fn edge_pairs(&mut self) {
        for (i, a) in KNOWN[..NUMBERS].iter().enumerate() {
            for b in &KNOWN[..i] {
                for (x, y) in EDGES.iter().flat_map(|x| EDGES.map(|y| (*x, y))) {
                    let x = inputs::numbers_of(&[(*a, x), (*b, y)]);
                    self.extension(&x);
                }
            }
        }
        for ms in 0..=16385 {
            self.delays(ms);
        }
    }

    pub fn delays(&mut self, ms: u64) {
        for us in [(1000 * ms).saturating_sub(1), 1000 * ms, 1000 * ms + 1] {
            let x = inputs::numbers_of(&[(0xff04de1b, us), (0x0b, ms)]);
            self.extension(&x);
        }
    }

    /// Every sequence of up to `most` parameters, known, reserved or unknown: every order, and second and third copies.
    pub fn sequences(&mut self, most: u32) {
        let ids: Vec<u64> = KNOWN.into_iter().chain([0x1b, 0x12]).collect();
        for len in 1..=most {
            for i in 0..ids.len().pow(len) {
                let mut x = Vec::new();
                for k in 0..len {
                    let id = ids[i / ids.len().pow(k) % ids.len()];
                    let v = inputs::value(&mut self.d, id);
                    inputs::put_parameter(&mut self.d, &mut x, id, &v);
                }
                self.extension(&x);
            }
        }
    }

    pub fn generated(&mut self, n: usize) {
        for i in 0..n {
            let mask = inputs::mask(&mut self.d);
            let x = inputs::extension(&mut self.d, mask);
            self.extension(&x);
            if i % 8 == 0 {
                self.rooms(Op::Tidy, 0, &x);
            }
        }
    }

    /// Good extensions, each damaged.
    pub fn damaged(&mut self, n: usize, step: usize) {
        for _ in 0..n {
            let x = self.good();
            self.damage(&x, step);
        }
    }

    /// An extension damaged in every way: every bit of every byte flipped, every byte changed, dropped or doubled, a byte put in at every
    /// place, cut at every length. Every `step`th of these, by one side or the other.
    fn damage(&mut self, x: &[u8], step: usize) {
        let mut turn = 0;
        let mut damage = |this: &mut Self, y: &[u8]| {
            turn += 1;
            if turn % step == 0 {
                let side = this.side();
                this.extension_by(side, y);
            }
        };
        let mut y = x.to_vec();
        for at in 0..x.len() {
            for bit in 0..8 {
                y[at] = x[at] ^ 1 << bit;
                damage(self, &y);
            }
            for byte in [0, 255, self.d.next() as u8] {
                y[at] = byte;
                damage(self, &y);
            }
            y[at] = x[at];
            damage(self, &x[..at]);
            damage(self, &[&x[..at], &x[at + 1..]].concat());
            damage(self, &[&x[..at], &x[at..=at], &x[at..]].concat());
            for byte in [0, self.d.next() as u8] {
                damage(self, &[&x[..at], &[byte], &x[at..]].concat());
            }
        }
        for byte in [0, 1, self.d.next() as u8] {
            damage(self, &[x, &[byte]].concat());
        }
    }

    /// What real clients sent, with its version information and without: as it is; its record written, in catalogue order and in a drawn one;
    /// damaged. Then `n` mixtures of it, some of them with a byte changed.
    pub fn real(&mut self, step: usize, n: usize) {
        let all = inputs::real();
        let without = all.iter().map(|x| versions::struck(x).expect("each client sends version information").0);
        for x in without.chain(all.clone()) {
            self.extension(&x);
            self.rooms(Op::Tidy, 1, &x);
            let read = due::answer(&Case::new(Op::Read, 1, &x, RECORD));
            assert_eq!(read.code, 0, "what a client sent is accepted");
            let p = image::to_record(read.due());
            self.record(&p);
            let order = Some(self.d.permutation());
            self.record(&p.in_order(order));
            self.damage(&x, step);
        }
        for i in 0..n {
            let mut x = inputs::mixed(&mut self.d, &all);
            if i % 4 == 0 && !x.is_empty() {
                let at = self.d.below(x.len());
                x[at] = self.d.next() as u8;
            }
            self.extension(&x);
        }
    }

    /// An extension that a client accepts: a legal record, written, with unknown parameters at its ends.
    fn good(&mut self) -> Vec<u8> {
        loop {
            let x = if self.d.one_in(2) {
                let image = image::of_record(&inputs::record(&mut self.d, true));
                due::answer(&Case::new(Op::Write, 0, &image, MOST)).due().to_vec()
            } else {
                let mask = inputs::mask(&mut self.d);
                inputs::extension(&mut self.d, mask)
            };
            if due::answer(&Case::new(Op::Read, 0, &x, RECORD)).code == 0 {
                return x;
            }
        }
    }

    /// Random bytes of every length to 400: any, small ones, and runs of parameters with a random tail.
    pub fn random(&mut self, n: usize) {
        for len in 0..=400 {
            for i in 0..n {
                let mut x: Vec<u8> = (0..len).map(|_| self.d.next() as u8).collect();
                match i % 3 {
                    0 => x.iter_mut().for_each(|b| *b &= 0x1f),
                    1 => {
                        let mask = inputs::mask(&mut self.d);
                        let y = inputs::extension(&mut self.d, mask);
                        let keep = self.d.below(len + 1).min(y.len());
                        x[..keep].copy_from_slice(&y[..keep]);
                    }
                    _ => {}
                }
                let side = self.side();
                self.extension_by(side, &x);
            }
        }
    }

    /// The worked examples (crates/examples) and the inputs that docs/DIFFERENCES.md shows.
    pub fn shown(&mut self) {
        let address = |families: u8, id_len: u8, more: &str| {
            let id = "aa".repeat(id_len as usize);
            format!(
                "0d{:02x}{}{id_len:02x}{id}{}{more}",
                41 + id_len as usize + more.len() / 2,
                format!("{families:02x}").repeat(24),
                "bb".repeat(16)
            )
        };
        for x in [
            "",
            "010480007530",
            "0b027fff",
            "0b0480004000",
            "0e0102",
            "0e0101",
            "030244b0",
            "030244af",
            "010105010105",
            "01020500",
            "1b03aabbcc",
            "0000",
            "c0000000ff04de1b04800061a8",
            "c0000000ff04de1b04800061a9",
            "6ab200010480007530",
            // second copies: of grease_quic_bit and min_ack_delay, refused; of an unknown
            // parameter, accepted
            "6ab2006ab200",
            "c0000000ff04de1b0105c0000000ff04de1b0106",
            "c0000000ff04de1b0106c0000000ff04de1b0105",
            "1b001b00",
            // before a cut; with a value that does not fit; behind an illegal value, which would be found later; before and behind an address
            // with no family
            "6ab2006ab20001",
            "6ab2006ab20105",
            "0a01156ab2006ab200",
            &("6ab2006ab200".to_owned() + &address(0, 1, "")),
            &(address(0, 1, "") + "6ab2006ab200"),
            // addresses: no family; no family and a byte more; no family after a good one; an empty ID; beside an empty initial_src_cid
            &address(0, 1, ""),
            &address(0, 1, "00"),
            &(address(1, 1, "") + &address(0, 1, "")),
            &address(1, 0, ""),
            &format!("0f00{}", address(1, 1, "")),
            // an illegal value before a fault
            "0a011501",
            // an ID that no client's first packet may have as destination
            "0001aa",
            // version information: none available; the chosen one among two; not among them; 0
            "110400000001",
            "110c000000016b3343cf00000001",
            "110c000000016b3343cf00000002",
            "110c000000010000000000000001",
        ] {
            self.extension(&inputs::unhex(x));
        }
    }

    // Records

    /// A record written, measured, checked for both sides, asked for its issue limit.
    pub fn record(&mut self, p: &Record) {
        let x = image::of_record(p);
        let room = if self.d.one_in(4) { self.d.below(387) } else { MOST };
        self.case(Op::Write, 0, &x, room);
        self.case(Op::Length, 0, &x, 0);
        self.case(Op::Check, 0, &x, 0);
        self.case(Op::Check, 1, &x, 0);
        self.case(Op::Issue, 0, &x, 0);
    }

    pub fn records(&mut self, n: usize) {
        for i in 0..n {
            let legal = self.d.one_in(2);
            let p = inputs::record(&mut self.d, legal);
            self.record(&p);
            if i % 8 == 0 {
                self.rooms(Op::Write, 0, &image::of_record(&p));
            }
        }
    }

    /// The default record with one number, or the two delays, at each edge.
    pub fn record_edges(&mut self) {
        for place in 0..11 {
            for edge in EDGES {
                let mut p = Record::from(TransportParameters::default());
                *image::numbers(&mut p)[place] = VarInt(edge);
                self.record(&p);
            }
        }
        for (ms, us) in EDGES.iter().flat_map(|x| EDGES.map(|y| (*x, y))) {
            let mut p = TransportParameters::default();
            p.max_ack_delay = VarInt(ms);
            p.min_ack_delay = Some(VarInt(us));
            self.record(&p.into());
        }
    }

    /// One record that has everything, and the same without version information, in many orders: rotations, swaps of two places, random ones.
    pub fn orders(&mut self, n: usize) {
        let p = loop {
            let p = inputs::record(&mut self.d, true);
            let x = image::of_record(&p);
            if [88, 89, 90, 99, 108, 130, 152, 174, 191, 255, image::VERSIONS].iter().all(|at| x[*at] == 1) {
                break p;
            }
        };
        const SWAPPED: usize = PLACES + PLACES * (PLACES - 1) / 2;
        let mut orders = vec![image::CATALOGUE_ORDER; SWAPPED + n];
        for (i, order) in orders.iter_mut().enumerate() {
            match i {
                0..PLACES => order.rotate_left(i),
                PLACES..SWAPPED => {
                    let pair = (0..PLACES).flat_map(|a| (0..a).map(move |b| (a, b))).nth(i - PLACES).unwrap();
                    order.swap(pair.0, pair.1)
                }
                SWAPPED => order.reverse(),
                _ => *order = self.d.permutation(),
            }
        }
        for order in orders {
            for versions in [None, p.versions] {
                let x = image::of_record(&p.with_versions(versions).in_order(Some(order)));
                self.case(Op::Write, 0, &x, MOST);
                self.case(Op::Length, 0, &x, 0);
            }
        }
    }

    // Version information

    /// Each value at the edges in each form of identifier and length; with a second copy behind it, cut, or a fault behind or before it; and `n` that are drawn,
    /// each with up to two other parameters.
    pub fn versions(&mut self, n: usize) {
        for v in inputs::version_edges(&mut self.d) {
            let whole = versions::parameter(&v);
            for forms in 0..16 {
                let mut x = Vec::new();
                inputs::put_number(&mut x, versions::ID, forms / 4);
                inputs::put_number(&mut x, v.len() as u64, forms % 4);
                x.extend(&v);
                self.extension(&x);
            }
            self.rooms(Op::Tidy, 0, &whole);
            self.rooms(Op::Tidy, 1, &whole);
            for other in ["11080000000100000001", "1100", "1108", "0c000c00", "0a0115", "01020500", "40", "1b00"].map(inputs::unhex) {
                self.extension(&[&whole[..], &other].concat());
                self.extension(&[&other[..], &whole].concat());
            }
        }
        for _ in 0..n {
            let mut ids = vec![versions::ID];
            for _ in 0..self.d.below(3) {
                ids.push(if self.d.one_in(4) { inputs::unknown(&mut self.d) } else { self.d.of(&KNOWN) });
            }
            self.d.shuffle(&mut ids);
            let mut x = Vec::new();
            for id in ids {
                let v = inputs::value(&mut self.d, id);
                inputs::put_parameter(&mut self.d, &mut x, id, &v);
            }
            self.extension(&x);
        }
    }

    /// The default record with each value at the edges that fits, in catalogue order and in drawn ones; `n` records with and without one; and the longest
    /// record, in orders that have place 21 at each position, with each room around what is due.
    pub fn version_records(&mut self, n: usize) {
        for v in inputs::version_edges(&mut self.d).into_iter().filter(|v| versions::fits(v)) {
            let p = Record::from(TransportParameters::default()).with_versions(Some(Versions::of(&v)));
            self.record(&p);
            let order = Some(self.d.permutation());
            self.rooms(Op::Write, 0, &image::of_record(&p.in_order(order)));
        }
        let edges: Vec<_> = inputs::version_edges(&mut self.d).into_iter().filter(|v| versions::fits(v)).collect();
        for _ in 0..n {
            let versions = Some(Versions::of(&self.d.of(&edges)));
            let p = inputs::record(&mut self.d, true);
            self.record(&p.with_versions(versions));
        }
        let longest = inputs::longest();
        for position in 0..PLACES {
            let mut order = self.d.permutation();
            let at = order.iter().position(|place| *place == 21).unwrap();
            order.swap(position, at);
            self.rooms(Op::Write, 0, &image::of_record(&longest.in_order(Some(order))));
            self.record(&longest.in_order(Some(order)));
        }
    }

    /// Orders to test: every place of one changed to every byte, every length, random permutations, those with a place set to another or
    /// two to anything.
    pub fn order_tests(&mut self, n: usize) {
        for at in 0..PLACES {
            for place in 0..=255 {
                let mut order = self.d.permutation();
                order[at] = place;
                self.case(Op::CheckOrder, 0, &order, 0);
            }
        }
        for len in 0..64 {
            let order: Vec<u8> = (0..len).collect();
            self.case(Op::CheckOrder, 0, &order, 0);
        }
        for i in 0..n {
            let mut order = self.d.permutation();
            match i % 4 {
                0 => order[self.d.below(PLACES)] = order[self.d.below(PLACES)],
                1 => (0..2).for_each(|_| order[self.d.below(PLACES)] = self.d.next() as u8),
                _ => {}
            }
            self.case(Op::CheckOrder, 0, &order, 0);
        }
    }

    /// Orders to be asked for their first fault: every list of up to four of five entries; of a permutation each length, and each with more entries
    /// behind it; at each two positions the one's entry at the other, and one out of range beside a repeat; random lists of every length to 63.
    pub fn order_faults(&mut self, n: usize) {
        const ENTRIES: [u8; 5] = [0, 1, 21, 22, 255];
        for len in 0..=4 {
            for i in 0..ENTRIES.len().pow(len) {
                let order: Vec<u8> = (0..len).map(|k| ENTRIES[i / ENTRIES.len().pow(k) % ENTRIES.len()]).collect();
                self.case(Op::OrderFault, 0, &order, 0);
            }
        }
        for len in 0..64 {
            let more = self.d.permutation();
            let order: Vec<u8> = self.d.permutation().into_iter().chain(more).chain(more).take(len).collect();
            self.case(Op::OrderFault, 0, &order, 0);
        }
        for (at, other) in (0..PLACES).flat_map(|at| (0..PLACES).map(move |other| (at, other))) {
            let mut order = self.d.permutation();
            order[at] = order[other];
            self.case(Op::OrderFault, 0, &order, 0);
            order[self.d.below(PLACES)] = 22 + self.d.below(234) as u8;
            self.case(Op::OrderFault, 0, &order, 0);
        }
        for i in 0..n {
            let mut order: Vec<u8> = self.d.permutation().to_vec();
            match i % 4 {
                0 => order[self.d.below(PLACES)] = order[self.d.below(PLACES)],
                1 => (0..2).for_each(|_| order[self.d.below(PLACES)] = self.d.next() as u8),
                2 => order.resize_with(self.d.below(64), || self.d.below(25) as u8),
                _ => {}
            }
            self.case(Op::OrderFault, 0, &order, 0);
        }
    }

    pub fn default(&mut self) {
        for room in [RECORD, RECORD - 1, RECORD + 1, 0] {
            self.case(Op::Default, 0, &[], room);
        }
    }

    // Building

    pub fn building(&mut self, n: usize) {
        for _ in 0..n {
            let plan = inputs::Plan::new(&mut self.d);
            self.build(&plan, 0);
        }
    }

    fn build(&mut self, p: &inputs::Plan, declined: u8) {
        let x = p.settings.map(u64::to_be_bytes).concat();
        let x = &x[..8 * p.settings_len];
        (self.sink)(&Case { y: &p.cid, z: &p.payload, w: &p.order, ..Case::new(Op::New, p.draw, x, p.room) }.declined(declined));
    }

    /// Every refusal, alone and before those that come later.
    pub fn building_refused(&mut self, n: usize) {
        for i in 0..n {
            let mut p = inputs::Plan::new(&mut self.d);
            let d = &mut self.d;
            let faults = [d.one_in(2), d.one_in(2), d.one_in(2), d.one_in(2)];
            // the first fault is that of `kind`, and some of the later ones are there too
            let kind = i % 4;
            let has = |k: usize| k == kind || k > kind && faults[k];
            if has(0) {
                p.settings[d.below(6)] = d.of(&[1 << 62, (1 << 62) + 1, 1 << 63, u64::MAX]);
            }
            if has(1) {
                match d.below(3) {
                    0 => p.cid = vec![0; d.of(&[0, 20, 22])],
                    1 => p.cid[0] = 21 + d.below(235) as u8,
                    _ => {
                        p.cid = vec![0; 21];
                        p.cid[0] = d.below(20) as u8;
                        p.cid[20] = 1;
                    }
                }
            }
            if has(2) {
                match d.below(2) {
                    0 => p.draw = d.of(&[MAX - 26, MAX - 25, MAX, 1 << 62, u64::MAX]),
                    _ => p.payload = vec![1; 16 + d.below(30)],
                }
            }
            if has(3) {
                match d.below(4) {
                    0 => p.order[d.below(PLACES)] = 22 + d.below(234) as u8,
                    1 => p.order[0] = p.order[1 + d.below(PLACES - 1)],
                    2 => p.order.truncate(d.below(PLACES)),
                    _ => p.order.push(d.below(PLACES + 1) as u8),
                }
            }
            self.build(&p, [4, 7, 9, 6][kind]);
            p.settings_len = 11;
            self.build(&p, 7);
        }
    }

    // Resumption

    /// A record and one that differs from it in one field, or in any; both ways round.
    pub fn resumption(&mut self, n: usize) {
        for i in 0..n {
            let legal = self.d.one_in(2);
            let p = inputs::record(&mut self.d, legal);
            let mut q = inputs::record(&mut self.d, legal);
            if i % 4 != 0 {
                q = p;
                let fields = image::numbers(&mut q);
                match i / 4 % 14 {
                    k @ 0..11 => {
                        let x = fields.into_iter().nth(k).unwrap();
                        let other = self.d.number();
                        x.0 = self.d.of(&[x.0.saturating_sub(1), (x.0 + 1).min(MAX), other]);
                    }
                    11 => q.max_datagram_frame_size = self.d.of(&SIZES).map(VarInt),
                    12 => q.grease_quic_bit = !q.grease_quic_bit,
                    _ => {
                        // the limits stay, all else differs
                        q = inputs::record(&mut self.d, true);
                        for (x, y) in image::numbers(&mut q).into_iter().zip(image::numbers(&mut p.clone())) {
                            *x = *y;
                        }
                        q.max_datagram_frame_size = p.max_datagram_frame_size;
                        q.grease_quic_bit = p.grease_quic_bit;
                    }
                }
            }
            let (x, y) = (image::of_record(&p), image::of_record(&q));
            (self.sink)(&Case { y: &y, ..Case::new(Op::Resume, 0, &x, 0) });
            (self.sink)(&Case { y: &x, ..Case::new(Op::Resume, 0, &y, 0) });
        }
        for (a, b) in SIZES.iter().flat_map(|a| SIZES.map(|b| (*a, b))) {
            let image = |s: Option<u64>| {
                image::of_record(&TransportParameters { max_datagram_frame_size: s.map(VarInt), ..TransportParameters::default() }.into())
            };
            (self.sink)(&Case { y: &image(b), ..Case::new(Op::Resume, 0, &image(a), 0) });
        }
    }

    /// Two records that are alike but for their datagram sizes, each size with each; of every other two one limit, or grease_quic_bit, is reduced
    /// besides.
    pub fn datagram_sizes(&mut self, n: usize) {
        for i in 0..n {
            let legal = self.d.one_in(2);
            let mut new = inputs::record(&mut self.d, legal);
            let mut cached = new;
            if i % 2 == 1 {
                match self.d.below(8) {
                    7 => (cached.grease_quic_bit, new.grease_quic_bit) = (true, false),
                    k => {
                        let limit = [2, 3, 4, 5, 6, 7, 10][k];
                        let old = self.d.number().max(1);
                        image::numbers(&mut cached)[limit].0 = old;
                        image::numbers(&mut new)[limit].0 = old - 1;
                    }
                }
            }
            for (a, b) in SIZES.iter().flat_map(|a| SIZES.map(|b| (*a, b))) {
                new.max_datagram_frame_size = a.map(VarInt);
                cached.max_datagram_frame_size = b.map(VarInt);
                (self.sink)(&Case { y: &image::of_record(&cached), ..Case::new(Op::Resume, 0, &image::of_record(&new), 0) });
            }
        }
    }

    // Who is at the other end

    /// Every three of five IDs that are alike, or none, in a record, and every three of them seen, a Retry or none, by both sides.
    pub fn alike(&mut self) {
        let alike: Vec<_> =
            [&[][..], &[7], &[7, 0], &[8], &[7; 20]].map(|b| Some(ConnectionId::new(b))).into_iter().chain([None]).collect();
        for i in 0..6usize.pow(3) {
            let mut p = Record::from(TransportParameters::default());
            (p.initial_src_cid, p.original_dst_cid, p.retry_src_cid) = (alike[i % 6], alike[i / 6 % 6], alike[i / 36]);
            for j in 0..5 * 5 * 6 {
                for side in [0, 1] {
                    self.authenticate(side, &p, [alike[j % 5], alike[j / 5 % 5], alike[j / 25]]);
                }
            }
        }
    }

    /// Of random records the IDs that they have, and these with a bit, a length or the Retry changed; and in place of one ID, looked at or not, what is
    /// none.
    pub fn authentication(&mut self, n: usize) {
        for i in 0..n {
            let legal = self.d.one_in(2);
            let mut p = inputs::record(&mut self.d, legal);
            let quinn: &mut TransportParameters = &mut p;
            for id in [&mut quinn.initial_src_cid, &mut quinn.original_dst_cid] {
                *id = id.or_else(|| (!self.d.one_in(8)).then(|| inputs::cid(&mut self.d)));
            }
            let other = [inputs::cid(&mut self.d), inputs::cid(&mut self.d)];
            let seen = [p.initial_src_cid.or(Some(other[0])), p.original_dst_cid.or(Some(other[1])), p.retry_src_cid];
            let side = self.side();
            self.authenticate(side, &p, seen);
            for k in 0..3 {
                let changed = if k == 2 && self.d.one_in(3) { seen[2].xor(Some(other[0])) } else { seen[k].map(|c| self.altered(c)) };
                let mut seen = seen;
                seen[k] = changed;
                self.authenticate(side, &p, seen);
            }
            self.ill_formed(side, i, &p, seen);
        }
    }

    /// An ID with a bit changed, or a byte more or fewer; the byte may be 0.
    fn altered(&mut self, c: ConnectionId) -> ConnectionId {
        let mut bytes = c.to_vec();
        let bit = 1 << self.d.below(8);
        match self.d.below(3) {
            0 if !bytes.is_empty() => bytes[self.d.below(c.len())] ^= bit,
            1 if !bytes.is_empty() => bytes.truncate(c.len() - 1),
            _ if c.len() < 20 => bytes.push(self.d.of(&[0, bit])),
            _ => bytes[19] ^= bit,
        }
        ConnectionId::new(&bytes)
    }

    pub fn authenticate(&mut self, side: u64, p: &Record, seen: [Option<ConnectionId>; 3]) {
        let flag = if seen[2].is_some() { self.d.of(&[1, 1, 2, 255]) } else { 0 };
        let ids = seen.map(|c| c.map_or([0; image::CID], |c| image::of_cid(&c)));
        let x = image::of_record(p);
        (self.sink)(&Case { y: &ids[0], z: &ids[1], w: &ids[2], ..Case::new(Op::Authenticate, side | flag << 8, &x, 0) });
    }

    /// One of the IDs seen, or of the record's, is none: over 20 bytes, a byte behind it, another length of image, of no Retry not zero.
    fn ill_formed(&mut self, side: u64, i: usize, p: &Record, seen: [Option<ConnectionId>; 3]) {
        let mut ids = seen.map(|c| c.map_or([0; image::CID], |c| image::of_cid(&c)).to_vec());
        let mut x = image::of_record(p);
        let mut flag = seen[2].is_some() as u64;
        let k = self.d.below(3);
        match i % 5 {
            0 => ids[k][0] = 21 + self.d.below(235) as u8,
            1 => {
                ids[k][0] = self.d.below(20) as u8;
                ids[k][20] = 1 << self.d.below(8);
            }
            2 => ids[k].resize(self.d.of(&[0, 20, 22, 40]), 0),
            3 => {
                flag = 0;
                ids[2][self.d.below(21)] |= 1 << self.d.below(8);
            }
            _ => inputs::spoil(&mut self.d, i / 5, &mut x),
        }
        (self.sink)(&Case { y: &ids[0], z: &ids[1], w: &ids[2], ..Case::new(Op::Authenticate, side | flag << 8, &x, 0) }.declined(7));
    }

    // Calls that are declined because of a record or an order: the Rust has no such record

    /// No record that is well formed, and one that is, for resumption.
    pub fn declined_record(&mut self, x: &[u8], good: &[u8], room: usize) {
        (self.sink)(&Case::new(Op::Write, 0, x, room).declined(7));
        (self.sink)(&Case::new(Op::Length, 0, x, 0).declined(7));
        let side = self.side();
        (self.sink)(&Case::new(Op::Check, side, x, 0).declined(7));
        (self.sink)(&Case { y: good, ..Case::new(Op::Resume, 0, x, 0).declined(7) });
        (self.sink)(&Case { y: x, ..Case::new(Op::Resume, 0, good, 0).declined(7) });
    }

    pub fn declined(&mut self, n: usize) {
        for i in 0..n {
            let legal = self.d.one_in(2);
            let good = image::of_record(&inputs::record(&mut self.d, legal));
            let mut bad = good;
            inputs::spoil(&mut self.d, i, &mut bad);
            let room = self.d.of(&[0, 100, MOST]);
            let cut = &good[..self.d.below(RECORD)];
            let long = [&good[..], &[0]].concat();
            for x in [&bad[..], cut, &long] {
                self.declined_record(x, &good, room);
            }
            for x in [cut, &long] {
                (self.sink)(&Case::new(Op::Issue, 0, x, 0).declined(7));
            }
            // an order that is out of range or that repeats a place
            let mut order = self.d.permutation();
            let at = self.d.below(PLACES);
            order[at] = if self.d.one_in(2) { 22 + self.d.below(234) as u8 } else { order[(at + 1 + self.d.below(PLACES - 1)) % PLACES] };
            for (mut x, code) in [(good, 6), (bad, 7)] {
                x[281] = 1;
                x[282..image::VERSIONS].copy_from_slice(&order);
                // an order that is there hides what spoilt an absent one
                if code == 6 || i % inputs::SPOILS != inputs::SPOILS - 1 {
                    (self.sink)(&Case::new(Op::Write, 0, &x, room).declined(code));
                    // the length does not look at the order
                    (self.sink)(&Case::new(Op::Length, 0, &x, 0).declined(if code == 6 { 0 } else { code }));
                }
            }
        }
    }
}

/// Every byte string of up to `most` bytes.
fn every(most: usize, mut f: impl FnMut(&[u8])) {
    for len in 0..=most {
        for i in 0..1u64 << (8 * len) {
            f(&i.to_be_bytes()[8 - len..]);
        }
    }
}
