//! The run: the library's answer to every case is compared with the one that is due.

use std::{cell::Cell, time::Instant};

use crate::{
    answer::{Answer, Case, Op},
    due::{self, By, PARTINGS},
    image::{self, RECORD, Versions},
    inputs::{self, Dice, EDGES},
    kinds::KINDS,
    library,
    suite::Suite,
};

pub const SEED: u64 = 0x59_75_74_68_70_72_61_6d;

/// How many differences of an operation are shown whole.
const SHOWN: u64 = 5;

#[derive(Default, Clone, Copy)]
struct Tally {
    cases: u64,
    /// of these, the ones that quinn answered, and those on which the product may part from it; the
    /// others are held to docs/SCOPE.md
    quinn: u64,
    skipped: u64,
    accepted: u64,
    differences: u64,
}

impl Tally {
    fn add(&mut self, t: &Tally) {
        self.cases += t.cases;
        self.quinn += t.quinn;
        self.skipped += t.skipped;
        self.accepted += t.accepted;
        self.differences += t.differences;
    }

    fn line(&self, name: &str) {
        let scope = self.cases - self.quinn - self.skipped;
        println!(
            "{name:<16}{:>12}{:>14}{scope:>14}{:>13}{:>12}{:>13}",
            self.cases, self.quinn, self.skipped, self.accepted, self.differences
        );
    }
}

fn hex(b: &[u8]) -> String {
    b.iter().map(|b| format!("{b:02x}")).collect()
}

fn show(c: &Case, want: &Answer, got: &library::Called) {
    println!("{:?}: number {} x {} y {} z {} w {} room {}", c.op, c.number, hex(c.x), hex(c.y), hex(c.z), hex(c.w), c.room);
    println!("  due     {} number {} bytes {}", want.code, want.number, hex(want.due()));
    println!("  library {} number {} bytes {}", got.code, got.number, hex(&got.output()[..c.room]));
    let outside = got.outside(c.room);
    if c.op != Op::NumberRead && !outside.is_empty() {
        println!("  changed outside of the output, counted from its start: {outside:?}");
    }
}

/// A difference planted on the library's side: in `read`, as if 20, the largest ack_delay_exponent, were 19; of a rearranged extension, as if the
/// parameter at its front had to stay there; in `order_fault`, as if the earlier copy of a repeated entry were at fault; in resumption, as if an
/// absent datagram size counted below 0; in authentication, as if a server looked at original_dst_cid; in tidying twice, as if 11 and 12 were
/// exchanged; in `report`, as if a restated default were counted among the bytes saved; in `check`, as if a server did not look for the chosen version; in each
/// other operation, one bit of one answer, that of the 100th call that was accepted (the first of `default`, which has few). In `number_read` it is a bit of
/// the bytes saved, in `write` of the byte before the output, in `tidy` of the byte behind it.
fn plant(c: &Case, nth: u64, got: &mut library::Called) {
    let now = nth == if c.op == Op::Default { 1 } else { 100 };
    match c.op {
        Op::OrderFault => got.number = c.x.iter().position(|p| c.x.get(got.number as usize) == Some(p)).map_or(got.number, |i| i as u64),
        Op::TidyTwice if got.code == 11 || got.code == 12 => got.code = 23 - got.code,
        Op::TidyTwice => {}
        Op::Check if got.code == 2 => *got = library::call(&Case { x: &with_chosen(c.x), ..*c }),
        Op::Check => {}
        _ if got.code != 0 => {}
        Op::Read if got.output()[64..72] == 20u64.to_be_bytes() => *got = library::refused(2),
        Op::Read => {}
        Op::Rearranged | Op::TidyRearranged if !c.y.starts_with(inputs::parameters(c.x)[0].bytes) => *got = library::refused(11),
        Op::Rearranged | Op::TidyRearranged => {}
        Op::Resume if matches!(due::by(c), By::AbsentSize) => *got = library::refused(8),
        Op::Resume => {}
        Op::Authenticate if c.number & 255 != 0 && c.x[109..130] != *c.z => *got = library::refused(14),
        Op::Authenticate => {}
        Op::Report => {
            let [restated, saved] = [2, 3].map(|k| u64::from_be_bytes(*got.eight(k)));
            *got.eight(2) = [0; 8];
            *got.eight(3) = (restated + saved).to_be_bytes();
        }
        _ if !now => {}
        Op::NumberSize | Op::Issue | Op::Length => got.number ^= 1,
        Op::CheckOrder => got.code ^= 1,
        Op::NumberRead => got.flip(15),
        Op::Write => got.flip(-1),
        Op::Tidy => got.flip(c.room as isize),
        _ => got.flip(0),
    }
}

/// A record's image, with its chosen version among the available ones.
fn with_chosen(image: &[u8]) -> [u8; RECORD] {
    let mut p = image::to_record(image);
    p.versions = p.versions.map(|v| Versions::of(&[v.value(), &v.value()[..4]].concat()[..68.min(v.value().len() + 4)]));
    image::of_record(&p)
}

/// The parts of the documented run.
const PARTS: [(&str, fn(&mut Suite)); 32] = [
    ("default", |s| s.default()),
    ("shown", |s| s.shown()),
    ("real", |s| s.real(1, 500_000)),
    ("numbers", |s| s.numbers(100_000)),
    ("cids", |s| s.cids(200)),
    ("forms", |s| s.forms(&EDGES)),
    ("edges", |s| s.edges()),
    ("edge_pairs", |s| s.edge_pairs()),
    ("sequences", |s| s.sequences(3)),
    ("subsets", |s| s.subsets(1)),
    ("generated", |s| s.generated(1_000_000)),
    ("damaged", |s| s.damaged(2_000, 1)),
    ("random", |s| s.random(3_000)),
    ("records", |s| s.records(1_500_000)),
    ("record_edges", |s| s.record_edges()),
    ("orders", |s| s.orders(100_000)),
    ("order_tests", |s| s.order_tests(1_000_000)),
    ("building", |s| s.building(1_000_000)),
    ("building_refused", |s| s.building_refused(100_000)),
    ("resumption", |s| s.resumption(800_000)),
    ("declined", |s| s.declined(50_000)),
    ("numbers_short", |s| s.numbers_short(3)),
    ("short", |s| s.short(3)),
    ("rearrangements", |s| s.rearrangements(5_000, 100)),
    ("order_faults", |s| s.order_faults(1_000_000)),
    ("datagram_sizes", |s| s.datagram_sizes(10_000)),
    ("kinds", |s| s.kinds(3)),
    ("alike", |s| s.alike()),
    ("authentication", |s| s.authentication(300_000)),
    ("long_forms", |s| s.long_forms()),
    ("versions", |s| s.versions(200_000)),
    ("version_records", |s| s.version_records(200_000)),
];

/// The refusals that quinn does not tell apart: its Malformed, and its one error for connection IDs.
const TOLD_APART: [(u8, &str); 5] = [KINDS[0], KINDS[1], KINDS[2], (13, "13: ID absent"), (14, "14: mismatch")];

/// How many inputs of a kind were skipped in the run against quinn, and to how many of them quinn
/// gives another answer than the one due. Of those with version information that is not asked.
#[derive(Default, Clone, Copy)]
struct Skipped {
    all: u64,
    parted: u64,
}

/// How many other orders a part had read; how many with unknown parameters; with unknown ones of which an identifier or a length is in a longer
/// form than it needs.
#[derive(Default, Clone, Copy)]
struct Shuffles {
    all: u64,
    unknown: u64,
    long: u64,
}

impl Shuffles {
    fn add(&mut self, n: &Shuffles) {
        self.all += n.all;
        self.unknown += n.unknown;
        self.long += n.long;
    }

    fn line(&self, name: &str) {
        println!("{name:<16}{:>12}{:>18}{:>26}", self.all, self.unknown, self.long);
    }

    fn count(&mut self, x: &[u8]) {
        let all = inputs::parameters(x);
        let mut unknown = all.iter().filter(|p| p.is_unknown()).peekable();
        self.all += 1;
        self.unknown += unknown.peek().is_some() as u64;
        self.long += unknown.any(|p| p.is_long()) as u64;
    }
}

/// What a run counts: by operation, by what is skipped, by operation and refusal that quinn does
/// not tell apart, and by part of the run.
#[derive(Default)]
struct Counts {
    tallies: [Tally; Op::ALL.len()],
    skipped: [Skipped; PARTINGS.len()],
    told_apart: [[u64; TOLD_APART.len()]; Op::ALL.len()],
    shuffles: [Shuffles; PARTS.len()],
}

impl Counts {
    /// Makes a call, and says whether it is to be accepted.
    fn take(&mut self, part: usize, c: &Case, planted: bool) -> bool {
        let by = due::by(c);
        let want = due::answer_by(by, c);
        let mut got = library::call(c);
        let t = &mut self.tallies[c.op as usize];
        t.cases += 1;
        t.accepted += (want.code == 0) as u64;
        if planted {
            plant(c, t.accepted, &mut got);
        }
        if !got.is(&want) {
            t.differences += 1;
            if t.differences <= SHOWN && !planted {
                show(c, &want, &got);
            }
        }
        self.count_by(c, by, &want);
        if let Some(k) = TOLD_APART.iter().position(|(refusal, _)| *refusal == want.code) {
            self.told_apart[c.op as usize][k] += 1;
        }
        if c.other_order().is_some() {
            assert_eq!(want.code, 0, "only what is accepted is rearranged");
        }
        if c.op == Op::Rearranged {
            self.shuffles[part].count(c.y);
        }
        want.code == 0
    }

    /// Counts who said what is due.
    fn count_by(&mut self, c: &Case, by: By, want: &Answer) {
        let t = &mut self.tallies[c.op as usize];
        if let Some(i) = PARTINGS.iter().position(|(mark, _)| *mark == by.mark()) {
            t.skipped += 1;
            self.skipped[i].all += 1;
            self.skipped[i].parted += (!matches!(by, By::Versions) && due::is_parted(c, want)) as u64;
        }
        if let By::Quinn = by {
            t.quinn += 1;
            if c.op == Op::Resume {
                assert!(due::by_sizes(c) == *want, "to every pair that is put to quinn, sizes of 0 for absent ones give quinn's answer");
            }
        }
    }

    fn print(&self) {
        println!(
            "{:<16}{:>12}{:>14}{:>14}{:>13}{:>12}{:>13}",
            "operation", "cases", "put to quinn", "by scope", "skipped", "accepted", "differences"
        );
        let mut sum = Tally::default();
        for ((_, name), t) in Op::ALL.iter().zip(&self.tallies) {
            t.line(name);
            sum.add(t);
        }
        sum.line("all");
        println!("{:<60}{:>9}{:>25}", "skipped in the run against quinn", "cases", "quinn answers otherwise");
        for ((mark, inputs), n) in PARTINGS.iter().zip(&self.skipped) {
            let parted = if *mark == By::Versions.mark() { "not asked".to_owned() } else { n.parted.to_string() };
            println!("{inputs:<60}{:>9}{parted:>25}", n.all);
        }
        self.print_told_apart();
        println!("{:<16}{:>12}{:>18}{:>26}", "rearranged of", "orders", "with unknown ones", "of these, in longer forms");
        let mut sum = Shuffles::default();
        for ((name, _), n) in PARTS.iter().zip(&self.shuffles).filter(|(_, n)| n.all > 0) {
            n.line(name);
            sum.add(n);
        }
        sum.line("all");
    }

    fn print_told_apart(&self) {
        let line =
            |name: &str, cells: [String; TOLD_APART.len()]| println!("{name:<16}{}", cells.map(|cell| format!("{cell:>18}")).concat());
        line("refusals", TOLD_APART.map(|(_, name)| name.to_owned()));
        for ((_, name), n) in Op::ALL.iter().zip(&self.told_apart).filter(|(_, n)| **n != [0; TOLD_APART.len()]) {
            line(name, n.map(|n| n.to_string()));
        }
    }
}

pub fn compare(planted: bool) {
    let start = Instant::now();
    let mut counts = Counts::default();
    let part = Cell::new(0);
    let mut sink = |c: &Case| counts.take(part.get(), c, planted);
    let mut suite = Suite { d: Dice(SEED), shuffles: Dice(!SEED), sink: &mut sink };
    for (i, (_, run)) in PARTS.iter().enumerate() {
        part.set(i);
        run(&mut suite);
    }
    counts.print();
    println!("seed {SEED:#x}, {:.1} seconds", start.elapsed().as_secs_f64());
    let operations = counts.tallies.len();
    let found = counts.tallies.iter().filter(|t| t.differences > 0).count();
    if planted {
        println!("a planted difference was found in {found} of {operations} operations");
    }
    if found != if planted { operations } else { 0 } {
        std::process::exit(1);
    }
}
