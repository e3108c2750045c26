//! A case is one call, all in bytes and numbers; an answer is what came back. Both programs take the same cases.

/// The operations. Those from `Check` on have no counterpart in the Rust, but for `Authenticate`:
/// all but `CheckOrder` and `OrderFault` are held to what its operations give, and `Report` to what
/// docs/SCOPE.md makes of it (Where the bytes go).
#[derive(Clone, Copy, PartialEq, Eq, Debug)]
#[repr(u8)]
pub enum Op {
    NumberSize,
    NumberRead,
    NumberWrite,
    CidRead,
    CidWrite,
    Default,
    Read,
    Write,
    New,
    Resume,
    Issue,
    /// legal exactly if the Rust reads back what it writes; takes a side and a record
    Check,
    /// the Rust reads, then writes; takes a side and an extension
    Tidy,
    /// the same, but the library tidies twice
    TidyTwice,
    /// takes an order; with `OrderFault` the operations that are never put to quinn
    CheckOrder,
    /// how many bytes the Rust writes, in the record's order; in catalogue order if that is no permutation, which the length does not look at
    Length,
    /// takes an order of any length
    OrderFault,
    /// takes a side, a record and the IDs that packets carried; quinn has one error, RFC 9000
    /// section 7.3 tells an absence, 13, from a mismatch, 14
    Authenticate,
    /// the Rust reads, then writes, which gives the tidied length; of the other bytes docs/SCOPE.md
    /// says what they are; takes a side and an extension
    Report,
    /// the Rust reads an extension that it accepts, the library the same whole parameters in another order
    Rearranged,
    /// the same, but tidied
    TidyRearranged,
}

impl Op {
    /// Whether it takes an extension.
    pub fn takes_extension(self) -> bool {
        matches!(self, Op::Read | Op::Tidy | Op::TidyTwice | Op::Report | Op::Rearranged | Op::TidyRearranged)
    }

    /// Whether it takes a record, or two.
    pub fn takes_record(self) -> bool {
        matches!(self, Op::Write | Op::Resume | Op::Issue | Op::Check | Op::Length | Op::Authenticate)
    }

    pub const ALL: [(Op, &'static str); 21] = [
        (Op::NumberSize, "number_size"),
        (Op::NumberRead, "number_read"),
        (Op::NumberWrite, "number_write"),
        (Op::CidRead, "cid_read"),
        (Op::CidWrite, "cid_write"),
        (Op::Default, "default"),
        (Op::Read, "read"),
        (Op::Write, "write"),
        (Op::New, "new"),
        (Op::Resume, "resumption"),
        (Op::Issue, "issue_limit"),
        (Op::Check, "check"),
        (Op::Tidy, "tidy"),
        (Op::TidyTwice, "tidy twice"),
        (Op::CheckOrder, "check_order"),
        (Op::Length, "length"),
        (Op::OrderFault, "order_fault"),
        (Op::Authenticate, "authentication"),
        (Op::Report, "report"),
        (Op::Rearranged, "rearranged"),
        (Op::TidyRearranged, "tidy rearranged"),
    ];
}

/// One call: the fields that an operation does not name are 0 and empty.
///
/// | operation | number | x | y | z | w |
/// |---|---|---|---|---|---|
/// | number_size, number_write | the value | | | | |
/// | number_read, cid_read | | the input | | | |
/// | cid_write | | an ID's image | | | |
/// | read, tidy, report | side | the extension | | | |
/// | rearranged, tidy rearranged | side | the extension | the same in another order | | |
/// | check | side | a record's image | | | |
/// | write, issue_limit, length | | a record's image | | | |
/// | resumption | | a record's image | the cached one's | | |
/// | new | the draw | twelve settings, eight bytes each | the ID's image | payload | order |
/// | check_order, order_fault | | the order | | | |
/// | authentication | side, and 256 times the flag of a Retry | a record's image | initial_src_cid's, as seen | original_dst_cid's | retry_src_cid's |
#[derive(Clone, Copy)]
pub struct Case<'a> {
    pub op: Op,
    pub number: u64,
    pub x: &'a [u8],
    pub y: &'a [u8],
    pub z: &'a [u8],
    pub w: &'a [u8],
    /// the length of the output
    pub room: usize,
    /// 0; or the refusal that is due where the Rust has no answer: docs/SCOPE.md gives it, and the
    /// case is made to call for it
    pub declined: u8,
}

impl<'a> Case<'a> {
    pub fn new(op: Op, number: u64, x: &'a [u8], room: usize) -> Self {
        Case { op, number, x, y: &[], z: &[], w: &[], room, declined: 0 }
    }

    pub fn declined(self, declined: u8) -> Self {
        Case { declined, ..self }
    }

    /// Of a rearranged extension: the other order, to be read or tidied.
    pub fn other_order(&self) -> Option<Self> {
        let op = match self.op {
            Op::Rearranged => Op::Read,
            Op::TidyRearranged => Op::Tidy,
            _ => return None,
        };
        Some(Case::new(op, self.number, self.y, self.room))
    }
}

/// The longest output that a case may ask for.
pub const MOST: usize = 512;

/// How many bytes number_read stores, two numbers, and report, five.
pub const NUMBER: usize = 2 * 8;
pub const COUNTS: usize = 5 * 8;

/// What a call gave: the refusal or 0, a number (a count, a limit, a size; 0 if refused or none), and the bytes stored.
///
/// number_read stores its value and the bytes that its shortest form would have saved, report its five counts, each as eight bytes, high byte first.
/// order_fault has its number, the position, with code 6, and none with 0.
pub struct Answer {
    pub code: u8,
    pub number: u64,
    pub len: usize,
    pub bytes: [u8; MOST],
}

impl PartialEq for Answer {
    fn eq(&self, other: &Self) -> bool {
        (self.code, self.number, self.due()) == (other.code, other.number, other.due())
    }
}

impl Answer {
    pub fn refused(code: u8) -> Self {
        Answer { code, number: 0, len: 0, bytes: [0; MOST] }
    }

    pub fn number(number: u64) -> Self {
        Answer { number, ..Self::refused(0) }
    }

    pub fn stored(number: u64, stored: &[u8]) -> Self {
        let mut bytes = [0; MOST];
        bytes[..stored.len()].copy_from_slice(stored);
        Answer { code: 0, number, len: stored.len(), bytes }
    }

    pub fn due(&self) -> &[u8] {
        &self.bytes[..self.len]
    }
}
