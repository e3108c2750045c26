//! Times Yuthpram beside quinn's Rust and ngtcp2, in one process. This file is the crate root that quinn's files expect.

#![allow(unexpected_cfgs)]

mod aims;
mod calls;
mod chart;
mod crate_record;
#[path = "../../oracle/src/image.rs"]
#[allow(dead_code)]
mod image;
mod measure;
mod page;
mod samples;

include!("../../oracle/src/quinn.rs");

use calls::{ALIKE, ALL, OPS, Op, Who, accepts, call, exists};
use samples::{ORDERS, Sample, without_versions};

/// Whether quinn and Yuthpram store the same bytes, in each order, but for version information.
fn same(op: Op, s: &Sample) -> bool {
    let stored = |who: Who, times: usize| {
        let mut out = [0; calls::ROOM];
        let count = call(who, op, s, times, &mut out);
        assert!(out[count..].iter().all(|b| *b == 0), "{} stores what it does not count", who.name());
        out[..count].to_vec()
    };
    let turns = if op.many() { ORDERS } else { 1 };
    (1..=turns).all(|times| {
        let [quinn, ours @ ..] = ALIKE.map(|who| stored(who, times));
        ours.iter().all(|bytes| *bytes == ours[0]) && without_versions(&ours[0]) == quinn
    })
}

/// Before anything is timed: every library accepts each sample in each order, and quinn and Yuthpram read and store the same.
fn agree(samples: &[Sample]) {
    for s in samples {
        for who in ALL {
            let every = [Op::Read, Op::ReadOrders].iter().flat_map(|op| s.read_by(*op));
            every.for_each(|bytes| assert!(accepts(who, bytes, s), "{} reads {} otherwise", who.name(), s.name));
        }
        for op in OPS.into_iter().filter(|op| !matches!(op, Op::Read | Op::ReadOrders) && exists(Who::Quinn, *op, s)) {
            assert!(same(op, s), "{op:?} of {} differs", s.name);
        }
    }
}

/// The operation of this name.
fn op(name: &str) -> Op {
    OPS.into_iter().chain([Op::Singly]).find(|op| op.name() == name).expect("an operation")
}

fn main() {
    let words: Vec<String> = std::env::args().skip(1).collect();
    match words.iter().map(String::as_str).collect::<Vec<_>>()[..] {
        ["time"] => {
            let samples = samples::samples();
            agree(&samples);
            print!("{}", page::times(&samples, &measure::times(&samples)));
        }
        ["here"] => measure::here(&samples::samples()).iter().for_each(|ns| println!("{ns}")),
        ["instructions"] => {
            let samples = samples::samples();
            agree(&samples);
            print!("{}", page::table(&samples, &measure::counts(&samples), |_, _, _| None));
        }
        ["page", file, svg] => {
            let samples = samples::samples();
            agree(&samples);
            page::write(file, svg, &samples).expect("the page is written");
        }
        ["count", who, name, sample, times] => {
            let at = |word: &str| word.parse::<usize>().expect("a number");
            let mut out = [0; calls::ROOM];
            call(ALL[at(who)], op(name), &samples::sample(at(sample)), at(times), &mut out);
        }
        _ => {
            eprintln!("bench time | here | instructions | page FILE.md FILE.svg | count WHO OP SAMPLE TIMES");
            std::process::exit(2);
        }
    }
}
