//! Compares Yuthpram with quinn's Rust, in one process. This file is the crate root that quinn's files expect; see README.md.

#![allow(unexpected_cfgs)]

mod answer;
mod compare;
mod counts;
mod due;
mod image;
mod inputs;
mod kinds;
mod library;
mod list;
mod rust;
mod suite;
mod versions;

include!("quinn.rs");

fn main() {
    let words: Vec<String> = std::env::args().skip(1).collect();
    rust::quiet_panics();
    match words.first().map(String::as_str) {
        Some("compare") => compare::compare(false),
        Some("plant") => compare::compare(true),
        Some("record") => list::record(),
        Some("replay") => list::replay(),
        _ => {
            eprintln!("oracle compare | plant | record | replay");
            std::process::exit(2);
        }
    }
}
