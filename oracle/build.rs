//! Names quinn's files to the compiler, unchanged and where they lie, cuts a few items out of files that do not compile alone, and
//! links the static library.

use std::{env, fs, path::PathBuf};

/// An item of a source file: the attributes and comments above it, its first line, and what follows to its end. That of an `impl` is named with the
/// spaces before it.
fn item(file: &str, first: &str) -> String {
    let (indent, first) = first.split_at(first.len() - first.trim_start().len());
    let lines: Vec<&str> = file.lines().map(|l| l.strip_prefix(indent).unwrap_or("")).collect();
    let at = lines.iter().position(|l| l.starts_with(first)).unwrap_or_else(|| panic!("quinn has no '{first}'"));
    let above = lines[..at].iter().rev().take_while(|l| l.starts_with('#') || l.starts_with("//")).count();
    let ends = |l: &str| l == "}" || !l.starts_with(' ') && (l.ends_with(';') || l.ends_with("{}"));
    let end = at + lines[at..].iter().position(|l| ends(l)).unwrap();
    lines[at - above..=end].join("\n") + "\n\n"
}

#[allow(dead_code)]
fn main() {
    link();
}

/// The folder of the static library.
pub fn link() -> PathBuf {
    let here = PathBuf::from(env::var("CARGO_MANIFEST_DIR").unwrap());
    let root = here.parent().unwrap();
    let folder = |name: &str, default: &str| {
        println!("cargo:rerun-if-env-changed={name}");
        root.join(env::var(name).unwrap_or(default.into()))
    };
    let src = folder("QUINN", "../shared/docs/src").join("quinn-proto/src");
    let library = folder("YUTHPRAM_LIB_DIR", "target/staticlib");

    let mut out = String::new();
    for name in ["transport_parameters", "varint", "coding", "shared"] {
        let path = src.join(name).with_extension("rs");
        out += &format!("#[path = {path:?}]\n#[allow(dead_code)]\npub mod {name};\n\n");
    }
    for (file, items) in [
        (
            "lib.rs",
            &[
                "const LOC_CID_COUNT:",
                "const RESET_TOKEN_SIZE:",
                "const MAX_CID_SIZE:",
                "const MAX_STREAM_COUNT:",
                "const TIMER_GRANULARITY:",
                "pub enum Side ",
                "impl Side ",
            ][..],
        ),
        (
            "token.rs",
            &[
                "pub(crate) struct ResetToken",
                "impl PartialEq for ResetToken",
                "impl Eq for ResetToken",
                "impl From<[u8; RESET_TOKEN_SIZE]> for ResetToken",
                "impl std::ops::Deref for ResetToken",
            ],
        ),
    ] {
        let text = fs::read_to_string(src.join(file)).unwrap_or_else(|e| panic!("{}: {e}", src.join(file).display()));
        out.extend(items.iter().map(|first| item(&text, first)));
    }
    let connection = src.join("connection/mod.rs");
    let text = fs::read_to_string(&connection).unwrap_or_else(|e| panic!("{}: {e}", connection.display()));
    let method = item(&text, "    fn handle_peer_params(&mut self, params: TransportParameters)");
    out += &format!("#[allow(dead_code)]\nimpl Connection {{\n{method}}}\n");
    fs::write(PathBuf::from(env::var("OUT_DIR").unwrap()).join("quinn.rs"), out).unwrap();

    println!("cargo:rerun-if-changed=build.rs");
    println!("cargo:rerun-if-changed={}", src.display());
    println!("cargo:rerun-if-changed={}", library.join("libyuthpram.a").display());
    println!("cargo:rustc-link-search=native={}", library.display());
    println!("cargo:rustc-link-lib=static=yuthpram");
    library
}
