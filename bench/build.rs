//! Names quinn's files to the compiler as the oracle does, links the static libraries, and compiles the C beside this file.

use std::{env, path::PathBuf, process::Command};

#[path = "../oracle/build.rs"]
mod oracle;

fn run(command: &mut Command) {
    assert!(command.status().is_ok_and(|s| s.success()), "{command:?} failed");
}

/// What the compiler says of itself, as `rustc 1.95.0`.
fn compiler() -> String {
    let out = Command::new(env::var("RUSTC").unwrap()).arg("--version").output().expect("rustc runs");
    String::from_utf8_lossy(&out.stdout).split(' ').take(2).collect::<Vec<_>>().join(" ")
}

fn main() {
    println!("cargo:rustc-env=COMPILER={}", compiler());
    let library = oracle::link();
    println!("cargo:rerun-if-changed={}", library.join("libtiming.a").display());
    let out = PathBuf::from(env::var("OUT_DIR").unwrap());
    let objects = ["ngtcp2", "stack"].map(|name| {
        let (source, object) = (format!("src/{name}.c"), out.join(name).with_extension("o"));
        run(Command::new("gcc").args(["-O3", "-Wall", "-Wextra", "-Werror", "-c", &source, "-o"]).arg(&object));
        println!("cargo:rerun-if-changed={source}");
        object
    });
    let archive = out.join("libpeer.a");
    let _ = std::fs::remove_file(&archive);
    run(Command::new("ar").arg("crs").arg(&archive).args(objects));
    println!("cargo:rustc-link-search=native={}", out.display());
    for library in ["static=timing", "static=peer", "dylib=ngtcp2"] {
        println!("cargo:rustc-link-lib={library}");
    }
}
