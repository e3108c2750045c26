//! Links the static library that `tools/staticlib yuthpram` writes. `YUTHPRAM_LIB_DIR` names its folder, which is then taken as it is; a
//! relative path starts at this crate's folder. Without it the folder is `target/staticlib` of this repository, and the library is built
//! there if it is missing and the kit's `rt` is at hand.
use std::fs;
use std::path::{Path, PathBuf};
use std::process::{exit, Command};

fn main() {
    println!("cargo:rerun-if-env-changed=YUTHPRAM_LIB_DIR");
    let here = PathBuf::from(std::env::var_os("CARGO_MANIFEST_DIR").expect("cargo sets CARGO_MANIFEST_DIR"));
    let dir = match std::env::var_os("YUTHPRAM_LIB_DIR") {
        Some(named) => given(&here, Path::new(&named)),
        None => built(&here.join("../..")),
    };
    println!("cargo:rerun-if-changed={}", dir.join("libyuthpram.a").display());
    println!("cargo:rustc-link-search=native={}", dir.display());
    println!("cargo:rustc-link-lib=static=yuthpram");
}

fn given(here: &Path, named: &Path) -> PathBuf {
    let dir = here.join(named);
    if !dir.join("libyuthpram.a").exists() {
        stop(&format!(
            "YUTHPRAM_LIB_DIR is {}, and there is no libyuthpram.a in {}.\nA relative path starts at the crate's folder, {}.",
            named.display(),
            dir.display(),
            here.display()
        ));
    }
    dir
}

fn built(root: &Path) -> PathBuf {
    let dir = root.join("target/staticlib");
    if !dir.join("libyuthpram.a").exists() {
        let remedy = "Run `tools/staticlib yuthpram` in the repository, or name the library's folder in YUTHPRAM_LIB_DIR.";
        let source = root.join("crates/yuthpram_c");
        match Command::new("rt").arg("lib").current_dir(&source).status() {
            Ok(status) if status.success() => {
                let made = source.join("out/libyuthpram_c.a");
                if let Err(e) = fs::create_dir_all(&dir).and_then(|()| fs::copy(&made, dir.join("libyuthpram.a"))) {
                    stop(&format!("{} cannot be copied to {}: {e}.\n{remedy}", made.display(), dir.display()));
                }
            }
            Ok(_) => stop(&format!("`rt lib` failed in {}.\n{remedy}", source.display())),
            Err(e) => stop(&format!("There is no libyuthpram.a in {}, and `rt` cannot be run: {e}.\n{remedy}", dir.display())),
        }
    }
    dir
}

fn stop(words: &str) -> ! {
    eprintln!("{words}");
    exit(1)
}
