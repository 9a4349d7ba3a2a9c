//! Finds the static libraries, or makes them with the Rattle kit.
//!
//! With PLAVDROSA_LIB set they are taken from that folder. Otherwise the kit proves the crates and makes them, and they are copied to
//! target/staticlib of the repository that this crate stands in.

use std::env;
use std::fs;
use std::path::{Path, PathBuf};
use std::process::Command;

const LIBRARIES: [&str; 2] = ["capi", "capi_relay"];

fn main() {
    println!("cargo::rerun-if-env-changed=PLAVDROSA_LIB");
    let folder = match env::var_os("PLAVDROSA_LIB") {
        Some(folder) => PathBuf::from(folder),
        None => made(),
    };
    println!("cargo::rustc-link-search=native={}", folder.display());
    for name in LIBRARIES {
        let file = folder.join(format!("lib{name}.a"));
        assert!(file.is_file(), "there is no {}", file.display());
        println!("cargo::rerun-if-changed={}", file.display());
        println!("cargo::rustc-link-lib=static={name}");
    }
}

fn made() -> PathBuf {
    let top = Path::new(env!("CARGO_MANIFEST_DIR")).join("../..");
    println!("cargo::rerun-if-changed={}", top.join("crates").display());
    println!("cargo::rerun-if-changed={}", top.join("crates.txt").display());
    let made = top.join("target/staticlib");
    fs::create_dir_all(&made).expect("target/staticlib");
    // crate NAME_c exports the calls of crate NAME
    for name in LIBRARIES {
        let folder = top.join(format!("crates/{name}_c"));
        let done = Command::new("rt").arg("lib").current_dir(&folder).status();
        match done {
            Ok(status) => assert!(status.success(), "rt lib in {} failed: {status}", folder.display()),
            Err(e) => panic!(
                "the Rattle kit's command rt can't be started ({e}): put it on the PATH, or set PLAVDROSA_LIB to a folder with libcapi.a and libcapi_relay.a"
            ),
        }
        let file = folder.join(format!("out/lib{name}_c.a"));
        let copied = fs::copy(&file, made.join(format!("lib{name}.a")));
        assert!(copied.is_ok(), "{} can't be copied: {copied:?}", file.display());
    }
    made
}
