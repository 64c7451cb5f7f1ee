//! Links the port's archives, which `command/archive` makes; `ARCHIVES` names another folder of them.

use std::env;
use std::path::PathBuf;

fn main() {
    let package = PathBuf::from(env::var_os("CARGO_MANIFEST_DIR").expect("set by cargo"));
    let root = package.join("../..").canonicalize().expect("the root");
    println!("cargo::rerun-if-env-changed=ARCHIVES");
    let folder = env::var_os("ARCHIVES").map_or_else(|| root.join("target/staticlib"), PathBuf::from);
    println!("cargo::rustc-link-search=native={}", folder.display());
    for library in ["doortumble", "nest_call", "event_call", "checksum_call", "sheet_call", "merge_call"] {
        let archive = folder.join(format!("lib{library}.a"));
        assert!(
            archive.is_file(),
            "no {}: 'command/archive {library}' makes it",
            archive.display()
        );
        println!("cargo::rerun-if-changed={}", archive.display());
        println!("cargo::rustc-link-lib=static={library}");
    }
}
