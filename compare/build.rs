//! Writes the file that names the printed modules.
//!
//! The printed files are compiled from where they stand and are not copied: the file made here
//! points at each of them by its full path. `EVTX_SRC` names the folder that holds them (the one
//! with INDEX.md); a relative one counts from the repository's root.
//!
//! The package compare-vector is the same sources with the true memchr and crc32fast in place of
//! their stand-ins, for the benchmark. `MEMCHR_SRC` names the folder of memchr's source, `CRC_SRC`
//! that of crc32fast's, with cfg-if's beside it; without them that package has the stand-ins too. The
//! sources are compiled here and not by cargo, which would have to find them, and the crates that
//! they name, before it builds anything at all.

use std::path::{Path, PathBuf};
use std::process::Command;
use std::{env, fs};

/// The folder beside the repository's checkout.
const DEFAULT_SOURCES: &str = "../shared/docs/src";

fn main() {
    println!("cargo::rerun-if-env-changed=EVTX_SRC");
    let manifest = PathBuf::from(env::var_os("CARGO_MANIFEST_DIR").expect("set by cargo"));
    let vector = env::var("CARGO_PKG_NAME").is_ok_and(|name| name == "compare-vector");
    let package = match manifest.parent() {
        Some(above) if vector => above,
        _ => &manifest,
    };
    let root = package.parent().expect("the repository's root");
    let named = env::var_os("EVTX_SRC").map(PathBuf::from);
    let sources = root.join(named.unwrap_or_else(|| DEFAULT_SOURCES.into()));
    let Ok(sources) = sources.canonicalize() else {
        panic!(
            "no printed Rust at {}: set EVTX_SRC to the folder with INDEX.md",
            sources.display()
        );
    };

    let out = PathBuf::from(env::var_os("OUT_DIR").expect("set by cargo"));
    let text = modules(&sources.join("src"), &package.join("src"));
    fs::write(out.join("printed.rs"), text).expect("OUT_DIR takes a file");

    println!("cargo::rustc-check-cfg=cfg(true_memchr)");
    let memchr = if vector { memchr(root, &out) } else { None };
    println!("cargo::rustc-env=MEMCHR={}", memchr.unwrap_or_default());
    println!("cargo::rustc-check-cfg=cfg(true_crc32fast)");
    let crc = if vector { crc32fast(root, &out) } else { None };
    println!("cargo::rustc-env=CRC={}", crc.unwrap_or_default());
}

/// Compiles memchr where its source is at hand, and hands back the name of the source's folder. The
/// crate has a name of its own, since std has a memchr too. What its own build script sets is set
/// here: the vector code, which asks the machine at run time what it can do.
fn memchr(root: &Path, out: &Path) -> Option<String> {
    println!("cargo::rerun-if-env-changed=MEMCHR_SRC");
    let folder = root.join(env::var_os("MEMCHR_SRC")?);
    let file = folder.join("src/lib.rs");
    println!("cargo::rerun-if-changed={}", file.display());

    let mut rustc = rustc("true_memchr", "2018", out);
    rustc.arg("--cfg=feature=\"std\"");
    if env::var("CARGO_CFG_TARGET_ARCH").is_ok_and(|arch| arch == "x86_64") {
        for part in ["simd", "sse2", "sse42", "avx"] {
            rustc.arg(format!("--cfg=memchr_runtime_{part}"));
        }
    }
    compile(rustc, &file);

    println!("cargo::rustc-link-search={}", out.display());
    println!("cargo::rustc-cfg=true_memchr");
    Some(folder.file_name()?.display().to_string())
}

/// The same of crc32fast, and of cfg-if, which it names: its folder stands beside.
fn crc32fast(root: &Path, out: &Path) -> Option<String> {
    println!("cargo::rerun-if-env-changed=CRC_SRC");
    let folder = root.join(env::var_os("CRC_SRC")?);
    let beside = fs::read_dir(folder.parent()?).ok()?;
    let is_cfg_if = |path: &PathBuf| path.to_string_lossy().contains("/cfg-if-");
    let cfg_if = beside
        .flatten()
        .map(|entry| entry.path())
        .find(is_cfg_if)?
        .join("src/lib.rs");
    compile(rustc("cfg_if", "2018", out), &cfg_if);

    let file = folder.join("src/lib.rs");
    println!("cargo::rerun-if-changed={}", file.display());
    let mut rustc = rustc("true_crc32fast", "2015", out);
    rustc.args(["--cfg=feature=\"std\"", "--cfg=crc32fast_stdarchx86"]);
    let named = format!("cfg_if={}", out.join("libcfg_if.rlib").display());
    rustc.args(["--extern", &named]);
    compile(rustc, &file);

    println!("cargo::rustc-link-search={}", out.display());
    println!("cargo::rustc-cfg=true_crc32fast");
    Some(folder.file_name()?.display().to_string())
}

/// A library of this name and edition, into this folder.
fn rustc(name: &str, edition: &str, out: &Path) -> Command {
    let mut rustc = Command::new(env::var_os("RUSTC").expect("set by cargo"));
    rustc.arg(format!("--crate-name={name}"));
    rustc.args([
        "--crate-type=rlib",
        "--edition",
        edition,
        "--cap-lints=allow",
    ]);
    rustc.args(["-Copt-level=3", "-Ccodegen-units=1"]);
    let target = env::var("TARGET").expect("set by cargo");
    rustc.args(["--target", &target, "--out-dir"]).arg(out);
    rustc
}

fn compile(mut rustc: Command, file: &Path) {
    let status = rustc.arg(file).status().expect("rustc runs");
    assert!(status.success(), "{} does not compile", file.display());
}

/// The module tree of the printed crate. Its places are those of the crate, since the files name
/// each other by `crate::` paths.
fn modules(printed: &Path, ours: &Path) -> String {
    let by_path = |file: &str, item: &str| {
        let path = source(printed, file);
        format!("#[allow(warnings, clippy::all)]\n#[path = {path:?}]\n{item}\n")
    };
    let standin = |file: &str, item: &str| {
        let path = ours.join("standins").join(file);
        format!("#[path = {path:?}]\n{item}\n")
    };

    let mut text = String::new();
    text += &by_path("err.rs", "pub mod err;");
    text += &by_path("evtx_file_header.rs", "mod evtx_file_header;");
    text += &by_path("evtx_parser.rs", "mod evtx_parser;");
    text += &by_path("evtx_record.rs", "mod evtx_record;");
    text += &by_path("string_cache.rs", "mod string_cache;");
    text += &by_path("utils/mod.rs", "mod utils;");
    for file in ["byte_cursor", "bytes", "parse_error", "utf16", "windows"] {
        source(printed, &format!("utils/{file}.rs"));
    }

    // The walk's state and its steps are private to evtx_chunk.rs. Its text is taken into a
    // module that has one child of ours, which may see them.
    let walk = source(printed, "evtx_chunk.rs");
    let child = ours.join("oracle").join("raw_walk.rs");
    text += &format!(
        "#[allow(warnings, clippy::all)]\nmod evtx_chunk {{\ninclude!({walk:?});\n\
         #[warn(warnings)]\n#[path = {child:?}]\npub(crate) mod raw_walk;\n}}\n"
    );

    text += "pub mod model {\n";
    text += &by_path("model/ir.rs", "pub(crate) mod ir;");
    text += "}\n";
    text += "pub mod binxml {\n";
    text += &by_path("binxml/name.rs", "pub mod name;");
    text += &by_path("binxml/tokens.rs", "pub(crate) mod tokens;");
    text += &by_path("binxml/value_variant.rs", "pub mod value_variant;");
    text += "pub use tokens::BinXmlTemplateValues;\n";
    text += &standin("compiled.rs", "pub(crate) mod compiled;");
    text += &by_path("binxml/ir.rs", "pub(crate) mod ir;");
    text += &by_path("binxml/array_expand.rs", "pub(crate) mod array_expand;");
    text += &standin("value_render.rs", "pub(crate) mod value_render;");
    text += "}\n";
    text
}

/// The full path of a printed file; a change to it builds anew.
fn source(printed: &Path, file: &str) -> PathBuf {
    let path = printed.join(file);
    assert!(path.is_file(), "the printed Rust has no {file}");
    println!("cargo::rerun-if-changed={}", path.display());
    path
}
