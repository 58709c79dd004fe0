//! Tells the linker where `libzeppolecape.a` lies: in the folder that `ZEPPOLECAPE_LIB_DIR` names,
//! else, in a clone of the repository, where `make` writes it.

use std::env;
use std::path::{Path, PathBuf};
use std::process::exit;

const VARIABLE: &str = "ZEPPOLECAPE_LIB_DIR";
const ARCHIVE: &str = "libzeppolecape.a";
const ADVICE: &str =
    "Build the archive with `make` in the repository of zeppolecape, which writes \
    target/lib/libzeppolecape.a, or install it with `make install PREFIX=..`; then set \
    ZEPPOLECAPE_LIB_DIR to the absolute path of the archive's folder.";

fn stop(what: &str) -> ! {
    eprintln!("zeppolecape: {what}\n{ADVICE}");
    exit(1)
}

fn folder() -> PathBuf {
    match env::var_os(VARIABLE) {
        Some(named) if Path::new(&named).is_absolute() => PathBuf::from(named),
        Some(named) => stop(&format!("{VARIABLE} is not an absolute path: {named:?}")),
        None => {
            let here = env::var_os("CARGO_MANIFEST_DIR").expect("cargo names the crate's folder");
            Path::new(&here).join("../../target/lib")
        }
    }
}

fn main() {
    println!("cargo:rerun-if-env-changed={VARIABLE}");
    let target = env::var("TARGET").unwrap_or_default();
    if !target.starts_with("x86_64-") {
        stop(&format!("the archive is for x86-64, and the target is {target}"));
    }
    let archive = folder().join(ARCHIVE);
    if !archive.is_file() {
        let how = if env::var_os(VARIABLE).is_some() { "names its folder" } else { "is not set" };
        stop(&format!("there is no {} ({VARIABLE} {how})", archive.display()));
    }
    println!("cargo:rerun-if-changed={}", archive.display());
    println!("cargo:rustc-link-search=native={}", folder().display());
}
