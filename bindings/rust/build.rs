//! Tells cargo where the static library is. Which library it is, and that it is static, stands in
//! `src/linked.rs`, for plain rustc reads no build script.
use std::env;
use std::path::{Path, PathBuf};
use std::process::exit;

const FOLDER: &str = "VIKKOZHAN_LIB_DIR";
const ARCHIVE: &str = "libvikkozhan.a";

fn main() {
    println!("cargo:rerun-if-env-changed={FOLDER}");
    let folder = folder();
    let archive = folder.join(ARCHIVE);
    println!("cargo:rerun-if-changed={}", archive.display());
    if !archive.is_file() {
        eprintln!(
            "vikkozhan: no {ARCHIVE} in {}: `rt lib` in crates/vikkozhan makes it in that crate's out, \
             and {FOLDER} says where else it is",
            folder.display()
        );
        exit(1);
    }
    println!("cargo:rustc-link-search=native={}", folder.display());
}

/// The folder to look in. A relative one counts from the crate's: rustc runs in another than this
/// script does.
fn folder() -> PathBuf {
    let here = env::var_os("CARGO_MANIFEST_DIR").expect("cargo sets CARGO_MANIFEST_DIR");
    let given = env::var_os(FOLDER).map(PathBuf::from);
    let folder =
        Path::new(&here).join(given.unwrap_or_else(|| "../../crates/vikkozhan/out".into()));
    // Without the `..`, for who reads it; the name of a folder that is not there stays as it is.
    folder.canonicalize().unwrap_or(folder)
}
