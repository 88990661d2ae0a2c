//! Links the static library of the proved crate, and has it made where it is missing or older than its source; or links
//! the one in the folder that `CODEC_FFI_LIB` names, as it is.

use std::path::{Path, PathBuf};
use std::process::Command;
use std::time::SystemTime;
use std::{env, fs};

const MAKE: &str = "tools/make-archive";

fn main() {
    let here = PathBuf::from(env::var_os("CARGO_MANIFEST_DIR").expect("set by cargo"));
    let root = here.parent().expect("host/ lies in the repository");
    let named = env::var_os("CODEC_FFI_LIB").map(PathBuf::from);
    let folder = named.clone().unwrap_or_else(|| root.join("target/staticlib"));
    let archive = folder.join("libcodec_ffi.a");
    let crates = root.join("crates");
    println!("cargo::rerun-if-env-changed=CODEC_FFI_LIB");
    println!("cargo::rerun-if-changed={}", archive.display());
    println!("cargo::rerun-if-changed={}", crates.display());
    let old =
        || newest(&crates).is_some_and(|source| changed(&archive).is_none_or(|made| source > made));
    if named.is_none() && old() {
        make(root);
    }
    println!("cargo::rustc-link-search=native={}", folder.display());
    println!("cargo::rustc-link-lib=static=codec_ffi");
    println!("cargo::rustc-env=CODEC_FFI_ARCHIVE={}", archive.display());
}

fn changed(file: &Path) -> Option<SystemTime> {
    fs::metadata(file).and_then(|data| data.modified()).ok()
}

/// When the youngest source file below this folder was written.
fn newest(folder: &Path) -> Option<SystemTime> {
    let entries = fs::read_dir(folder).into_iter().flatten().flatten().map(|entry| entry.path());
    let times = entries.filter_map(|path| match path.is_dir() {
        true if path.ends_with("out") => None,
        true => newest(&path),
        false => path.extension().filter(|e| *e == "rt").and_then(|_| changed(&path)),
    });
    times.max()
}

fn make(root: &Path) {
    let made = Command::new(root.join(MAKE)).current_dir(root).output();
    if !made.is_ok_and(|output| output.status.success()) {
        println!("cargo::error=no static library: run `{MAKE}` at the root of the repository");
    }
}
