//! Finds the engine's archive, `libhost.a`: in the folder that `LOMKHVIDE_LIB` names, else in the repository's `target/staticlib`.

use std::env;
use std::path::{Path, PathBuf};
use std::process::exit;

fn main() {
    println!("cargo::rerun-if-env-changed=LOMKHVIDE_LIB");
    let given = env::var_os("LOMKHVIDE_LIB").map(PathBuf::from);
    let folder = match &given {
        // The archive itself may be named too.
        Some(path) if path.is_file() => path.parent().unwrap_or(Path::new(".")).to_path_buf(),
        Some(path) => path.clone(),
        None => Path::new(env!("CARGO_MANIFEST_DIR")).join("../../target/staticlib"),
    };
    let archive = folder.join("libhost.a");
    println!("cargo::rerun-if-changed={}", archive.display());
    if !archive.is_file() {
        let from = if given.is_some() { "LOMKHVIDE_LIB names that folder" } else { "LOMKHVIDE_LIB is not set" };
        println!("cargo::error=the engine's archive is missing: {} ({from})", archive.display());
        println!("cargo::error=run host/archive in the repository, or set LOMKHVIDE_LIB to the folder that holds libhost.a");
        exit(1);
    }
    println!("cargo::rustc-link-search=native={}", folder.display());
}
