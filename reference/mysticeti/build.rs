//! Names the Rust's five files where they stand: in the folder LOMKHVIDE_RUST, or in ../shared/docs/src beside the repository.
//! Where they are not there, the modules are left out and nothing is compared with the Rust.

use std::path::{Path, PathBuf};
use std::{env, fs};

const FILES: [&str; 5] = ["committee", "range_map", "types", "threshold_clock", "finalization_interpreter"];

fn main() {
    println!("cargo::rerun-if-env-changed=LOMKHVIDE_RUST");
    println!("cargo::rustc-check-cfg=cfg(has_rust)");
    let beside = concat!(env!("CARGO_MANIFEST_DIR"), "/../../../shared/docs/src");
    let folder = env::var("LOMKHVIDE_RUST").unwrap_or(beside.into());
    let sources = [Path::new(&folder).join("crates/mysticeti-core/src"), PathBuf::from(&folder)];
    let found = sources.iter().find(|source| FILES.iter().all(|file| source.join(format!("{file}.rs")).is_file()));
    let mut modules = String::new();
    if let Some(source) = found {
        println!("cargo::rustc-cfg=has_rust");
        println!("cargo::metadata=present=1");
        for file in FILES {
            let path = fs::canonicalize(source.join(format!("{file}.rs"))).unwrap();
            println!("cargo::rerun-if-changed={}", path.display());
            modules += &format!("#[allow(warnings)]\n#[path = {path:?}]\npub mod {file};\n");
        }
    }
    fs::write(Path::new(&env::var("OUT_DIR").unwrap()).join("modules.rs"), modules).unwrap();
}
