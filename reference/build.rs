//! Says whether the Rust's files are there.

use std::env;

fn main() {
    // Nothing else of this folder is read here: a changed README compiles nothing anew.
    println!("cargo::rerun-if-changed=build.rs");
    println!("cargo::rustc-check-cfg=cfg(has_rust)");
    if env::var("DEP_MYSTICETI_PRESENT").is_ok() {
        println!("cargo::rustc-cfg=has_rust");
    }
}
