//! Finds libht1130.a and libht1130_tools.a: in HT1130_LIB_DIR, else where the
//! repository builds them.

use std::env;
use std::path::{Path, PathBuf};

fn main() {
    println!("cargo::rerun-if-env-changed=HT1130_LIB_DIR");
    let directory = match env::var_os("HT1130_LIB_DIR") {
        Some(directory) => PathBuf::from(directory),
        None => Path::new(&env::var_os("CARGO_MANIFEST_DIR").expect("set by cargo"))
            .join("../../target/staticlib"),
    };
    println!("cargo::rustc-link-search=native={}", directory.display());
    for library in ["ht1130", "ht1130_tools"] {
        let archive = directory.join(format!("lib{library}.a"));
        println!("cargo::rerun-if-changed={}", archive.display());
        if !archive.exists() {
            println!(
                "cargo::error=no {}: build it, or set HT1130_LIB_DIR to its directory",
                archive.display()
            );
        }
        println!("cargo::rustc-link-lib=static={library}");
    }
}
