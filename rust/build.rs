//! Finds the proved libraries, libstrumok_c.a and liborders_c.a, and has them linked.
//!
//! They are looked for in the directory that the environment variable STRUMOK_LIB_DIR names, or
//! else in target/staticlib beside this package's directory.

use std::env;
use std::path::{Path, PathBuf};
use std::process::exit;

fn main() {
    println!("cargo:rerun-if-env-changed=STRUMOK_LIB_DIR");
    let package = env::var_os("CARGO_MANIFEST_DIR").expect("cargo sets CARGO_MANIFEST_DIR");
    let directory = match env::var_os("STRUMOK_LIB_DIR") {
        Some(directory) => PathBuf::from(directory),
        None => Path::new(&package).join("../target/staticlib"),
    };
    println!("cargo:rustc-link-search=native={}", directory.display());
    for name in ["strumok_c", "orders_c"] {
        let library = directory.join(format!("lib{name}.a"));
        println!("cargo:rerun-if-changed={}", library.display());
        if !library.is_file() {
            eprintln!(
                "{} is missing. Make it with `tools/staticlib {name}`, \
                 or set STRUMOK_LIB_DIR to the directory that holds lib{name}.a.",
                library.display()
            );
            exit(1);
        }
        println!("cargo:rustc-link-lib=static={name}");
    }
}
