//! Links the library for this processor: from BAHRUFAZ_LIB_DIR, else from the checkout's target/lib.

use std::env;
use std::path::PathBuf;
use std::process::exit;

fn main() {
    println!("cargo:rerun-if-env-changed=BAHRUFAZ_LIB_DIR");
    let checkout = PathBuf::from(env::var_os("CARGO_MANIFEST_DIR").expect("cargo sets it"));
    let directory = match env::var_os("BAHRUFAZ_LIB_DIR") {
        Some(named) => PathBuf::from(named),
        None => checkout.join("../target/lib"),
    };
    let archive = directory.join("libbahrufaz.a");
    if !archive.exists() {
        eprintln!(
            "{} is missing: run 'make lib' in the checkout, or set BAHRUFAZ_LIB_DIR to where it is",
            archive.display()
        );
        exit(1);
    }
    println!("cargo:rerun-if-changed={}", archive.display());
    println!("cargo:rustc-link-search=native={}", directory.display());
    println!("cargo:rustc-link-lib=static=bahrufaz");
}
