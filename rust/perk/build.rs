//! Links the static library libperk.a from the directory in `PERK_LIB_DIR`,
//! by default the one that `bin/build perk` writes to. A relative directory
//! is taken from the package.

use std::env;
use std::path::PathBuf;
use std::process::exit;

/// The default directory.
const DEFAULT: &str = "../../crates/perk/out";

fn main() {
    let package = PathBuf::from(env::var_os("CARGO_MANIFEST_DIR").expect("cargo sets it"));
    let directory = package.join(env::var_os("PERK_LIB_DIR").unwrap_or_else(|| DEFAULT.into()));
    let archive = directory.join("libperk.a");

    println!("cargo:rerun-if-env-changed=PERK_LIB_DIR");
    println!("cargo:rerun-if-changed={}", archive.display());
    if !archive.is_file() {
        eprintln!(
            "{} is missing: run `bin/build perk`, or set PERK_LIB_DIR to the directory of libperk.a",
            archive.display()
        );
        exit(1);
    }
    println!("cargo:rustc-link-search=native={}", directory.display());
    println!("cargo:rustc-link-lib=static=perk");
}
