//! Tells by `cfg(other_rank)`, `cfg(other_write_package)`,
//! `cfg(other_join_bundles)`, `cfg(other_look_before_join)` and
//! `cfg(other_quick_look)` whether the other build of the library, which the feature
//! `other` links, has these entries: builds from before an entry have no such
//! function to link. One with `join_bundles` has `read_bundle` too.

use std::env;
use std::path::{Path, PathBuf};
use std::process::{exit, Command};

/// The archive of the other build, as `bin/bench` makes it.
const ARCHIVE: &str = "libperk_other.a";

/// The entries that another build may not have. The names of its functions are
/// theirs after `other_perk_`.
const ENTRIES: [&str; 5] = [
    "rank",
    "write_package",
    "join_bundles",
    "look_before_join",
    "quick_look",
];

/// The archive in the directories that the flags of the compiler name: `-L` and
/// then, or at once, `native=` and the directory.
fn archive() -> Option<PathBuf> {
    let flags = env::var("CARGO_ENCODED_RUSTFLAGS").unwrap_or_default();
    let directories = flags
        .split('\x1f')
        .filter_map(|flag| flag.trim_start_matches("-L").strip_prefix("native="));
    let mut archives = directories.map(|directory| Path::new(directory).join(ARCHIVE));
    archives.find(|archive| archive.is_file())
}

/// What `nm` lists of the archive.
fn listed(archive: &Path) -> String {
    let output = Command::new("nm").arg(archive).output();
    let Ok(output) = output else {
        eprintln!("nm cannot be run: it lists the functions of {ARCHIVE}");
        exit(1);
    };
    String::from_utf8_lossy(&output.stdout).into_owned()
}

fn main() {
    for entry in ENTRIES {
        println!("cargo:rustc-check-cfg=cfg(other_{entry})");
    }
    println!("cargo:rerun-if-changed=build.rs");
    println!("cargo:rerun-if-env-changed=CARGO_ENCODED_RUSTFLAGS");
    if env::var_os("CARGO_FEATURE_OTHER").is_none() {
        return;
    }
    let Some(archive) = archive() else { return };
    println!("cargo:rerun-if-changed={}", archive.display());
    let list = listed(&archive);
    for entry in ENTRIES {
        let ends = format!(" T other_perk_{entry}");
        if list.lines().any(|line| line.ends_with(&ends)) {
            println!("cargo:rustc-cfg=other_{entry}");
        }
    }
}
