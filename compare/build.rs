//! Says where the linker finds the archives of the other machine, and that a new
//! archive has to be linked anew.

use std::env;
use std::path::{Path, PathBuf};

fn main() {
    println!("cargo:rerun-if-changed=build.rs");
    println!("cargo:rerun-if-env-changed=DRUVISHA_ARCHIVE");
    for (feature, name) in [("ARCHIVE", "abi"), ("GAUGE", "gauge")] {
        let folder = folder_of(name);
        println!("cargo:rustc-link-search=native={}", folder.display());
        if env::var_os(format!("CARGO_FEATURE_{}", feature)).is_some() {
            let archive = folder.join(format!("lib{}.a", name));
            println!("cargo:rerun-if-changed={}", archive.display());
        }
    }
}

/// The folder of a crate's archive: the one that the environment names, or where
/// the toolchain makes it.
fn folder_of(name: &str) -> PathBuf {
    match env::var_os("DRUVISHA_ARCHIVE") {
        Some(named) => PathBuf::from(named),
        None => Path::new(&env::var_os("CARGO_MANIFEST_DIR").unwrap_or_default())
            .join(format!("../crates/{}/out", name)),
    }
}
