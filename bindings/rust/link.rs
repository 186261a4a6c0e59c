// Links `libkelzoud.a`; shared by the build scripts of this repository.

use std::env;
use std::path::{Path, PathBuf};

/// The directory in `KELZOUD_LIB`, where that is set; a relative one is taken from the root of the
/// repository.
pub fn named_directory(repository: &Path) -> Option<PathBuf> {
    println!("cargo::rerun-if-env-changed=KELZOUD_LIB");
    env::var_os("KELZOUD_LIB").map(|directory| repository.join(directory))
}

pub fn link_from(directory: &Path) {
    let archive = directory.join("libkelzoud.a");
    assert!(
        archive.is_file(),
        "there is no {}: build the library, or set KELZOUD_LIB to its directory",
        archive.display()
    );
    println!("cargo::rerun-if-changed={}", archive.display());
    println!("cargo::rustc-link-search=native={}", directory.display());
    println!("cargo::rustc-link-lib=static=kelzoud");
}
