//! Links `libkelzoud.a` from the directory in `KELZOUD_LIB`, where that is set.

use std::path::Path;

#[path = "../../bindings/rust/link.rs"]
mod link;

fn main() {
    println!("cargo::rustc-check-cfg=cfg(library)");
    let repository = Path::new(env!("CARGO_MANIFEST_DIR")).join("../..");
    if let Some(directory) = link::named_directory(&repository) {
        println!("cargo::rustc-cfg=library");
        link::link_from(&directory);
    }
}
