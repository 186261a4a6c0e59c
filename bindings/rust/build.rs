//! Links `libkelzoud.a` from the directory in `KELZOUD_LIB`, or else from where the repository's own
//! build leaves it.

use std::path::Path;

mod link;

fn main() {
    let repository = Path::new(env!("CARGO_MANIFEST_DIR")).join("../..");
    let directory = link::named_directory(&repository);
    link::link_from(&directory.unwrap_or_else(|| repository.join("target/lib")));
}
