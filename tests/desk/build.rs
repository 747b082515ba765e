//! Links the archive of the crate desk_c, which `.ci/build` or the gate puts at target/staticlib/libdesk.a.

use std::path::Path;

fn main() {
    let root = Path::new(env!("CARGO_MANIFEST_DIR")).join("../..");
    let folder = root.join("target/staticlib");
    println!("cargo:rustc-link-search=native={}", folder.display());
    println!("cargo:rustc-link-lib=static=desk");
    let file = folder.join("libdesk.a");
    println!("cargo:rerun-if-changed={}", file.display());
}
