//! Finds the direction test under C names, which `scripts/host-tests.sh` proves and writes before it runs these tests.
use std::path::Path;

fn main() {
    let folder = Path::new(env!("CARGO_MANIFEST_DIR")).join("../../target/staticlib");
    let library = folder.join("libdirection_c.a");
    println!("cargo:rerun-if-changed={}", library.display());
    if !library.exists() {
        panic!("target/staticlib/libdirection_c.a is missing: run `make compare` at the top of the repository");
    }
    println!("cargo:rustc-link-search=native={}", folder.display());
}
