//! Links the proved static library, which `make lib` writes.
use std::path::Path;

fn main() {
    let folder = Path::new(env!("CARGO_MANIFEST_DIR")).join("../../target/staticlib");
    let library = folder.join("libalf_c.a");
    println!("cargo:rerun-if-changed={}", library.display());
    if !library.exists() {
        panic!("target/staticlib/libalf_c.a is missing: run `make lib` at the top of the repository first");
    }
    println!("cargo:rustc-link-search=native={}", folder.display());
    println!("cargo:rustc-link-lib=static=alf_c");
}
