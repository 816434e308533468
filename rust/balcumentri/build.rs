//! Links the proved library, which `rust/build library` makes in the repository's target/staticlib/.

use std::path::Path;

fn main() {
    let folder = Path::new(env!("CARGO_MANIFEST_DIR")).join("../../target/staticlib");
    let library = folder.join("libexports.a");
    println!("cargo:rerun-if-changed={}", library.display());
    if library.exists() {
        println!("cargo:rustc-link-search=native={}", folder.display());
        println!("cargo:rustc-link-lib=static=exports");
    } else {
        eprintln!("target/staticlib/libexports.a is missing: run `rust/build library` at the repository's root");
        std::process::exit(1);
    }
}
