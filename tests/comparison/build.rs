//! Links the static libraries that `rt lib` wrote in their crates' folders.
use std::path::Path;

fn main() {
    let package = std::env::var("CARGO_MANIFEST_DIR").expect("cargo sets it");
    let crates = Path::new(&package).join("../../crates");
    for library in ["monuvaleck", "comparison"] {
        let folder = crates.join(library).join("out");
        println!("cargo:rustc-link-search=native={}", folder.display());
        println!("cargo:rustc-link-lib=static={library}");
        println!("cargo:rerun-if-changed={}", folder.join(format!("lib{library}.a")).display());
    }
}
