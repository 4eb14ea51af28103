//! Links the static library of the proved functions, which tests/calls/library builds.

use std::path::Path;

fn main() {
    let root = Path::new(env!("CARGO_MANIFEST_DIR")).join("../..");
    let folder = root.join("target/calls");
    println!("cargo:rustc-link-search=native={}", folder.display());
    println!("cargo:rustc-link-lib=static=proved");
    println!(
        "cargo:rerun-if-changed={}",
        folder.join("libproved.a").display()
    );
}
