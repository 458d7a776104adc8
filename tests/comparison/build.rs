//! Links the static library that `tools/build baguymo` writes.

use std::env;
use std::path::Path;

fn main() {
    let package = env::var("CARGO_MANIFEST_DIR").expect("the package's folder");
    let folder = Path::new(&package).join("../../target/staticlib");
    println!("cargo:rustc-link-search=native={}", folder.display());
    println!("cargo:rerun-if-changed={}", folder.join("libbaguymo.a").display());
    println!("cargo:rustc-link-lib=static=baguymo");
}
