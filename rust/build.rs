//! Links `libcapi.a`, from the folder that VSP_LIB names or from `../target/staticlib`.

use std::path::PathBuf;
use std::process::exit;

fn main() {
    println!("cargo:rerun-if-env-changed=VSP_LIB");
    let folder = std::env::var_os("VSP_LIB").map_or_else(default_folder, PathBuf::from);
    let library = folder.join("libcapi.a");
    println!("cargo:rerun-if-changed={}", library.display());
    if !library.is_file() {
        eprintln!("{} is missing: build it with `rust/library`", library.display());
        exit(1);
    }
    println!("cargo:rustc-link-search=native={}", folder.display());
    println!("cargo:rustc-link-lib=static=capi");
    // For the test that compiles the C example.
    println!("cargo:rustc-env=VSP_LIBRARY={}", library.display());
}

fn default_folder() -> PathBuf {
    PathBuf::from(env!("CARGO_MANIFEST_DIR")).join("../target/staticlib")
}
