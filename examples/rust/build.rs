//! Links the static library `terminal`.

use std::env;
use std::path::PathBuf;

fn main() {
    let folder = env::var_os("TERMINAL_LIB_DIR").map_or_else(default_folder, PathBuf::from);
    let archive = folder.join("libterminal.a");
    println!("cargo:rerun-if-env-changed=TERMINAL_LIB_DIR");
    println!("cargo:rerun-if-changed=build.rs");
    println!("cargo:rerun-if-changed={}", archive.display());
    println!("cargo:rustc-link-search=native={}", folder.display());
    println!("cargo:rustc-link-lib=static=terminal");
}

fn default_folder() -> PathBuf {
    let package = env::var_os("CARGO_MANIFEST_DIR").expect("cargo sets the package folder");
    PathBuf::from(package).join("../../crates/terminal/out")
}
