//! Tells the linker where liboulavisok.a is.

use std::env;
use std::path::PathBuf;

fn main() {
    println!("cargo:rerun-if-env-changed=OULAVISOK_LIB");
    let package = PathBuf::from(env::var_os("CARGO_MANIFEST_DIR").unwrap());
    let default = || package.join("../../crates/oulavisok/out");
    let folder = env::var_os("OULAVISOK_LIB").map_or_else(default, PathBuf::from);
    let library = folder.join("liboulavisok.a");
    println!("cargo:rerun-if-changed={}", library.display());
    assert!(
        library.exists(),
        "no {}: run `rt lib` in crates/oulavisok, or set OULAVISOK_LIB",
        library.display()
    );
    println!("cargo:rustc-link-search=native={}", folder.display());
    println!("cargo:rustc-link-lib=static=oulavisok");
}
