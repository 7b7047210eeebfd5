//! Links libexports.a from the folder that NETKAT_LIB names, by default the repository's target/staticlib.

use std::env;
use std::path::PathBuf;

fn main() {
    let folder = env::var_os("NETKAT_LIB").map_or_else(
        || PathBuf::from(env!("CARGO_MANIFEST_DIR")).join("../../target/staticlib"),
        PathBuf::from,
    );
    println!("cargo:rerun-if-env-changed=NETKAT_LIB");
    println!(
        "cargo:rerun-if-changed={}",
        folder.join("libexports.a").display()
    );
    println!("cargo:rustc-link-search=native={}", folder.display());
    println!("cargo:rustc-link-lib=static=exports");
}
