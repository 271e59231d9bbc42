//! Links the panel's static library, from `target/staticlib` of the repository or from the directory that `PANEL_LIB_DIR` names.
use std::{env, path::PathBuf};

fn main() {
    let place = env::var_os("PANEL_LIB_DIR").map(PathBuf::from).unwrap_or_else(|| {
        let here = env::var_os("CARGO_MANIFEST_DIR").expect("cargo sets it");
        PathBuf::from(here).join("../target/staticlib")
    });
    println!("cargo:rerun-if-env-changed=PANEL_LIB_DIR");
    println!("cargo:rerun-if-changed={}", place.join("libexports.a").display());
    println!("cargo:rustc-link-search=native={}", place.display());
    println!("cargo:rustc-link-lib=static=exports");
}
