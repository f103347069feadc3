//! Links libcapi.a and libcapi_check.a. CEPRUVELS_LIB names the folder that they are in; without it,
//! those that `rt lib` writes in ../../crates/capi and ../../crates/capi_check are taken from the out/
//! there.

use std::path::PathBuf;

fn main() {
    println!("cargo:rerun-if-env-changed=CEPRUVELS_LIB");
    let crates = PathBuf::from(std::env::var("CARGO_MANIFEST_DIR").unwrap()).join("../../crates");
    for name in ["capi", "capi_check"] {
        let folder = std::env::var("CEPRUVELS_LIB").map_or(crates.join(name).join("out"), PathBuf::from);
        println!("cargo:rustc-link-search=native={}", folder.display());
        let archive = folder.join(format!("lib{name}.a"));
        if !archive.is_file() {
            println!("cargo:warning={} is not there: run 'rt lib' in crates/{name}, or set CEPRUVELS_LIB", archive.display());
        }
        println!("cargo:rerun-if-changed={}", archive.display());
        println!("cargo:rustc-link-lib=static={name}");
    }
}
