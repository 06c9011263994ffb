//! Links the tests, and nothing else, with the static library that `rt lib` builds in crates/api. Where it is missing, the tests do not compile.
use std::{env, path::PathBuf};

fn main() {
    let root = PathBuf::from(env::var_os("CARGO_MANIFEST_DIR").unwrap()).join("../..");
    let library = root.join("crates/api/out/libapi.a");
    println!("cargo:rerun-if-changed={}", library.display());
    println!("cargo:rustc-check-cfg=cfg(no_library)");
    if library.is_file() {
        println!("cargo:rustc-link-arg-tests={}", library.display());
    } else {
        println!("cargo:rustc-cfg=no_library");
    }
}
