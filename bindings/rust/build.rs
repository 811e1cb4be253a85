//! Links libstarlark_c.a, of the folder that STARLARK_LIB_DIR names, or else of this repository, where `bindings/build`
//! or `rt lib` has put it.
use std::path::{Path, PathBuf};

const LIBRARY: &str = "libstarlark_c.a";

fn main() {
    println!("cargo::rerun-if-env-changed=STARLARK_LIB_DIR");
    let here = Path::new(env!("CARGO_MANIFEST_DIR"));
    let folders = match std::env::var_os("STARLARK_LIB_DIR") {
        Some(folder) => vec![PathBuf::from(folder)],
        None => vec![here.join("../out"), here.join("../../crates/starlark_c/out")],
    };
    for folder in &folders {
        println!("cargo::rerun-if-changed={}", folder.join(LIBRARY).display());
    }
    match folders.iter().find(|folder| folder.join(LIBRARY).is_file()) {
        Some(folder) => println!("cargo::rustc-link-search=native={}", folder.display()),
        None => println!("cargo::error={LIBRARY} is not in {}: bindings/build makes it", folders[0].display()),
    }
    println!("cargo::rustc-link-lib=static=starlark_c");
}
