//! Links libfordcask.a from $FORDCASK_LIB, by default from ../../target/staticlib.

use std::env;
use std::path::PathBuf;

fn main() {
    let folder = match env::var_os("FORDCASK_LIB") {
        Some(folder) => PathBuf::from(folder),
        None => {
            let manifest = env::var_os("CARGO_MANIFEST_DIR").expect("set by cargo");
            PathBuf::from(manifest).join("../../target/staticlib")
        }
    };
    println!("cargo:rerun-if-env-changed=FORDCASK_LIB");
    println!("cargo:rerun-if-changed={}", folder.join("libfordcask.a").display());
    println!("cargo:rustc-link-search=native={}", folder.display());
    println!("cargo:rustc-link-lib=static=fordcask");
}
