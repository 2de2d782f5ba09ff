//! Finds the proved static library: `libdcel.a` in the folder that `DCEL_LIB_DIR` names, or in the
//! package, or where the repository builds it. `cargo check` and `cargo doc` need none.

use std::env;
use std::path::{Path, PathBuf};

fn main() {
    let folder = env::var_os("DCEL_LIB_DIR").map_or_else(usual, PathBuf::from);
    let library = folder.join("libdcel.a");
    if !library.is_file() {
        println!(
            "cargo:warning=there is no {}, which linking needs: tools/build_static dcel_c builds it, \
             or DCEL_LIB_DIR names a folder that has it",
            library.display()
        );
    }
    println!("cargo:rustc-link-search=native={}", folder.display());
    println!("cargo:rustc-link-lib=static=dcel");
    println!("cargo:rerun-if-changed={}", library.display());
    println!("cargo:rerun-if-env-changed=DCEL_LIB_DIR");
}

/// The folder in a package, or else in the repository.
fn usual() -> PathBuf {
    let crate_folder = Path::new(env!("CARGO_MANIFEST_DIR"));
    let packed = crate_folder.join("lib");
    if packed.is_dir() {
        packed
    } else {
        crate_folder.join("../../crates/dcel_c/out")
    }
}
