//! Links libembed.a from `$EMBED_LIB_DIR`, or else from crates/embed/out of the repository, and sets the
//! cfg `library` if it is there. Without it all but the linked functions is built.

use std::env;
use std::path::PathBuf;

fn main() {
    let package = PathBuf::from(env::var_os("CARGO_MANIFEST_DIR").expect("set by cargo"));
    let usual = package.join("../../crates/embed/out");
    let folder = env::var_os("EMBED_LIB_DIR").map_or(usual, PathBuf::from);
    let library = folder.join("libembed.a");
    println!("cargo:rerun-if-env-changed=EMBED_LIB_DIR");
    println!("cargo:rerun-if-changed={}", library.display());
    println!("cargo:rustc-check-cfg=cfg(library)");
    if library.is_file() {
        println!("cargo:rustc-cfg=library");
        println!("cargo:rustc-link-search=native={}", folder.display());
        println!("cargo:rustc-link-lib=static=embed");
    }
}
