//! Links libgannozhi.a, from GANNOZHI_LIB where that is set, else from where `rt lib` writes it in crates/gannozhi.

use std::path::PathBuf;

fn main() {
    let own = PathBuf::from(std::env::var("CARGO_MANIFEST_DIR").expect("cargo sets it"));
    let folder = match std::env::var("GANNOZHI_LIB") {
        Ok(folder) => PathBuf::from(folder),
        Err(_) => own.join("../../crates/gannozhi/out"),
    };
    let library = folder.join("libgannozhi.a");
    if !library.is_file() {
        panic!(
            "{} is not there: `cd crates/gannozhi && rt lib` writes it (or GANNOZHI_LIB says where it is)",
            library.display()
        );
    }
    println!("cargo:rustc-link-search=native={}", folder.display());
    println!("cargo:rustc-link-lib=static=gannozhi");
    println!("cargo:rerun-if-changed={}", library.display());
    println!("cargo:rerun-if-env-changed=GANNOZHI_LIB");
}
