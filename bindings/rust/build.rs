//! Links libflow.a of the folder that FLOW_LIB_DIR names, or of the checkout that this crate is in.
use std::path::PathBuf;

fn main() {
    println!("cargo:rerun-if-env-changed=FLOW_LIB_DIR");
    let folder = match std::env::var_os("FLOW_LIB_DIR") {
        Some(folder) => PathBuf::from(folder),
        None => PathBuf::from(env!("CARGO_MANIFEST_DIR")).join("../../crates/flow_c/out"),
    };
    println!("cargo:rustc-link-search=native={}", folder.display());
    println!("cargo:rustc-link-lib=static=flow");
}
