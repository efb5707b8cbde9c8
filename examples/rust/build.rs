//! Links the proved library. SFN_LIB_DIR is the directory of libsfn.a.

use std::env;

fn main() {
    println!("cargo:rerun-if-changed=build.rs");
    println!("cargo:rerun-if-env-changed=SFN_LIB_DIR");
    let directory = env::var("SFN_LIB_DIR")
        .expect("SFN_LIB_DIR must name the directory of libsfn.a (tests/library makes it)");
    // Without this line a rebuilt library would stay linked in its old form.
    println!("cargo:rerun-if-changed={directory}/libsfn.a");
    println!("cargo:rustc-link-search=native={directory}");
    println!("cargo:rustc-link-lib=static=sfn");
}
