//! Links the proved library, where a group of it is to be compared.
//!
//! SFN_LIB_DIR is the directory of the static library and SFN_LIB_NAME its name
//! (without `lib` and `.a`), `sfn` if not given.

use std::env;

fn main() {
    println!("cargo:rerun-if-changed=build.rs");
    println!("cargo:rerun-if-env-changed=SFN_LIB_DIR");
    println!("cargo:rerun-if-env-changed=SFN_LIB_NAME");
    // Each group switches this feature on.
    if env::var_os("CARGO_FEATURE_LINK").is_none() {
        return;
    }
    let directory = env::var("SFN_LIB_DIR")
        .expect("a group is switched on: SFN_LIB_DIR must name the library's directory");
    let name = env::var("SFN_LIB_NAME").unwrap_or_else(|_| "sfn".to_string());
    // Without this line a rebuilt library would be compared in its old form.
    println!("cargo:rerun-if-changed={directory}/lib{name}.a");
    println!("cargo:rustc-link-search=native={directory}");
    println!("cargo:rustc-link-lib=static={name}");
}
