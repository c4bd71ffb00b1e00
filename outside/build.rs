//! With the feature `linked`, links the archive that `rt lib` writes in crates/NAME: libNAME.a in the folder PAILINSTANT_LIB_DIR, where
//! NAME is PAILINSTANT_LIB_NAME, or `pailinstant`.

use std::env;

fn main() {
    println!("cargo:rerun-if-changed=build.rs");
    println!("cargo:rerun-if-env-changed=PAILINSTANT_LIB_DIR");
    println!("cargo:rerun-if-env-changed=PAILINSTANT_LIB_NAME");
    if env::var_os("CARGO_FEATURE_LINKED").is_none() {
        return;
    }
    let Ok(folder) = env::var("PAILINSTANT_LIB_DIR") else {
        panic!("the feature `linked` needs PAILINSTANT_LIB_DIR, the archive's folder");
    };
    let name = env::var("PAILINSTANT_LIB_NAME").unwrap_or("pailinstant".into());
    println!("cargo:rerun-if-changed={folder}/lib{name}.a");
    println!("cargo:rustc-link-search=native={folder}");
    println!("cargo:rustc-link-lib=static={name}");
}
