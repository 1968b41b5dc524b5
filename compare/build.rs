//! Links the proved library when `SOLID_LIB_DIR` says where `libexports.a` lies.

use std::{env, fs};

fn main() {
    println!("cargo::rustc-check-cfg=cfg(proved)");
    println!("cargo::rerun-if-env-changed=SOLID_LIB_DIR");
    let Some(given) = env::var_os("SOLID_LIB_DIR") else {
        return;
    };
    let folder = fs::canonicalize(&given).expect("SOLID_LIB_DIR names a folder");
    let folder = folder.display();
    println!("cargo::rerun-if-changed={folder}/libexports.a");
    println!("cargo::rustc-link-search=native={folder}");
    println!("cargo::rustc-link-lib=static=exports");
    println!("cargo::rustc-cfg=proved");
}
