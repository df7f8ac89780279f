//! Links the proved library, `libmodem.a`, when the feature `proved` is on.

use std::env;
use std::fs;

fn main() {
    println!("cargo::rerun-if-env-changed=MODEM_LIB_DIR");
    if env::var_os("CARGO_FEATURE_PROVED").is_none() {
        return;
    }
    let named = env::var("MODEM_LIB_DIR").ok();
    let Some(folder) = named.and_then(|folder| fs::canonicalize(folder).ok()) else {
        println!("cargo::error=MODEM_LIB_DIR names no folder; libmodem.a should be in it");
        return;
    };
    let folder = folder.display();
    println!("cargo::rerun-if-changed={folder}/libmodem.a");
    println!("cargo::rustc-link-search=native={folder}");
    println!("cargo::rustc-link-lib=static=modem");
}
