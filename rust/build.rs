//! Links the archive that tools/archive.sh writes. KEVRESPIL_LIB names another folder that holds it.

use std::env;
use std::path::PathBuf;

fn main() {
    let machine = env::var("CARGO_CFG_TARGET_ARCH").unwrap_or_default();
    if machine != "x86_64" {
        panic!("libkevrespil.a is for x86-64 and this build is for {machine}: build for x86_64-unknown-linux-gnu");
    }
    println!("cargo:rerun-if-env-changed=KEVRESPIL_LIB");
    let folder = match env::var_os("KEVRESPIL_LIB") {
        Some(folder) => PathBuf::from(folder),
        None => PathBuf::from(env::var_os("CARGO_MANIFEST_DIR").unwrap()).join("../crates/kevrespil_c/out"),
    };
    let archive = folder.join("libkevrespil.a");
    println!("cargo:rerun-if-changed={}", archive.display());
    if !archive.is_file() {
        panic!("there is no {}: run tools/archive.sh", archive.display());
    }
    println!("cargo:rustc-link-search=native={}", folder.display());
    println!("cargo:rustc-link-lib=static=kevrespil");
}
