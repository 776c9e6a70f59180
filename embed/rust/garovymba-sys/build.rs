//! Finds libincr.a: in the folder that INCR_LIB_DIR names, else in the one that pkg-config tells of incr.

use std::env;
use std::process::Command;

/// The folder that pkg-config tells, if it is there and knows incr.
fn folder_by_pkg_config() -> Option<String> {
    let out = Command::new("pkg-config").args(["--variable=libdir", "incr"]).output().ok()?;
    let folder = String::from_utf8(out.stdout).ok()?.trim().to_string();
    (out.status.success() && !folder.is_empty()).then_some(folder)
}

fn main() {
    println!("cargo:rerun-if-env-changed=INCR_LIB_DIR");
    println!("cargo:rerun-if-env-changed=PKG_CONFIG_PATH");
    let Some(folder) = env::var("INCR_LIB_DIR").ok().or_else(folder_by_pkg_config) else {
        panic!("libincr.a isn't found: set INCR_LIB_DIR to its folder, or let pkg-config find incr.pc");
    };
    println!("cargo:rerun-if-changed={folder}/libincr.a");
    println!("cargo:rustc-link-search=native={folder}");
    println!("cargo:rustc-link-lib=static=incr");
}
