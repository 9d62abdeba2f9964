//! Proves the library, as far as it is not proved yet, builds it and links it.

use std::path::Path;
use std::process::Command;

fn main() {
    let here = std::env::var("CARGO_MANIFEST_DIR").expect("cargo names the package's folder");
    let top = Path::new(&here).join("../..");
    let made = Command::new(top.join("host/archive")).arg("kritnamon").status().expect("host/archive runs");
    assert!(made.success(), "host/archive kritnamon failed");
    println!("cargo:rustc-link-search=native={}", top.join("target/native").display());
    println!("cargo:rustc-link-lib=static=kritnamon");
    println!("cargo:rerun-if-changed={}", top.join("crates").display());
    println!("cargo:rerun-if-changed={}", top.join("host/archive").display());
    println!("cargo:rerun-if-changed={}", top.join("target/native/libkritnamon.a").display());
}
