//! Links the proved engine, target/staticlib/libbirdweekly.a. Where it is not there, `bind/engine` makes it, which takes some minutes: every
//! function is proved first.

use std::path::Path;
use std::process::Command;

fn main() {
    let root = Path::new(&std::env::var("CARGO_MANIFEST_DIR").unwrap()).join("../..");
    let folder = root.join("target/staticlib");
    let archive = folder.join("libbirdweekly.a");
    if !archive.exists() {
        let made = Command::new(root.join("bind/engine")).status();
        assert!(made.is_ok_and(|status| status.success()), "bind/engine did not make {}", archive.display());
    }
    println!("cargo:rustc-link-search=native={}", folder.display());
    println!("cargo:rustc-link-lib=static=birdweekly");
    println!("cargo:rerun-if-changed={}", archive.display());
}
