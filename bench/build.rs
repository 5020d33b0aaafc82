//! The C implementation that is timed beside, compiled as a maker would: peer.c by the system's compiler with -O3.

use std::path::Path;
use std::process::Command;

fn run(program: &str, words: &[&str]) {
    assert!(Command::new(program).args(words).status().is_ok_and(|status| status.success()), "{program} {words:?}");
}

fn main() {
    let out = std::env::var("OUT_DIR").unwrap();
    let object = Path::new(&out).join("peer.o");
    let archive = Path::new(&out).join("libpeer.a");
    let (object, archive) = (object.to_str().unwrap(), archive.to_str().unwrap());
    run("cc", &["-std=c11", "-O3", "-Wall", "-Wextra", "-c", "peer.c", "-o", object]);
    run("ar", &["rcs", archive, object]);
    println!("cargo:rustc-link-search=native={out}");
    println!("cargo:rustc-link-lib=static=peer");
    println!("cargo:rerun-if-changed=peer.c");
}
