// Links the static library, which `tools/build` writes into target/staticlib at the top of the repository. Where that cannot
// be done, cargo says why and what to do; a linker would name neither.
use std::env::var;
use std::path::PathBuf;

fn main() {
    let here = PathBuf::from(var("CARGO_MANIFEST_DIR").unwrap());
    let top = here.ancestors().nth(2).expect("this crate lies two folders below the top of the repository");
    let folder = top.join("target/staticlib");
    let library = folder.join("libcastorpedal.a");
    let target = [var("CARGO_CFG_TARGET_ARCH").unwrap(), var("CARGO_CFG_TARGET_OS").unwrap()];

    if target != ["x86_64", "linux"] {
        println!("cargo::error=the library is for x86-64 Linux, and this build is for {}.", target.join(" "));
        println!("cargo::error=`. .ci/x86_64`, at the top of the repository, has cargo build for x86-64 Linux and run under an emulator.");
    }
    if !library.exists() {
        println!("cargo::error={} is missing.", library.display());
        println!("cargo::error=`tools/build`, at the top of the repository, builds it.");
    }
    println!("cargo::rustc-link-search=native={}", folder.display());
    println!("cargo::rustc-link-lib=static=castorpedal");
    println!("cargo::rerun-if-changed={}", library.display());
}
