//! What the build script tells cargo: how to link the library, or why it cannot be and what to do.

use std::env::var;
use std::fs::{create_dir_all, write};
use std::path::{Path, PathBuf};
use std::process::Command;

/// The build script, compiled for the machine that builds.
fn script(name: &str) -> Command {
    let program = Path::new(env!("CARGO_TARGET_TMPDIR")).join(name);
    let built = Command::new(var("RUSTC").unwrap_or("rustc".to_string()))
        .args(["--edition", "2021", "-o"])
        .arg(&program)
        .arg(Path::new(env!("CARGO_MANIFEST_DIR")).join("build.rs"))
        .output()
        .unwrap();
    assert!(built.status.success(), "{}", String::from_utf8_lossy(&built.stderr));
    Command::new(program)
}

/// The top of a repository with this crate's folder and nothing in it.
fn bare(name: &str) -> PathBuf {
    let top = Path::new(env!("CARGO_TARGET_TMPDIR")).join(name);
    create_dir_all(top.join("rust/castorpedal")).unwrap();
    top
}

fn lines(mut script: Command, top: &Path, arch: &str, os: &str) -> Vec<String> {
    script.env("CARGO_MANIFEST_DIR", top.join("rust/castorpedal"));
    script.env("CARGO_CFG_TARGET_ARCH", arch).env("CARGO_CFG_TARGET_OS", os);
    let ran = script.output().unwrap();
    assert!(ran.status.success(), "{}", String::from_utf8_lossy(&ran.stderr));
    String::from_utf8(ran.stdout).unwrap().lines().map(str::to_string).collect()
}

fn errors(lines: &[String]) -> Vec<&str> {
    lines.iter().filter_map(|line| line.strip_prefix("cargo::error=")).collect()
}

#[test]
fn says_that_the_library_is_missing() {
    let top = bare("without_library");
    let said = lines(script("build_without_library"), &top, "x86_64", "linux");
    let [what, cure] = errors(&said)[..] else { panic!("{said:?}") };
    assert_eq!(what, format!("{} is missing.", top.join("target/staticlib/libcastorpedal.a").display()));
    assert!(cure.contains("`tools/build`, at the top of the repository"), "{cure}");
}

#[test]
fn says_that_the_target_is_another() {
    let top = bare("other_target");
    create_dir_all(top.join("target/staticlib")).unwrap();
    write(top.join("target/staticlib/libcastorpedal.a"), "").unwrap();
    let said = lines(script("build_other_target"), &top, "aarch64", "macos");
    let [what, cure] = errors(&said)[..] else { panic!("{said:?}") };
    assert_eq!(what, "the library is for x86-64 Linux, and this build is for aarch64 macos.");
    assert!(cure.contains("`. .ci/x86_64`, at the top of the repository"), "{cure}");
}

#[test]
fn links_the_library_that_is_there() {
    let top = bare("with_library");
    let folder = top.join("target/staticlib");
    create_dir_all(&folder).unwrap();
    write(folder.join("libcastorpedal.a"), "").unwrap();
    let said = lines(script("build_with_library"), &top, "x86_64", "linux");
    assert_eq!(
        said,
        [
            format!("cargo::rustc-link-search=native={}", folder.display()),
            "cargo::rustc-link-lib=static=castorpedal".to_string(),
            format!("cargo::rerun-if-changed={}", folder.join("libcastorpedal.a").display()),
        ]
    );
}
