//! Links the native archives, and beside them another library where HWP_BEFORE names its archive: its functions are
//! then renamed, so that both are in one program.

#[path = "../compare/build.rs"]
mod native;

use std::env;
use std::path::{Path, PathBuf};
use std::process::Command;

/// What a command printed.
fn printed(command: &mut Command) -> String {
    let output = command.output();
    let output = output.unwrap_or_else(|error| panic!("{command:?}: {error}"));
    assert!(output.status.success(), "{command:?} failed");
    String::from_utf8_lossy(&output.stdout).into_owned()
}

/// The names of the functions that an archive exports.
fn exported(archive: &Path) -> Vec<String> {
    let mut names = Command::new("nm");
    names
        .args(["--extern-only", "--defined-only", "--format=posix"])
        .arg(archive);
    let printed = printed(&mut names);
    let words = printed.lines().map(|line| line.split(' ').collect());
    let functions = words.filter(|words: &Vec<&str>| words.get(1) == Some(&"T"));
    functions.map(|words| words[0].to_string()).collect()
}

/// A copy of an archive in which each function has another name.
fn renamed(archive: &Path) -> PathBuf {
    let copy = Path::new(&env::var("OUT_DIR").expect("OUT_DIR")).join("libbefore.a");
    let mut rename = Command::new("objcopy");
    for name in exported(archive) {
        rename.arg(format!("--redefine-sym={name}=before_{name}"));
    }
    printed(rename.arg(archive).arg(&copy));
    copy
}

fn main() {
    native::main();
    println!("cargo:rerun-if-env-changed=HWP_BEFORE");
    println!("cargo:rustc-check-cfg=cfg(before)");
    let Some(archive) = env::var_os("HWP_BEFORE").map(PathBuf::from) else {
        return;
    };
    assert!(
        archive.is_absolute(),
        "HWP_BEFORE is the full path of an archive"
    );
    println!("cargo:rerun-if-changed={}", archive.display());
    println!("cargo:rustc-link-arg-bins={}", renamed(&archive).display());
    println!("cargo:rustc-cfg=before");
}
