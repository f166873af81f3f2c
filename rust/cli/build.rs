//! Tells `--version` what the program is made of: the commit, and the kit and logic that proved the library. What can't be asked here
//! (no repository, no kit) is said to be unknown, never guessed.

use std::process::Command;

fn main() {
    println!("cargo:rerun-if-changed=build.rs");
    println!("cargo:rerun-if-changed=../../.git/HEAD");
    println!("cargo:rerun-if-changed=../../.git/logs/HEAD");
    println!("cargo:rustc-env=ZARFOLIN_COMMIT={}", said("git", &["rev-parse", "--short=12", "HEAD"]));
    println!("cargo:rustc-env=ZARFOLIN_KIT={}", said("rt", &["version"]));
}

/// The one line that a program prints.
fn said(program: &str, arguments: &[&str]) -> String {
    let ran = Command::new(program).args(arguments).output().ok().filter(|ran| ran.status.success());
    let line = ran.map(|ran| String::from_utf8_lossy(&ran.stdout).trim().to_string());
    line.filter(|line| !line.is_empty() && !line.contains('\n')).unwrap_or("unknown".into())
}
