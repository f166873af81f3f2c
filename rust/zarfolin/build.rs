//! With the feature `ffi`, links libzarfolin.a: from the folder ZARFOLIN_LIB_DIR, or else target/staticlib of the repository. Says in
//! words when the archive is not there, or is for another machine; and hands the versions of header and archive to src/lib.rs, which
//! holds them against its own. `cargo doc` needs no archive.

use std::env::{var, var_os};
use std::path::{Path, PathBuf};
use std::process::Command;

fn main() {
    println!("cargo:rerun-if-env-changed=ZARFOLIN_LIB_DIR");
    println!("cargo:rerun-if-env-changed=ZARFOLIN_INCLUDE_DIR");
    println!("cargo:rerun-if-changed=build.rs");
    let repository = PathBuf::from(var_os("CARGO_MANIFEST_DIR").unwrap()).join("../..");
    header(&folder("ZARFOLIN_INCLUDE_DIR", repository.join("include")).join("zarfolin.h"));
    if var_os("CARGO_FEATURE_FFI").is_some() {
        archive(&folder("ZARFOLIN_LIB_DIR", repository.join("target/staticlib")));
    }
}

fn folder(variable: &str, otherwise: PathBuf) -> PathBuf {
    var_os(variable).map_or(otherwise, PathBuf::from)
}

/// The header's version. A crate that stands without the repository has no header to be held against.
fn header(path: &Path) {
    println!("cargo:rerun-if-changed={}", path.display());
    let Ok(text) = std::fs::read_to_string(path) else { return };
    let version = text.lines().find_map(|line| line.strip_prefix("#define ZARFOLIN_VERSION "));
    println!("cargo:rustc-env=ZARFOLIN_HEADER_VERSION={}", version.map_or("none", str::trim));
}

fn archive(folder: &Path) {
    let library = folder.join("libzarfolin.a");
    println!("cargo:rerun-if-changed={}", library.display());
    let Ok(bytes) = std::fs::read(&library) else {
        println!("cargo:warning={} is not there: `tools/build library` builds it", library.display());
        println!("cargo:rustc-cfg=zarfolin_no_archive");
        return;
    };
    let target = var("CARGO_CFG_TARGET_ARCH").unwrap();
    let machine = machine(&bytes);
    if machine != target {
        println!("cargo:warning={} has code for {machine} only; this build is for {target}", library.display());
        println!("cargo:rustc-cfg=zarfolin_other_machine");
        return;
    }
    println!("cargo:rustc-link-search=native={}", folder.canonicalize().unwrap().display());
    println!("cargo:rustc-link-lib=static:-bundle=zarfolin");
    match version(folder) {
        Ok(version) => println!("cargo:rustc-env=ZARFOLIN_ARCHIVE_VERSION={version}"),
        Err(why) => println!("cargo:warning=the version of {} could not be asked: {why}", library.display()),
    }
}

/// The machine of the first object in an archive, as Rust calls it.
fn machine(archive: &[u8]) -> String {
    let object = archive.windows(4).position(|w| w == b"\x7fELF").map(|at| &archive[at..]);
    match object.and_then(|o| o.get(18..20)) {
        Some([62, 0]) => "x86_64".into(),
        Some([183, 0]) => "aarch64".into(),
        Some(other) => format!("machine {other:?}"),
        None => "no machine".into(),
    }
}

/// Asks the archive for its version, by a program of one line that is linked to it.
fn version(folder: &Path) -> Result<String, String> {
    let out = PathBuf::from(var_os("OUT_DIR").unwrap());
    let (source, program) = (out.join("version.rs"), out.join("version"));
    let text = "unsafe extern \"C\" { fn zarfolin_version() -> u64; }\nfn main() { print!(\"{}\", unsafe { zarfolin_version() }) }\n";
    std::fs::write(&source, text).map_err(|e| e.to_string())?;
    let target = var("TARGET").unwrap();
    let mut rustc = Command::new(var_os("RUSTC").unwrap());
    rustc.args(["--edition=2024", "--target", &target, "-l", "static=zarfolin", "-L"]).arg(folder).arg("-o");
    rustc.arg(&program).arg(&source);
    if let Ok(linker) = var("RUSTC_LINKER") {
        rustc.arg("-C").arg(format!("linker={linker}"));
    }
    let built = rustc.output().map_err(|e| e.to_string())?;
    if !built.status.success() {
        let said = String::from_utf8_lossy(&built.stderr).into_owned();
        let old = said.contains("zarfolin_version");
        return if old { Ok("none".into()) } else { Err(said.replace('\n', " ")) };
    }
    let runner = var(format!("CARGO_TARGET_{}_RUNNER", target.to_uppercase().replace('-', "_"))).unwrap_or_default();
    let mut words = runner.split_whitespace().map(Into::into).chain([program.into_os_string()]);
    let ran = Command::new(words.next().unwrap()).args(words).output().map_err(|e| e.to_string())?;
    if ran.status.success() {
        Ok(String::from_utf8_lossy(&ran.stdout).into_owned())
    } else {
        Err(ran.status.to_string())
    }
}
