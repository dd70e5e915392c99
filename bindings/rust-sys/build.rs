//! Tells the linker where libshupkelen.a is: in the folder that SHUPKELEN_LIB names, else where pkg-config finds it installed, else where `rt lib` wrote it
//! in the repository, else in the repository's dist/. Where there is none, documentation and checks still work; only linking a program fails.
use std::env;
use std::path::{Path, PathBuf};
use std::process::Command;

const ARCHIVE: &str = "libshupkelen.a";

fn installed() -> Option<PathBuf> {
    let out = Command::new("pkg-config").args(["--variable=libdir", "shupkelen"]).output().ok()?;
    let dir = PathBuf::from(String::from_utf8(out.stdout).ok()?.trim());
    dir.join(ARCHIVE).exists().then_some(dir)
}

fn found(dir: &Path) -> bool {
    let archive = dir.join(ARCHIVE);
    println!("cargo:rerun-if-changed={}", archive.display());
    archive.exists()
}

fn archive() -> Option<PathBuf> {
    if let Some(dir) = env::var_os("SHUPKELEN_LIB") {
        return Some(PathBuf::from(dir));
    }
    let repository = PathBuf::from(env::var_os("CARGO_MANIFEST_DIR")?).join("../..");
    installed().or_else(|| ["crates/shupkelen/out", "dist/lib"].iter().map(|d| repository.join(d)).find(|d| found(d)))
}

fn main() {
    println!("cargo:rerun-if-env-changed=SHUPKELEN_LIB");
    match archive() {
        Some(dir) if found(&dir) => println!("cargo:rustc-link-search=native={}", dir.display()),
        Some(dir) => println!("cargo:warning={} has no {ARCHIVE}", dir.display()),
        None => println!("cargo:warning=no {ARCHIVE} was found: set SHUPKELEN_LIB to the folder that has it"),
    }
    println!("cargo:rustc-link-lib=static=shupkelen");
}
