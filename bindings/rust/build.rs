//! Says where `libhencouch.a` is: in `HENCOUCH_LIB_DIR`, else where pkg-config has `hencouch`
//! installed, else where `make staticlib` writes it in this repository.

use std::path::{Path, PathBuf};
use std::process::Command;

const ARCHIVE: &str = "libhencouch.a";

fn main() {
    for name in ["HENCOUCH_LIB_DIR", "PKG_CONFIG_PATH", "PKG_CONFIG_LIBDIR"] {
        println!("cargo:rerun-if-env-changed={name}");
    }
    let folder = asked_for().or_else(installed).unwrap_or_else(built_here);
    let archive = folder.join(ARCHIVE);
    println!("cargo:rerun-if-changed={}", archive.display());
    if !archive.is_file() {
        panic!(
            "{} is not there: make staticlib writes it, or set HENCOUCH_LIB_DIR",
            archive.display()
        );
    }
    println!("cargo:rustc-link-search=native={}", folder.display());
}

fn asked_for() -> Option<PathBuf> {
    std::env::var_os("HENCOUCH_LIB_DIR").map(PathBuf::from)
}

/// Nothing where there is no pkg-config, or where it knows no `hencouch`.
fn installed() -> Option<PathBuf> {
    let answer =
        Command::new("pkg-config").args(["--variable=libdir", "hencouch"]).output().ok()?;
    let folder = String::from_utf8(answer.stdout).ok()?;
    let folder = folder.trim();
    (answer.status.success() && !folder.is_empty()).then(|| PathBuf::from(folder))
}

fn built_here() -> PathBuf {
    Path::new(env!("CARGO_MANIFEST_DIR")).join("../../target/staticlib")
}
