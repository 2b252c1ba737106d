//! Tells the benchmark what it was built with: compiler, profile, and the port's library, which
//! the package `carv-sys` links.

use std::env;
use std::path::{Path, PathBuf};
use std::process::Command;

fn main() {
    println!("cargo::rerun-if-changed=build.rs");
    let [compiler, profile, library] = [compiler(), profile(), library()];
    println!("cargo::rustc-env=BOARD_COMPILER={compiler}");
    println!("cargo::rustc-env=BOARD_PROFILE={profile}");
    println!("cargo::rustc-env=BOARD_LIBRARY={library}");
}

/// What the compiler says of its version.
fn compiler() -> String {
    let rustc = env::var_os("RUSTC").unwrap_or_else(|| "rustc".into());
    let said = Command::new(rustc).arg("--version").output();
    let version = said.map(|said| String::from_utf8_lossy(&said.stdout).trim().to_string());
    version.unwrap_or_else(|_| "a compiler that doesn't tell its version".to_string())
}

fn profile() -> String {
    let of = |name| env::var(name).unwrap_or_else(|_| "unknown".to_string());
    format!("{}, opt-level {}", of("PROFILE"), of("OPT_LEVEL"))
}

/// The library's file, its size and a sum of its bytes, as `link.rs` tells them.
fn library() -> String {
    if env::var_os("CARGO_FEATURE_MOCK").is_some() {
        return "none, a model stands in for it".to_string();
    }
    let told = |name| env::var_os(name).map(PathBuf::from);
    match ["LIBRARY", "BYTES", "FNV1A"].map(|name| told(format!("DEP_CARV_{name}"))) {
        [Some(path), Some(bytes), Some(sum)] => {
            let (bytes, sum) = (bytes.display(), sum.display());
            format!("{}, {bytes} bytes, FNV-1a {sum}", shown(&path))
        }
        _ => "none, built without it".to_string(),
    }
}

/// The path from the repository on, or the file's name if it lies elsewhere.
fn shown(path: &Path) -> String {
    let package = env::var_os("CARGO_MANIFEST_DIR").map(PathBuf::from);
    let repository = package
        .as_deref()
        .and_then(|folder| folder.ancestors().nth(2));
    let inside = repository.and_then(|folder| path.strip_prefix(folder).ok());
    let name = path.file_name().map(Path::new);
    inside.or(name).unwrap_or(path).display().to_string()
}
