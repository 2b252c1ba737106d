//! The build script of `carv-sys`: with the feature `link` it links the port's library, `libcarv.a`,
//! from the folder that `CARV_LIB_DIR` names, by default `target/staticlib` of the repository. It
//! tells the package the library's sum, and packages above it the library's path, size and sum.

use std::env;
use std::path::PathBuf;

const LIBRARY: &str = "libcarv.a";

fn main() {
    println!("cargo::rerun-if-env-changed=CARV_LIB_DIR");
    if env::var_os("CARGO_FEATURE_LINK").is_none() {
        println!("cargo::rustc-env=CARV_LIBRARY_FNV1A=");
        return;
    }
    let folder = library_folder();
    let library = folder.join(LIBRARY);
    println!("cargo::rerun-if-changed={}", library.display());
    if !library.is_file() {
        println!(
            "cargo::error=the port's library {LIBRARY} is not in {}; build it, or set CARV_LIB_DIR to the folder that holds it.",
            folder.display()
        );
        return;
    }
    println!("cargo::rustc-link-search=native={}", folder.display());
    println!("cargo::rustc-link-lib=static=carv");
    println!("cargo::metadata=library={}", library.display());
    match std::fs::read(&library) {
        Ok(bytes) => tell(&bytes),
        Err(why) => println!(
            "cargo::error=the port's library {} can't be read: {why}.",
            library.display()
        ),
    }
}

/// Tells size and sum of the library, by which a stamp is known to be of it.
fn tell(library: &[u8]) {
    let sum = format!("{:016x}", fnv1a(library));
    println!("cargo::rustc-env=CARV_LIBRARY_FNV1A={sum}");
    println!("cargo::metadata=fnv1a={sum}");
    println!("cargo::metadata=bytes={}", library.len());
}

/// The 64-bit FNV-1a sum, which tells libraries of the same size apart.
fn fnv1a(bytes: &[u8]) -> u64 {
    bytes.iter().fold(0xcbf2_9ce4_8422_2325, |sum, byte| {
        (sum ^ u64::from(*byte)).wrapping_mul(0x0000_0100_0000_01b3)
    })
}

/// `CARV_LIB_DIR`, or the folder `target/staticlib` of the repository.
fn library_folder() -> PathBuf {
    match env::var_os("CARV_LIB_DIR") {
        Some(folder) => PathBuf::from(folder),
        None => {
            let package = env::var("CARGO_MANIFEST_DIR").expect("cargo sets CARGO_MANIFEST_DIR");
            let package = PathBuf::from(package);
            let repository = package.ancestors().nth(2).unwrap_or(&package);
            repository.join("target/staticlib")
        }
    }
}
