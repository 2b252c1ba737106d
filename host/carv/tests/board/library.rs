//! The sum of the library that is linked.

use std::path::PathBuf;

/// The FNV-1a sum as it is defined, a byte at a time.
fn fnv1a(bytes: &[u8]) -> u64 {
    let mut sum = 0xcbf2_9ce4_8422_2325_u64;
    for byte in bytes {
        sum = (sum ^ u64::from(*byte)).wrapping_mul(0x0100_0000_01b3);
    }
    sum
}

/// Known sums: of nothing, and of "a".
#[test]
fn known_sums() {
    assert_eq!(fnv1a(b""), 0xcbf2_9ce4_8422_2325);
    assert_eq!(fnv1a(b"a"), 0xaf63_dc4c_8601_ec8c);
}

/// The crate's sum is that of the library in the folder that it was linked from.
#[test]
fn sum_of_the_library() {
    let repository = concat!(env!("CARGO_MANIFEST_DIR"), "/../../target/staticlib");
    let folder = option_env!("CARV_LIB_DIR").unwrap_or(repository);
    let library = std::fs::read(PathBuf::from(folder).join("libcarv.a")).expect("the library");
    let sum = format!("{:016x}", fnv1a(&library));
    assert_eq!(carv::LIBRARY_FNV1A, Some(sum.as_str()));
}
