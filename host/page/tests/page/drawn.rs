//! Leaves a page in `target/tmp`, to be looked at.

use crate::sample::page;
use std::path::PathBuf;

#[test]
fn a_page_to_look_at() {
    let folder = PathBuf::from(env!("CARGO_TARGET_TMPDIR"));
    let path = folder.join("sample.html");
    std::fs::write(&path, page().html()).expect("a file");
}
