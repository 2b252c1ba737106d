//! Makes the Rust's sources fit for inclusion: reads them from the folder that `CARV_SRC` names
//! and writes them to `OUT_DIR`, inner doc lines and inner attributes left blank, all else as it
//! stands. Of files that drive hardware only the items listed here are taken.

use std::path::{Path, PathBuf};
use std::{env, fs};

/// Files taken whole, each with its name in `OUT_DIR`.
const WHOLE: [(&str, &str); 5] = [
    ("crates/carv-abi/src/lib.rs", "carv_abi.rs"),
    ("crates/carv-budget/src/lib.rs", "carv_budget.rs"),
    ("kernel/src/ipc.rs", "ipc.rs"),
    ("kernel/src/objects.rs", "objects.rs"),
    ("kernel/src/scheduler.rs", "scheduler.rs"),
];

/// Files of which only some items are taken: source, name in `OUT_DIR`, items.
const PARTS: [(&str, &str, &[&str]); 3] = [
    (
        "kernel/src/arch/x86_64/apic.rs",
        "apic.rs",
        &["const TIMER_HZ"],
    ),
    (
        "kernel/src/arch/x86_64/syscall.rs",
        "syscall.rs",
        &[
            "const RFLAGS_IF",
            "struct FxState",
            "impl FxState",
            "struct UserContext",
            "impl UserContext",
        ],
    ),
    (
        "kernel/src/mm/kstack.rs",
        "kstack.rs",
        &["const KSTACK_PAGES"],
    ),
];

fn main() {
    println!("cargo::rerun-if-changed=build.rs");
    println!("cargo::rerun-if-env-changed=CARV_SRC");
    if let Err(sentence) = prepare(&source_folder(), Path::new(&variable("OUT_DIR"))) {
        println!("cargo::error={sentence}");
    }
}

fn prepare(from: &Path, to: &Path) -> Result<(), String> {
    for (source, name) in WHOLE {
        write(to, name, &without_inner_lines(&read(from, source)?))?;
    }
    for (source, name, items) in PARTS {
        let text = read(from, source)?;
        let mut taken = String::new();
        for head in items {
            let found = item(&text, head)
                .ok_or_else(|| format!("{source} in {} has no `{head}`.", from.display()))?;
            taken.push_str(&found);
        }
        write(to, name, &taken)?;
    }
    Ok(())
}

/// `CARV_SRC`, or the folder `shared/docs/src` beside the repository.
fn source_folder() -> PathBuf {
    match env::var_os("CARV_SRC") {
        Some(folder) => PathBuf::from(folder),
        None => {
            let package = PathBuf::from(variable("CARGO_MANIFEST_DIR"));
            let beside = package.ancestors().nth(3).unwrap_or(&package);
            beside.join("shared/docs/src")
        }
    }
}

fn variable(name: &str) -> String {
    env::var(name).unwrap_or_else(|_| panic!("cargo sets {name}"))
}

fn read(folder: &Path, source: &str) -> Result<String, String> {
    let path = folder.join(source);
    println!("cargo::rerun-if-changed={}", path.display());
    fs::read_to_string(&path).map_err(|why| {
        format!(
            "the Rust's sources are not in {}: {source} can't be read ({why}); set CARV_SRC to the folder that holds them.",
            folder.display()
        )
    })
}

fn write(folder: &Path, name: &str, text: &str) -> Result<(), String> {
    let path = folder.join(name);
    fs::write(&path, text).map_err(|why| format!("can't write {}: {why}.", path.display()))
}

/// The text with inner doc lines and inner attributes blank, so that line numbers stay.
fn without_inner_lines(text: &str) -> String {
    let mut kept = String::with_capacity(text.len());
    for line in text.lines() {
        if !line.starts_with("//!") && !line.starts_with("#![") {
            kept.push_str(line);
        }
        kept.push('\n');
    }
    kept
}

/// The item at the margin whose first line holds `head`, with the attributes and doc lines above
/// it, up to the line that closes it.
fn item(text: &str, head: &str) -> Option<String> {
    let lines: Vec<&str> = text.lines().collect();
    let first = lines.iter().position(|line| opens(line, head))?;
    let above = lines[..first]
        .iter()
        .rev()
        .take_while(|line| line.starts_with("#[") || line.starts_with("///"))
        .count();
    let below = lines[first..]
        .iter()
        .position(|line| *line == "}" || (line.ends_with(';') && !line.starts_with(' ')))?;
    let mut taken = lines[first - above..=first + below].join("\n");
    taken.push('\n');
    Some(taken)
}

/// Whether `line` stands at the margin and opens the item that `head` names.
fn opens(line: &str, head: &str) -> bool {
    let outside_a_comment = !line.starts_with([' ', '/']);
    let ends_the_name = |rest: &str| !rest.starts_with(|c: char| c.is_alphanumeric() || c == '_');
    outside_a_comment
        && line
            .split_once(head)
            .is_some_and(|(_, rest)| ends_the_name(rest))
}
