//! The program that makes a page: its version, and how it was called.

use std::env;

/// The environment variable with the commit that the program was built at.
pub const COMMIT_VARIABLE: &str = "CARV_COMMIT";

/// A program with its version, and its commit if that is known.
pub fn tool(name: &str, version: &str) -> String {
    let tool = format!("{name} {version}");
    match env::var(COMMIT_VARIABLE) {
        Ok(commit) if !commit.is_empty() => format!("{tool}, commit {commit}"),
        _ => tool,
    }
}

/// The command that runs this program, of this name, as a shell takes it.
pub fn command(name: &str) -> String {
    let arguments = env::args_os().skip(1);
    let arguments = arguments.map(|argument| quoted(&argument.to_string_lossy()));
    let words: Vec<String> = [name.to_string()].into_iter().chain(arguments).collect();
    words.join(" ")
}

fn quoted(argument: &str) -> String {
    let is_plain = |letter: char| letter.is_ascii_alphanumeric() || "-_./=,:@%+".contains(letter);
    match !argument.is_empty() && argument.chars().all(is_plain) {
        true => argument.to_string(),
        false => format!("'{}'", argument.replace('\'', r"'\''")),
    }
}

#[cfg(test)]
mod tests {
    use super::*;

    #[test]
    fn words_of_a_command() {
        assert_eq!(quoted("--html=day.html"), "--html=day.html");
        assert_eq!(quoted(""), "''");
        for argument in ["$HOME", "*", "a b", "~", "#1", "é", "a;b", "`b`", "!"] {
            assert_eq!(quoted(argument), format!("'{argument}'"));
        }
        assert_eq!(quoted("it's <1>"), r"'it'\''s <1>'");
    }
}
