//! What a report rests on: the library that the program was linked with, and what the prover said
//! of it. `tools/stamp` writes it, in lines `word: text`.

use std::env;
use std::fs;
use std::path::Path;

/// The environment variable that names the stamp's file.
pub const STAMP_VARIABLE: &str = "CARV_STAMP";

/// The words of a stamp, each of which has one line.
const WORDS: [&str; 10] = [
    "commit",
    "library",
    "sha256",
    "fnv1a",
    "verdict",
    "crates",
    "functions",
    "axioms",
    "prover",
    "made",
];
/// The words whose text is a number.
const NUMBERS: [&str; 3] = ["crates", "functions", "axioms"];
/// The verdict of a library that is proved throughout.
const PROVED: &str = "logic=proved";

/// What to do if there is no stamp, or another library's.
const ADVICE: &str = "run the program through tools/carv or tools/sorter, which keep the stamp";

/// What is known of the library that the program was linked with.
#[derive(Clone, Debug, PartialEq, Eq)]
pub enum Stamp {
    /// The stamp is of this library.
    Stamped(Stamped),
    /// There is none, or it is of another library: why, and what to do.
    Missing(String),
}

impl Default for Stamp {
    fn default() -> Self {
        Self::Missing("no stamp was looked for".to_string())
    }
}

/// A stamp, which has each of its words.
#[derive(Clone, Debug, PartialEq, Eq)]
pub struct Stamped {
    lines: Vec<(String, String)>,
}

impl Stamp {
    /// The stamp in the file that [`STAMP_VARIABLE`] names. `linked` is the FNV-1a sum of the
    /// library that the program was linked with; none if a model stands in for it.
    pub fn read(linked: Option<&str>) -> Self {
        match env::var_os(STAMP_VARIABLE).filter(|path| !path.is_empty()) {
            None => Self::of(Err(format!("{STAMP_VARIABLE} names no file")), linked),
            Some(path) => Self::read_file(Path::new(&path), linked),
        }
    }

    /// The stamp in this file.
    pub fn read_file(path: &Path, linked: Option<&str>) -> Self {
        let text = fs::read_to_string(path);
        let text = text.map_err(|why| format!("{} can't be read: {why}", path.display()));
        Self::of(text.as_deref().map_err(Clone::clone), linked)
    }

    /// The stamp with this text, or why there is none.
    pub fn of(text: Result<&str, String>, linked: Option<&str>) -> Self {
        let judged = Self::judge(text, linked);
        judged.unwrap_or_else(|why| Self::Missing(format!("{why}; {ADVICE}")))
    }

    fn judge(text: Result<&str, String>, linked: Option<&str>) -> Result<Self, String> {
        let linked = linked.ok_or("the program was built without the library")?;
        let stamped = Stamped::parse(text?)?;
        match stamped.get("fnv1a") {
            sum if sum == linked => Ok(Self::Stamped(stamped)),
            sum => Err(format!(
                "the stamp is of another library, with the FNV-1a sum {sum}, and the program was linked with {linked}"
            )),
        }
    }

    /// In a sentence, without a point.
    pub fn sentence(&self) -> String {
        match self {
            Self::Missing(why) => format!("not stamped: {why}"),
            Self::Stamped(stamped) => stamped.sentence(),
        }
    }

    /// Whether the library is known to be proved throughout.
    pub fn is_proved(&self) -> bool {
        matches!(self, Self::Stamped(stamped) if stamped.is_proved())
    }
}

impl Stamped {
    /// Reads the lines: each word once, and further ones behind it.
    fn parse(text: &str) -> Result<Self, String> {
        let lines = text.lines().map(|line| match line.split_once(": ") {
            Some((word, text)) => Ok((word.to_string(), text.to_string())),
            None => Err(format!("the stamp has a line without a word, `{line}`")),
        });
        let stamped = Self {
            lines: lines.collect::<Result<_, _>>()?,
        };
        let is_of_stamp = |line: &(String, String)| WORDS.contains(&line.0.as_str());
        if let (Some(says), false) = (text.lines().next(), stamped.lines.iter().any(is_of_stamp)) {
            return Err(format!("the stamp could not be made, `{says}`"));
        }
        for word in WORDS {
            match stamped.lines.iter().filter(|line| line.0 == word).count() {
                1 => {}
                0 => return Err(format!("the stamp has no line `{word}`")),
                _ => return Err(format!("the stamp has more than one line `{word}`")),
            }
        }
        for word in NUMBERS {
            let text = stamped.get(word);
            text.parse::<u64>()
                .map_err(|_| format!("the stamp's {word} are no number, `{text}`"))?;
        }
        Ok(stamped)
    }

    /// The words with their texts.
    pub fn lines(&self) -> &[(String, String)] {
        &self.lines
    }

    /// The text of a word that every stamp has.
    fn get(&self, word: &str) -> &str {
        let line = self.lines.iter().find(|line| line.0 == word);
        line.map_or("", |line| &line.1)
    }

    fn is_proved(&self) -> bool {
        self.get("verdict") == PROVED
    }

    fn sentence(&self) -> String {
        let [verdict, functions, crates, axioms] =
            ["verdict", "functions", "crates", "axioms"].map(|word| self.get(word));
        match self.is_proved() {
            true => {
                format!("{verdict}, {functions} functions of {crates} crates, {axioms} axioms")
            }
            false => format!("NOT PROVED: the prover's verdict on the library is `{verdict}`"),
        }
    }
}

#[cfg(test)]
mod tests {
    use super::*;

    const SUM: &str = "b8334fa435c9ee23";
    const TEXT: &str = "\
commit: 6a45a130304ba2bee46a8d8718abb46e30d55a74
library: libcarv.a, 30,638 bytes
sha256: 80a012d2c8b923c7b3cf57cd21eedb0fa8a73907f152e315508ca719460487a8
fnv1a: b8334fa435c9ee23
verdict: logic=proved
crates: 8
functions: 322
axioms: 0
prover: rattle-kit
made: 2026-11-18 02:50 UTC
";

    fn sentence(text: &str) -> String {
        let stamp = Stamp::of(Ok(text), Some(SUM));
        let is_proved = stamp.is_proved();
        let sentence = stamp.sentence();
        assert_eq!(is_proved, sentence.contains(PROVED), "{sentence}");
        sentence
    }

    #[test]
    fn of_this_library() {
        assert_eq!(
            sentence(TEXT),
            "logic=proved, 322 functions of 8 crates, 0 axioms"
        );
        let Stamp::Stamped(stamped) = Stamp::of(Ok(TEXT), Some(SUM)) else {
            panic!("it is stamped");
        };
        assert_eq!(stamped.lines().len(), TEXT.lines().count());
    }

    #[test]
    fn not_proved_throughout() {
        for verdict in [
            "logic=not proved throughout",
            "logic=refused",
            "logic=proved-not",
            "",
        ] {
            let text = TEXT.replace("logic=proved", verdict);
            let stamp = Stamp::of(Ok(&text), Some(SUM));
            assert!(!stamp.is_proved());
            assert!(stamp.sentence().starts_with("NOT PROVED: "));
            assert!(stamp.sentence().contains(&format!("`{verdict}`")));
        }
    }

    #[test]
    fn of_another_library() {
        let said = sentence(&TEXT.replace(SUM, "0000000000000001"));
        assert!(said.starts_with(
            "not stamped: the stamp is of another library, with the FNV-1a sum 0000000000000001, and the program was linked with b8334fa435c9ee23; run the program through tools/carv"
        ), "{said}");
    }

    #[test]
    fn missing() {
        let folder = std::env::temp_dir();
        let said = Stamp::read_file(&folder.join("no such stamp.txt"), Some(SUM)).sentence();
        assert!(said.starts_with("not stamped: "), "{said}");
        assert!(said.contains("no such stamp.txt can't be read: "), "{said}");
        let said = Stamp::of(Ok(TEXT), None).sentence();
        assert!(said.starts_with("not stamped: the program was built without the library; "));
        assert!(!Stamp::default().is_proved());
    }

    #[test]
    fn no_stamp_at_all() {
        let cut = &TEXT[..TEXT.find("axioms").expect("a line")];
        for (text, why) in [
            ("", "has no line `commit`"),
            (cut, "has no line `axioms`"),
            // What tools/host keeps where tools/stamp fails.
            (
                "what the prover said of carv is not there: No such file or directory\n",
                "could not be made, `what the prover said of carv is not there: No such file",
            ),
            (
                &format!("{TEXT}verdict: logic=proved\n"),
                "more than one line `verdict`",
            ),
            (
                &TEXT.replace("322", "many"),
                "functions are no number, `many`",
            ),
            (
                &format!("{TEXT}<html>\n"),
                "a line without a word, `<html>`",
            ),
        ] {
            let said = sentence(text);
            assert!(said.starts_with("not stamped: the stamp"), "{said}");
            assert!(said.contains(why), "{said}");
        }
    }
}
