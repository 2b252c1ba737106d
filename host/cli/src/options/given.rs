//! Options, their values, and what else is given to a command.

use crate::status::Failure;
use carv_text::nearest::suggestion;
use std::collections::BTreeMap;
use std::ffi::OsString;
use std::path::PathBuf;

/// Options and what else is given.
pub(super) struct Given {
    options: BTreeMap<&'static str, OsString>,
    /// What is no option.
    pub(super) rest: Vec<OsString>,
}

impl Given {
    /// Takes options before and behind the rest, up to `--`. A value stands behind its option, or
    /// behind `=`.
    pub(super) fn parse(
        command: &str,
        arguments: &[OsString],
        known: &'static [(&'static str, bool)],
    ) -> Result<Self, Failure> {
        let (mut options, mut rest) = (BTreeMap::new(), Vec::new());
        let mut arguments = arguments.iter();
        while let Some(argument) = arguments.next() {
            let text = argument.to_string_lossy();
            if text == "--" {
                rest.extend(arguments.by_ref().cloned());
                break;
            }
            if text == "-" || !text.starts_with('-') {
                rest.push(argument.clone());
                continue;
            }
            let (name, behind) = match text.split_once('=') {
                Some((name, behind)) => (name, Some(OsString::from(behind))),
                None => (text.as_ref(), None),
            };
            let Some((known, takes_value)) = known.iter().find(|(known, _)| *known == name) else {
                let near = suggestion(name, known.iter().map(|(name, _)| *name));
                let why = format!("`carv {command}` has no option `{name}`{near}");
                return Err(Failure::usage(why));
            };
            let value = match (takes_value, behind) {
                (true, None) => arguments.next().cloned(),
                (true, behind) => behind,
                (false, None) => Some(OsString::new()),
                (false, Some(_)) => return Err(Failure::usage(format!("{known} takes no value"))),
            };
            let value = value.ok_or_else(|| Failure::usage(format!("{known} needs a value")))?;
            if options.insert(*known, value).is_some() {
                return Err(Failure::usage(format!("{known} is given twice")));
            }
        }
        Ok(Self { options, rest })
    }

    /// Refuses more than so many.
    pub(super) fn at_most(&self, command: &str, most: usize) -> Result<(), Failure> {
        match self.rest.get(most) {
            None => Ok(()),
            Some(extra) => {
                let extra = extra.to_string_lossy();
                let why = format!("`carv {command}` has no use for `{extra}`");
                Err(Failure::usage(why))
            }
        }
    }

    /// Whether an option is given.
    pub(super) fn has(&self, option: &str) -> bool {
        self.options.contains_key(option)
    }

    /// The path behind an option.
    pub(super) fn path(&self, option: &str) -> Option<PathBuf> {
        self.options.get(option).map(PathBuf::from)
    }

    /// The text behind an option.
    pub(super) fn text(&self, option: &str) -> Result<Option<String>, Failure> {
        let value = self.options.get(option).cloned();
        let text = value.map(OsString::into_string).transpose();
        text.map_err(|_| Failure::usage(format!("the value of {option} is no UTF-8 text")))
    }
}
