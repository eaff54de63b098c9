//! The words of a command line behind the subcommand.

use std::ffi::{OsStr, OsString};

use crate::failure::Failure;
use crate::near::did_you_mean;

/// Options, each with its value where it takes one, and the other words in order. `-` alone is
/// one of these.
#[derive(Clone, Debug, Default, PartialEq, Eq)]
pub struct Words {
    pub options: Vec<(String, Option<OsString>)>,
    pub plain: Vec<OsString>,
}

impl Words {
    /// Those of the options may be there, the second ones with a value behind them, and the first
    /// ones once; behind `--` every word is plain.
    pub fn take(words: &[OsString], flags: &[&str], valued: &[&str]) -> Result<Words, Failure> {
        let mut taken = Words::default();
        let mut words = words.iter();
        while let Some(word) = words.next() {
            let name = word.to_string_lossy();
            if name == "--" {
                taken.plain.extend(words.by_ref().cloned());
            } else if flags.contains(&name.as_ref()) && taken.has(&name) {
                return Err(twice(&name));
            } else if flags.contains(&name.as_ref()) {
                taken.options.push((name.into_owned(), None));
            } else if valued.contains(&name.as_ref()) {
                let missing = || Failure::Usage(format!("{name} needs a value"));
                let value = words.next().ok_or_else(missing)?.clone();
                taken.options.push((name.into_owned(), Some(value)));
            } else if name.len() > 1 && name.starts_with('-') {
                let meant = did_you_mean(&name, flags.iter().chain(valued).copied());
                return Err(Failure::Usage(format!("no option {name}{meant}")));
            } else {
                taken.plain.push(word.clone());
            }
        }
        Ok(taken)
    }

    pub fn has(&self, option: &str) -> bool {
        self.options.iter().any(|(name, _)| name == option)
    }

    /// The value of an option that may be there once.
    pub fn value(&self, option: &str) -> Result<Option<&OsString>, Failure> {
        let mut found = self.options.iter().filter(|(name, _)| name == option);
        match (found.next(), found.next()) {
            (Some(_), Some(_)) => Err(twice(option)),
            (first, _) => Ok(first.and_then(|(_, value)| value.as_ref())),
        }
    }

    /// The plain words, which must be so many.
    pub fn just<const COUNT: usize>(&self, what: &str) -> Result<[&OsString; COUNT], Failure> {
        let plain: Vec<&OsString> = self.plain.iter().collect();
        plain.try_into().map_err(|plain: Vec<&OsString>| match plain.get(COUNT) {
            None => Failure::Usage(format!("{what} is missing")),
            Some(word) => too_many(word),
        })
    }
}

fn twice(option: &str) -> Failure {
    Failure::Usage(format!("{option} is there twice"))
}

/// The first word that has no place.
pub fn too_many(word: &OsStr) -> Failure {
    Failure::Usage(format!("'{}' is one word too many", word.to_string_lossy()))
}
