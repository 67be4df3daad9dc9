//! The words of a command line: options with their values, and the rest.

use crate::fail::{fail, Fail, USAGE};
use std::ffi::{OsStr, OsString};
use std::path::PathBuf;

/// An option's name, and how many words follow it.
pub type Option_ = (&'static str, usize);

pub struct Args {
    pub command: &'static str,
    pub rest: Vec<OsString>,
    options: Vec<(&'static str, Vec<OsString>)>,
}

impl Args {
    pub fn read(command: &'static str, known: &[Option_], words: Vec<OsString>) -> Result<Args, Fail> {
        let mut args = Args { command, rest: Vec::new(), options: Vec::new() };
        let mut words = words.into_iter();
        while let Some(word) = words.next() {
            let text = word.to_string_lossy().into_owned();
            if text == "--" {
                args.rest.extend(words.by_ref());
            } else if text.len() > 1 && text.starts_with('-') {
                args.option(known, &text, &mut words)?;
            } else {
                args.rest.push(word);
            }
        }
        Ok(args)
    }

    fn option(
        &mut self,
        known: &[Option_],
        text: &str,
        words: &mut impl Iterator<Item = OsString>,
    ) -> Result<(), Fail> {
        let (name, joined) = match text.split_once('=') {
            Some((name, value)) => (name, Some(value)),
            None => (text, None),
        };
        let Some(&(name, n)) = known.iter().find(|(k, _)| *k == name) else {
            return self.usage(format!("there is no option {name}"));
        };
        if self.options.iter().any(|(given, _)| *given == name) {
            return self.usage(format!("{name} is given twice"));
        }
        let values: Vec<OsString> = match joined {
            Some(value) if n == 1 => vec![value.into()],
            Some(_) => return self.usage(format!("{name} takes no value after '='")),
            None => words.take(n).collect(),
        };
        if values.len() < n {
            return self.usage(format!("{name} needs {n} word{} after it", if n == 1 { "" } else { "s" }));
        }
        self.options.push((name, values));
        Ok(())
    }

    pub fn usage<T>(&self, words: impl Into<String>) -> Result<T, Fail> {
        fail(USAGE, format!("{}; see knellstone {} --help", words.into(), self.command))
    }

    pub fn has(&self, name: &str) -> bool {
        self.values(name).is_some()
    }

    pub fn values(&self, name: &str) -> Option<&[OsString]> {
        self.options.iter().find(|(n, _)| *n == name).map(|(_, values)| values.as_slice())
    }

    pub fn value(&self, name: &str) -> Option<&OsStr> {
        self.values(name).map(|values| values[0].as_os_str())
    }

    pub fn path(&self, name: &str) -> Option<PathBuf> {
        self.value(name).map(PathBuf::from)
    }

    /// A number within a range, or what it is where it is not given.
    pub fn number<T: std::str::FromStr + PartialOrd + std::fmt::Display>(
        &self,
        name: &str,
        usual: T,
        low: T,
        high: T,
    ) -> Result<T, Fail> {
        let Some(word) = self.value(name) else { return Ok(usual) };
        match word.to_str().and_then(|w| w.parse().ok()).filter(|n| low <= *n && *n <= high) {
            Some(n) => Ok(n),
            None => self.usage(format!("{name} {} is not a number from {low} to {high}", word.to_string_lossy())),
        }
    }

    /// The files that are named, by what each is.
    pub fn files<const N: usize>(&self, names: [&str; N]) -> Result<[PathBuf; N], Fail> {
        if let Some(name) = names.get(self.rest.len()) {
            return self.usage(format!("{name} is missing"));
        }
        if let Some(word) = self.rest.get(N) {
            return self.usage(format!("'{}' is one word too many", word.to_string_lossy()));
        }
        Ok(std::array::from_fn(|i| PathBuf::from(&self.rest[i])))
    }
}
