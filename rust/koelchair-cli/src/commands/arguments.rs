//! The arguments of a sub-command.

use super::Failure;
use crate::errors::did_you_mean;

/// The arguments of a sub-command.
#[derive(Debug, Default)]
pub struct Arguments {
    /// Options, each with its value if it has one.
    options: Vec<(String, String)>,
    /// The arguments that are no options.
    pub plain: Vec<String>,
}

impl Arguments {
    /// Sorts arguments; `flags` have no value, `valued` have one. What follows `--` is no option.
    pub fn read(list: &[String], flags: &[&str], valued: &[&str]) -> Result<Arguments, Failure> {
        let mut arguments = Arguments::default();
        let mut rest = list.iter();
        while let Some(argument) = rest.next() {
            if argument == "--" {
                arguments.plain.extend(rest.by_ref().cloned());
            } else if valued.contains(&argument.as_str()) {
                let missing = || Failure::Usage(format!("`{argument}` wants a value after it"));
                let value = rest.next().ok_or_else(missing)?;
                arguments.options.push((argument.clone(), value.clone()));
            } else if flags.contains(&argument.as_str()) {
                arguments.options.push((argument.clone(), String::new()));
            } else if argument.starts_with('-') && argument != "-" {
                let known = flags.iter().chain(valued).copied();
                return Err(Failure::Usage(format!(
                    "the option `{argument}` is not known here{}",
                    did_you_mean(argument, known)
                )));
            } else {
                arguments.plain.push(argument.clone());
            }
        }
        Ok(arguments)
    }

    /// Whether an option is there.
    pub fn has(&self, option: &str) -> bool {
        self.options.iter().any(|(name, _)| name == option)
    }

    /// All values of an option.
    pub fn values<'a>(&'a self, option: &'a str) -> impl Iterator<Item = &'a str> {
        self.options
            .iter()
            .filter(move |(name, _)| name == option)
            .map(|(_, value)| value.as_str())
    }

    /// The plain arguments if there are so many, else an error with their names.
    pub fn exactly<const N: usize>(&self, names: [&str; N]) -> Result<[&str; N], Failure> {
        let wrong = || {
            let (names, got) = (names.join(" "), count(self.plain.len()));
            Failure::Usage(format!("expected {names}, got {got}"))
        };
        let list: Vec<&str> = self.plain.iter().map(String::as_str).collect();
        list.try_into().map_err(|_| wrong())
    }
}

/// How many arguments there are, in words.
pub fn count(arguments: usize) -> String {
    match arguments {
        1 => "1 argument".to_string(),
        n => format!("{n} arguments"),
    }
}
