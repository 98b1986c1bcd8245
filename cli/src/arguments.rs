//! The words behind a command: options, then as many words as the command takes.

use crate::Failure;
use keeper::NUMBERS;
use std::ffi::{OsStr, OsString};
use std::path::Path;

/// The options given, of those that the command knows, and the other words.
pub struct Arguments {
    options: Vec<String>,
    words: Vec<OsString>,
}

impl Arguments {
    /// Splits options from words; an unknown option or another count of words is wrong usage.
    pub fn of(given: &[OsString], known: &[&str], names: &[&str]) -> Result<Arguments, Failure> {
        let (mut options, mut words) = (Vec::new(), Vec::new());
        let mut ended = false;
        for word in given {
            match word.to_str() {
                Some("--") if !ended => ended = true,
                Some(option) if !ended && option.starts_with('-') && option != "-" => {
                    if !known.contains(&option) {
                        let said = format!("there is no option '{option}'");
                        return Err(Failure::Usage(said));
                    }
                    options.push(option.to_string());
                }
                _ => words.push(word.clone()),
            }
        }
        if let Some(missing) = names.get(words.len()) {
            return Err(Failure::Usage(format!("{missing} is missing")));
        }
        if let Some(more) = words.get(names.len()) {
            let said = format!("'{}' is one word too many", more.to_string_lossy());
            return Err(Failure::Usage(said));
        }
        Ok(Arguments { options, words })
    }

    /// Whether the option is given.
    pub fn has(&self, option: &str) -> bool {
        self.options.iter().any(|given| given == option)
    }

    /// The word at a place.
    pub fn word(&self, at: usize) -> &OsStr {
        &self.words[at]
    }

    /// The word at a place as the name of a file.
    pub fn path(&self, at: usize) -> &Path {
        Path::new(&self.words[at])
    }

    /// A number in base ten from 0 to 63; a greater one is refused with 2, as the keeper would.
    pub fn number(&self, at: usize, name: &str) -> Result<u8, Failure> {
        let word = self.words[at].to_string_lossy();
        if word.is_empty() || !word.bytes().all(|byte| byte.is_ascii_digit()) {
            let said = format!("{name} is a number, and '{word}' is none");
            return Err(Failure::Usage(said));
        }
        let number = word.parse().ok().filter(|number| *number < NUMBERS);
        let refused = || Failure::Refused(format!("refused with 2: {name} {word} is above 63\n"));
        number.ok_or_else(refused)
    }
}
