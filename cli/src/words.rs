//! A line of the text form, word by word: numbers, sets and what is missing in them.

use crate::text::Wrong;
use keeper::{Set, NUMBERS};

/// A word, or one of the marks `{`, `}`, `,` and `..`, with its place in the line.
struct Word<'a> {
    column: usize,
    text: &'a str,
}

/// The words of a line up to its comment, and how many of them are read.
pub struct Words<'a> {
    words: Vec<Word<'a>>,
    read: usize,
    /// The place behind the last word.
    end: usize,
}

/// How many bytes of the text a word has that starts it.
fn length(text: &str) -> usize {
    if text.starts_with("..") {
        return 2;
    }
    if text.starts_with(['{', '}', ',']) {
        return 1;
    }
    let ends = |(at, c): &(usize, char)| {
        c.is_whitespace() || "{},".contains(*c) || text[*at..].starts_with("..")
    };
    let end = text.char_indices().find(ends);
    end.map_or(text.len(), |(at, _)| at)
}

impl<'a> Words<'a> {
    /// The words of a line.
    pub fn of(line: &'a str) -> Words<'a> {
        let line = line.split('#').next().unwrap_or_default();
        let (mut words, mut at, mut column, mut end) = (Vec::new(), 0, 0, 0);
        while let Some(next) = line[at..].chars().next() {
            let taken = if next.is_whitespace() {
                next.len_utf8()
            } else {
                length(&line[at..])
            };
            let text = &line[at..at + taken];
            let width = text.chars().count();
            if !next.is_whitespace() {
                words.push(Word { column, text });
                end = column + width;
            }
            at += taken;
            column += width;
        }
        Words {
            words,
            read: 0,
            end,
        }
    }

    /// The next word.
    pub fn peek(&self) -> Option<&'a str> {
        self.words.get(self.read).map(|word| word.text)
    }

    /// Reads the next word.
    pub fn next(&mut self) {
        self.read += 1;
    }

    /// Something wrong at the next word, or behind the last.
    pub fn wrong(&self, said: String) -> Wrong {
        let column = self
            .words
            .get(self.read)
            .map_or(self.end, |word| word.column);
        Wrong { column, said }
    }

    /// Nothing stands behind what is read.
    pub fn end(&self) -> Result<(), Wrong> {
        match self.peek() {
            None => Ok(()),
            Some("}") => Err(self.wrong("this '}' has no '{' before it".to_string())),
            Some(word) => Err(self.wrong(format!("the record ends before '{word}'"))),
        }
    }

    /// A number of a record, from 0 to 255.
    pub fn number(&mut self, what: &str) -> Result<u8, Wrong> {
        let number = self.digits(what)?;
        match u8::try_from(number) {
            Ok(number) => {
                self.next();
                Ok(number)
            }
            Err(_) => {
                let word = self.peek().unwrap_or_default();
                Err(self.wrong(format!("'{word}' is not a number from 0 to 255")))
            }
        }
    }

    /// The number that the next word is in base ten, the greatest for one that is greater.
    fn digits(&self, what: &str) -> Result<u64, Wrong> {
        match self.peek() {
            None => Err(self.wrong(format!("{what} is missing"))),
            Some(word) if word.bytes().all(|byte| byte.is_ascii_digit()) => {
                Ok(word.parse().unwrap_or(u64::MAX))
            }
            Some(word) => Err(self.wrong(format!("expected {what}, but '{word}' stands here"))),
        }
    }

    /// A set: members and ranges with commas between, in braces, which may be left out where there is a member.
    pub fn set(&mut self) -> Result<Set, Wrong> {
        let braced = self.peek() == Some("{");
        if braced {
            self.next();
        }
        let mut set = Set::EMPTY;
        match self.peek() {
            Some("}") if braced => {
                self.next();
                return Ok(set);
            }
            None if braced => return Err(self.wrong("a '}' is missing here".to_string())),
            _ => {}
        }
        loop {
            set.0 |= self.members()?;
            match self.peek() {
                Some(",") => self.next(),
                Some("}") if braced => {
                    self.next();
                    return Ok(set);
                }
                Some(word) if word.starts_with(|c: char| c.is_ascii_digit()) => {
                    return Err(self.wrong(format!("a ',' is missing before '{word}'")));
                }
                _ if braced => return Err(self.wrong("a '}' is missing here".to_string())),
                _ => return Ok(set),
            }
        }
    }

    /// A member, or a range of members.
    fn members(&mut self) -> Result<u64, Wrong> {
        let first = self.member()?;
        if self.peek() != Some("..") {
            return Ok(1 << first);
        }
        self.next();
        let start = self.read;
        let last = self.member()?;
        if first > last {
            self.read = start;
            return Err(self.wrong(format!("the range {first}..{last} runs downwards")));
        }
        Ok((first..=last).fold(0, |word, member| word | 1 << member))
    }

    /// A member of a set.
    fn member(&mut self) -> Result<u8, Wrong> {
        let missing = match self.peek() {
            Some(",") => Some("a member is missing before this ','"),
            Some("}") => Some("a member is missing before this '}'"),
            Some("..") => Some("a member is missing before this '..'"),
            Some("{") => Some("a set has one '{'"),
            None if self.words[self.read - 1].text == "," => {
                Some("a member is missing behind the last ','")
            }
            None if self.words[self.read - 1].text == ".." => {
                Some("a member is missing behind the last '..'")
            }
            None => Some("a set is missing here, as {1,2,4..7}"),
            _ => None,
        };
        if let Some(missing) = missing {
            return Err(self.wrong(missing.to_string()));
        }
        match self.digits("a member of a set")? {
            member if member < NUMBERS.into() => {
                self.next();
                Ok(member as u8)
            }
            _ => {
                let word = self.peek().unwrap_or_default();
                Err(self.wrong(format!(
                    "'{word}' is not a member of a set, a number from 0 to 63"
                )))
            }
        }
    }
}
