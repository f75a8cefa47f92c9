//! What the crates use of the port of clap: options of a letter with a value, long flags, and words.
#![allow(warnings)]
use rattle_std::alloc::{AllocError, Global};
use rattle_std::prelude::String;

pub mod error {
    #[derive(Clone, Copy, Debug, PartialEq, Eq)]
    pub enum ErrorKind {
        OutOfMemory,
        Other,
    }
}

pub struct Error;

impl Error {
    pub fn kind(&self) -> error::ErrorKind {
        error::ErrorKind::Other
    }
}

#[derive(Clone, Copy, PartialEq)]
pub enum ArgAction {
    Set,
    SetTrue,
    Append,
}

pub struct Arg<'a> {
    name: &'a str,
    letter: Option<char>,
    word: Option<&'a str>,
    action: ArgAction,
}

impl<'a> Arg<'a> {
    pub fn new(_: Global, name: &'a str) -> Arg<'a> {
        Arg {
            name,
            letter: None,
            word: None,
            action: ArgAction::Set,
        }
    }

    pub fn short(self, letter: char) -> Arg<'a> {
        Arg {
            letter: Some(letter),
            ..self
        }
    }

    pub fn long(self, word: &'a str) -> Arg<'a> {
        Arg {
            word: Some(word),
            ..self
        }
    }

    pub fn action(self, action: ArgAction) -> Arg<'a> {
        Arg { action, ..self }
    }
}

pub struct Command<'a> {
    rules: std::vec::Vec<Arg<'a>>,
}

impl<'a> Command<'a> {
    pub fn new(_: Global, _: &str) -> Command<'a> {
        Command {
            rules: std::vec::Vec::new(),
        }
    }

    pub fn no_binary_name(self, _: bool) -> Command<'a> {
        self
    }

    pub fn disable_help_flag(self, _: bool) -> Command<'a> {
        self
    }

    pub fn disable_version_flag(self, _: bool) -> Command<'a> {
        self
    }

    pub fn args(mut self, args: impl IntoIterator<Item = Arg<'a>>) -> Result<Command<'a>, AllocError> {
        self.rules.extend(args);
        Ok(self)
    }

    pub fn try_get_matches_from(&self, words: &'a [String]) -> Result<ArgMatches<'a>, Error> {
        let mut found = ArgMatches {
            values: std::vec::Vec::new(),
        };
        let mut words = words.iter().map(|word| word.as_str());
        let mut is_open = true;
        while let Some(word) = words.next() {
            if is_open && word == "--" {
                is_open = false;
            } else if let Some(name) = word.strip_prefix("--").filter(|_| is_open) {
                let rule = self.rules.iter().find(|rule| rule.word == Some(name));
                found.put(rule.ok_or(Error)?, "true")?;
            } else if let Some(text) = word.strip_prefix('-').filter(|text| is_open && *text != "") {
                let letter = text.chars().next().ok_or(Error)?;
                let rule = self.rules.iter().find(|rule| rule.letter == Some(letter));
                let rest = &text[letter.len_utf8()..];
                let value = match rest.strip_prefix('=') {
                    Some(value) => value,
                    None if rest != "" => rest,
                    None => words.next().ok_or(Error)?,
                };
                found.put(rule.ok_or(Error)?, value)?;
            } else {
                let rule = self.rules.iter().find(|rule| rule.action == ArgAction::Append);
                found.put(rule.ok_or(Error)?, word)?;
            }
        }
        Ok(found)
    }
}

pub struct ArgMatches<'a> {
    values: std::vec::Vec<(std::string::String, std::vec::Vec<&'a str>)>,
}

impl<'a> ArgMatches<'a> {
    fn put(&mut self, rule: &Arg<'_>, value: &'a str) -> Result<(), Error> {
        match self.values.iter_mut().find(|(name, _)| name == rule.name) {
            Some(_) if rule.action != ArgAction::Append => return Err(Error),
            Some((_, values)) => values.push(value),
            None => self.values.push((rule.name.to_string(), std::vec![value])),
        }
        Ok(())
    }

    pub fn get_raw(&self, name: &str) -> Option<&[&'a str]> {
        let (_, values) = self.values.iter().find(|(known, _)| known == name)?;
        Some(values)
    }

    pub fn get_str(&self, name: &str) -> Option<&'a str> {
        Some(self.get_raw(name)?[0])
    }
}
