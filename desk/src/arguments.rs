//! The words of a call: names and options.

use crate::answer::{failure, Answer};
use crate::words::{self, calling, Lang};

/// What a call gives to a command.
pub struct Call {
    command: &'static str,
    /// The first line of its help.
    usage: String,
    pub names: Vec<String>,
    /// The options, with the word that follows those that take one.
    options: Vec<(String, String)>,
}

/// The options that a command has: those alone, and those that a word follows.
pub struct Options {
    pub alone: &'static [&'static str],
    pub followed: &'static [&'static str],
}

const LANG: &str = "--lang";

/// Takes the language out of the words, wherever it stands, and chooses it; the last one where it stands twice.
pub fn choose_language(command: &str, words: Vec<String>) -> Result<Vec<String>, Answer> {
    let mut rest = Vec::new();
    let mut lang = Lang::English;
    let mut words = words.into_iter();
    while let Some(word) = words.next() {
        if word != LANG {
            rest.push(word);
            continue;
        }
        let name = words.next().ok_or_else(|| failure(calling::no_word(LANG, command)))?;
        lang = words::language(&name).ok_or_else(|| failure(calling::no_language(&name)))?;
    }
    words::speak(lang);
    Ok(rest)
}

/// Sorts the words into names and the command's options.
pub fn sort(command: &'static str, usage: &str, has: &Options, words: Vec<String>) -> Result<Call, Answer> {
    let mut call = Call {
        command,
        usage: usage.to_string(),
        names: Vec::new(),
        options: Vec::new(),
    };
    let mut words = words.into_iter();
    while let Some(word) = words.next() {
        if has.followed.contains(&word.as_str()) {
            let next = words.next().ok_or_else(|| failure(calling::no_word(&word, command)))?;
            call.options.push((word, next));
        } else if has.alone.contains(&word.as_str()) {
            call.options.push((word, String::new()));
        } else if word.starts_with('-') {
            return Err(failure(calling::no_option(&word, command)));
        } else {
            call.names.push(word);
        }
    }
    Ok(call)
}

impl Call {
    pub fn has(&self, option: &str) -> bool {
        self.options.iter().any(|(o, _)| o == option)
    }

    /// The word that follows an option; the last one where it stands twice.
    pub fn word(&self, option: &str) -> &str {
        self.options.iter().rev().find(|(o, _)| o == option).map_or("", |(_, word)| word)
    }

    /// The answer to names that the command does not take.
    pub fn other_names(&self) -> Answer {
        failure(calling::other_names(&self.usage, self.command))
    }

    /// The number that a word writes; one that is too large for any call becomes the largest, which names nothing.
    pub fn number(&self, word: &str) -> Result<u32, Answer> {
        if word.is_empty() || !word.bytes().all(|b| b.is_ascii_digit()) {
            return Err(failure(calling::no_number(word, self.command)));
        }
        Ok(word.parse().unwrap_or(u32::MAX))
    }

    /// The numbers that words write, with commas or spaces between them.
    pub fn numbers<'a>(&self, words: impl Iterator<Item = &'a str>) -> Result<Vec<u32>, Answer> {
        words
            .flat_map(|w| w.split([',', ' ']))
            .filter(|w| !w.is_empty())
            .map(|w| self.number(w))
            .collect()
    }
}
