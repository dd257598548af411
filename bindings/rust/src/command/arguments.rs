//! The words after `sirveshan`: options are taken out by name, what is left is told by place.

use crate::failure::Failure;
use std::ffi::{OsStr, OsString};
use std::str::FromStr;

/// What was not taken yet; after a word `--` nothing is an option.
pub struct Arguments {
    words: Vec<OsString>,
    plain: Vec<OsString>,
}

impl Arguments {
    /// Those that the process was started with.
    pub fn of_process() -> Arguments {
        let mut words: Vec<OsString> = std::env::args_os().skip(1).collect();
        let plain = match words.iter().position(|word| word == "--") {
            Some(at) => words.split_off(at).split_off(1),
            None => Vec::new(),
        };
        Arguments { words, plain }
    }

    /// Takes the first word.
    pub fn first(&mut self) -> Option<OsString> {
        (!self.words.is_empty()).then(|| self.words.remove(0))
    }

    /// Takes an option that has no value, and tells whether it was there.
    pub fn flag(&mut self, name: &str) -> bool {
        let before = self.words.len();
        self.words.retain(|word| word != name);
        self.words.len() < before
    }

    /// Takes an option and the word after it, or the word after its `=`.
    pub fn option(&mut self, name: &str) -> Result<Option<OsString>, Failure> {
        let with_value = format!("{name}=");
        let is_it = |word: &OsString| word == name || starts_with(word, &with_value);
        let Some(at) = self.words.iter().position(is_it) else { return Ok(None) };
        let word = self.words.remove(at);
        if word != name {
            let text = word.to_string_lossy();
            return Ok(Some(OsString::from(&text[with_value.len()..])));
        }
        if at == self.words.len() {
            return Err(Failure::Usage(format!("{name} wants a value")));
        }
        Ok(Some(self.words.remove(at)))
    }

    /// Takes an option whose value is a whole number in a range.
    pub fn number(
        &mut self,
        name: &str,
        range: std::ops::RangeInclusive<usize>,
    ) -> Result<Option<usize>, Failure> {
        let Some(word) = self.option(name)? else { return Ok(None) };
        let number = word.to_str().and_then(|word| word.parse().ok());
        match number.filter(|number| range.contains(number)) {
            Some(number) => Ok(Some(number)),
            None => {
                let (low, high) = range.into_inner();
                let word = word.to_string_lossy();
                Err(Failure::Usage(format!("{name} {word}: a number {low} to {high} is wanted")))
            }
        }
    }

    /// Takes `--jobs N`: on how many threads to work.
    pub fn jobs(&mut self) -> Result<Option<usize>, Failure> {
        self.number("--jobs", 1..=256)
    }

    /// Takes an option whose value can be any of its kind, such as a number below 0.
    pub fn value<T: FromStr>(&mut self, name: &str) -> Result<Option<T>, Failure> {
        let Some(word) = self.option(name)? else { return Ok(None) };
        read(name, &word).map(Some)
    }

    /// Takes an option and the three words after it, one for each axis.
    pub fn three<T: FromStr>(&mut self, name: &str) -> Result<Option<[T; 3]>, Failure> {
        let Some(at) = self.words.iter().position(|word| word == name) else { return Ok(None) };
        if self.words.len() < at + 4 {
            return Err(Failure::Usage(format!("{name} wants three values")));
        }
        let words: Vec<OsString> = self.words.drain(at..at + 4).collect();
        Ok(Some([read(name, &words[1])?, read(name, &words[2])?, read(name, &words[3])?]))
    }

    /// All that is left, told by place: one word for each of `names`.
    pub fn by_place<const N: usize>(self, names: [&str; N]) -> Result<[OsString; N], Failure> {
        if let Some(option) = self.words.iter().find(|word| is_option(word)) {
            return Err(Failure::Usage(format!("{} is no option here", option.to_string_lossy())));
        }
        let mut words = self.words;
        words.extend(self.plain);
        words.try_into().map_err(|words: Vec<OsString>| match names.get(words.len()) {
            Some(name) => missing(name),
            None => {
                let word = words[N].to_string_lossy();
                Failure::Usage(format!("{word} is one word too many"))
            }
        })
    }
}

/// What must be there is not.
pub fn missing(name: &str) -> Failure {
    Failure::Usage(format!("{name} is missing"))
}

/// A word that stands for a value.
pub fn read<T: FromStr>(name: &str, word: &OsStr) -> Result<T, Failure> {
    word.to_str().and_then(|word| word.parse().ok()).ok_or_else(|| {
        Failure::Usage(format!("{name} {}: this is no such number", word.to_string_lossy()))
    })
}

fn starts_with(word: &OsStr, beginning: &str) -> bool {
    word.as_encoded_bytes().starts_with(beginning.as_bytes())
}

/// An option begins with a dash; a dash alone and a number below 0 are none.
fn is_option(word: &OsStr) -> bool {
    let text = word.to_string_lossy();
    text.starts_with('-') && text != "-" && text.parse::<f64>().is_err()
}
