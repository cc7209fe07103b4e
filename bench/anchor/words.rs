//! The words that the program is called with.
use std::ffi::OsString;

pub const USAGE: &str = "Usage: anchor [--workers N] [--cut D] [--proofs DIR] [--stats] [FILE]";

/// What the words say.
pub struct Words {
    pub workers: usize,
    pub proofs: Option<OsString>,
    pub file: Option<OsString>,
    pub stats: bool,
}

impl Words {
    /// None where they can't be taken.
    pub fn read(mut words: impl Iterator<Item = OsString>) -> Option<Words> {
        let (mut workers, mut cut, mut only_files) = (None, None, false);
        let mut said = Words {
            workers: 4,
            proofs: None,
            file: None,
            stats: false,
        };
        while let Some(word) = words.next() {
            if only_files || !is_option(&word) {
                put(&mut said.file, word)?;
                continue;
            }
            let (name, value) = split(word.to_str()?);
            match name {
                "--" if value.is_none() => only_files = true,
                "--stats" if value.is_none() => said.stats = true,
                "--workers" => put(&mut workers, value.or_else(|| next_value(&mut words))?)?,
                "--cut" => put(&mut cut, value.or_else(|| next_value(&mut words))?)?,
                "--proofs" => put(&mut said.proofs, value.or_else(|| next_value(&mut words))?)?,
                _ => return None,
            }
        }
        said.workers = number(workers, 4, 32).filter(|&workers| workers > 0)?;
        number(cut, 3, 6)?;
        Some(said)
    }
}

/// Whether the word begins with a minus and has more than that.
fn is_option(word: &OsString) -> bool {
    word.len() > 1 && word.as_encoded_bytes().starts_with(b"-")
}

/// An option's name, and what is behind `=`.
fn split(word: &str) -> (&str, Option<OsString>) {
    match word.split_once('=') {
        Some((name, value)) => (name, Some(value.into())),
        None => (word, None),
    }
}

/// The next word, if it is a value.
fn next_value(words: &mut impl Iterator<Item = OsString>) -> Option<OsString> {
    words.next().filter(|word| !is_option(word))
}

/// Puts a word in its place. None where there is one.
fn put(place: &mut Option<OsString>, word: OsString) -> Option<()> {
    match place.replace(word) {
        None => Some(()),
        Some(_) => None,
    }
}

/// The number that the word is, up to a greatest one; another where there is no word.
fn number(word: Option<OsString>, other: usize, greatest: usize) -> Option<usize> {
    match word {
        Some(word) => word
            .to_str()?
            .parse()
            .ok()
            .filter(|&number| number <= greatest),
        None => Some(other),
    }
}
