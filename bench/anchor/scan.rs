//! The tokens of a part of a text one by one, past blanks and comments, as the formats say it.
use crate::text::{is_blank, line_at, number_of};
use crate::tokens::{BAD, END, MAX_ID, WORD_A, WORD_D};
use std::ops::Range;

pub struct Scan<'a> {
    /// The text up to the part's end.
    text: &'a [u8],
    /// Where the part begins, which is a line's start or end.
    first: usize,
    /// Where the next token is sought.
    at: usize,
}

impl<'a> Scan<'a> {
    pub fn new(text: &'a [u8], part: Range<usize>) -> Self {
        Scan {
            text: &text[..part.end],
            first: part.start,
            at: part.start,
        }
    }

    /// The next token. Then goes past the blanks behind it.
    pub fn token(&mut self) -> i64 {
        if !self.seek() {
            return END;
        }
        let word = self.word();
        self.at += word.len();
        self.skip_blanks();
        match (word, number_of(word)) {
            (b"d", _) => WORD_D,
            (b"a", _) => WORD_A,
            (_, Some(number)) if (-MAX_ID..=MAX_ID).contains(&number) => number,
            _ => BAD,
        }
    }

    /// Goes to the next token. False where none is left.
    pub fn seek(&mut self) -> bool {
        self.skip_blanks();
        while self.rest().first() == Some(&b'c') && self.is_first() {
            self.skip_line();
            self.skip_blanks();
        }
        !self.rest().is_empty()
    }

    /// Whether nothing but blanks stands before this place on its line.
    fn is_first(&self) -> bool {
        let mut before = self.text[self.first..self.at].iter().rev();
        before
            .find(|&&byte| byte == b'\n' || !is_blank(byte))
            .is_none_or(|&byte| byte == b'\n')
    }

    fn skip_blanks(&mut self) {
        self.at += count_while(self.rest(), is_blank);
    }

    /// Goes to the line's end.
    pub fn skip_line(&mut self) {
        self.at += self.line().len();
    }

    /// What is left of the line.
    pub fn line(&self) -> &'a [u8] {
        line_at(self.rest())
    }

    /// The token that stands here, behind `seek`.
    pub fn word(&self) -> &'a [u8] {
        let rest = self.rest();
        &rest[..count_while(rest, |byte| !is_blank(byte))]
    }

    /// What is left of the part.
    fn rest(&self) -> &'a [u8] {
        &self.text[self.at..]
    }

    /// Where the scan is.
    pub fn place(&self) -> usize {
        self.at
    }

    /// Goes so many bytes ahead.
    pub fn pass(&mut self, bytes: usize) {
        self.at += bytes;
    }

    /// The text up to the part's end.
    pub fn text(&self) -> &'a [u8] {
        self.text
    }
}

/// How many bytes the text begins with of which this holds.
fn count_while(text: &[u8], holds: impl Fn(u8) -> bool) -> usize {
    text.iter()
        .position(|&byte| !holds(byte))
        .unwrap_or(text.len())
}
