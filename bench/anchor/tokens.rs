//! The tokens of a part of a text, read ahead into a list: by blocks of 64 bytes, and where a block
//! has something unusual, one by one.
#![allow(unsafe_code)]
use crate::scan::Scan;
use crate::vectors::{BEFORE, BLOCK, MOST, Read, Window, are_supported, read_block};
use std::ops::Range;

pub const MAX_ID: i64 = 1 << 62;

/// Tokens that aren't numbers from `-MAX_ID` to `MAX_ID`: none is left, `d`, `a`, and any other.
pub const END: i64 = i64::MIN;
pub const WORD_D: i64 = i64::MIN + 1;
pub const WORD_A: i64 = i64::MIN + 2;
pub const BAD: i64 = i64::MIN + 3;

/// Stands behind what was read ahead.
const MORE: i64 = i64::MIN + 4;

/// Tokens are read ahead until so many are.
const ENOUGH: usize = 1024;

/// Those, what one more block has, `END` and `MORE`.
const ROOM: usize = ENOUGH + MOST + 2;

pub struct Tokens<'a> {
    scan: Scan<'a>,
    /// `MORE` stands at `next` or behind it.
    list: Box<[i64; ROOM]>,
    next: usize,
}

impl<'a> Tokens<'a> {
    /// The tokens of a part of the text that begins at a line's start or end.
    pub fn new(text: &'a [u8], part: Range<usize>) -> Self {
        assert!(are_supported(), "a processor without AVX2");
        Tokens {
            scan: Scan::new(text, part),
            list: Box::new([MORE; ROOM]),
            next: 0,
        }
    }

    /// Goes on with another part of the text.
    pub fn start(&mut self, text: &'a [u8], part: Range<usize>) {
        self.scan = Scan::new(text, part);
        self.list[0] = MORE;
        self.next = 0;
    }

    /// The next token.
    #[inline(always)]
    pub fn next(&mut self) -> i64 {
        // SAFETY: `MORE` isn't passed, so `next` is a place of the list.
        let token = unsafe { *self.list.get_unchecked(self.next) };
        if token == MORE {
            return self.read_on();
        }
        self.next += 1;
        token
    }

    /// Reads ahead, and answers the first token. `END` is the last one, again and again.
    #[cold]
    #[inline(never)]
    fn read_on(&mut self) -> i64 {
        let mut count = 0;
        while count < ENOUGH {
            let read = self.read_some(count);
            count += read;
            if read == 0 {
                self.list[count] = END;
                count += 1;
                break;
            }
        }
        self.list[count] = MORE;
        self.next = 1;
        self.list[0]
    }

    /// Reads tokens to this place of the list, and answers how many; 0 where none is left.
    fn read_some(&mut self, place: usize) -> usize {
        let read = self.read_block(place);
        if read > 0 {
            return read;
        }
        let behind = self.scan.place() + BLOCK;
        let mut count = 0;
        while self.scan.place() < behind && self.scan.seek() {
            self.list[place + count] = self.scan.token();
            count += 1;
        }
        count
    }

    /// Reads the block that stands here to this place of the list, and answers how many tokens end
    /// in it; 0 where it has to be read one by one.
    fn read_block(&mut self, place: usize) -> usize {
        let (Some(window), Some(list)) = (self.window(), self.list[place..].first_chunk_mut())
        else {
            return 0;
        };
        // SAFETY: `new` has asked for what the processor has to have.
        match unsafe { read_block(window, list) } {
            Some(Read { tokens, bytes }) => {
                self.scan.pass(bytes);
                tokens
            }
            None => 0,
        }
    }

    /// The block from here on and what stands before it, if the part has that much.
    fn window(&self) -> Option<&'a Window> {
        let start = self.scan.place().checked_sub(BEFORE)?;
        self.scan.text()[start..].first_chunk()
    }
}
