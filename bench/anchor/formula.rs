//! The iCNF text: its clauses and its cubes.
use crate::literal::{code, is_literal_or_end};
use crate::numbers::Numbers;
use crate::scan::Scan;
use crate::text::{line_of, number_of, words_of};
use crate::tokens::{END, Tokens, WORD_A};
use std::ops::Range;

const MAX_CLAUSES: usize = 16_777_216;
const MAX_CUBES: usize = 1_048_576;
/// Of all clauses together, and of all cubes together.
const MAX_LITERALS: usize = 16_777_216;
const MAX_CUBE_LITERALS: usize = 4_096;
/// A variable up to here always stands under itself in tables by literal.
const NEAR: usize = 1 << 18;

/// Clause i has the literals from `starts[i]` to `starts[i + 1]`. A variable above `near` stands
/// under a number of its own there, so that tables by literal are as long as what occurs.
pub struct Formula {
    pub literals: Vec<u32>,
    pub starts: Vec<usize>,
    pub near: u32,
    pub numbers: Numbers,
    /// The greatest code of a literal, 0 without one.
    pub greatest: u32,
}

impl Formula {
    fn new(mut literals: Vec<u32>, starts: Vec<usize>) -> Self {
        let near = NEAR.max(literals.len()) as u32;
        let mut numbers = Numbers::starting_at(near + 1);
        for literal in literals.iter_mut().filter(|literal| **literal >> 1 > near) {
            *literal = numbers.of(*literal);
        }
        let greatest = literals.iter().copied().max().unwrap_or(0);
        Formula {
            literals,
            starts,
            near,
            numbers,
            greatest,
        }
    }

    /// The clauses' literals, in the order of the text.
    pub fn clauses(&self) -> impl Iterator<Item = &[u32]> {
        self.starts
            .windows(2)
            .map(|ends| &self.literals[ends[0]..ends[1]])
    }
}

/// What was read so far: the clauses, the cubes, and the cube that hasn't ended.
#[derive(Default)]
struct Items {
    literals: Vec<u32>,
    starts: Vec<usize>,
    cubes: Vec<Vec<u32>>,
    cube: Option<Vec<u32>>,
    cube_literals: usize,
    inside: bool,
}

impl Items {
    fn start_cube(&mut self) -> Result<(), String> {
        within(self.cubes.len(), MAX_CUBES)?;
        self.cube = Some(Vec::new());
        self.inside = true;
        Ok(())
    }

    /// A literal, or 0 for the end of a clause or a cube.
    fn number(&mut self, number: i64) -> Result<(), String> {
        if !self.inside {
            within(self.starts.len() - 1, MAX_CLAUSES)?;
        }
        self.inside = number != 0;
        match &mut self.cube {
            Some(literals) if self.inside => {
                within(literals.len(), MAX_CUBE_LITERALS)?;
                within(self.cube_literals, MAX_LITERALS)?;
                self.cube_literals += 1;
                literals.push(code(number));
            }
            Some(_) => self.cubes.extend(self.cube.take()),
            None if self.inside => {
                within(self.literals.len(), MAX_LITERALS)?;
                self.literals.push(code(number));
            }
            None => self.starts.push(self.literals.len()),
        }
        Ok(())
    }
}

/// Whether one more fits.
fn within(count: usize, limit: usize) -> Result<(), String> {
    if count < limit {
        Ok(())
    } else {
        Err("F5 limit".into())
    }
}

/// The formula and the cubes of the text before `end`.
pub fn read_icnf(text: &[u8], end: usize) -> Result<(Formula, Vec<Vec<u32>>), String> {
    let items = behind_header(text, end)?;
    let mut tokens = Tokens::new(text, items.clone());
    let mut read = Items {
        starts: vec![0],
        ..Items::default()
    };
    for count in 0.. {
        match tokens.next() {
            END if read.inside => return Err("F3 unfinished".into()),
            END => break,
            WORD_A if !read.inside => read.start_cube()?,
            number if is_literal_or_end(number) => read.number(number)?,
            _ => return Err(fault_of(text, items, count)),
        }
    }
    Ok((Formula::new(read.literals, read.starts), read.cubes))
}

/// The part of the text behind the header's line and before `end`.
fn behind_header(text: &[u8], end: usize) -> Result<Range<usize>, String> {
    let mut scan = Scan::new(text, 0..end);
    scan.seek();
    if !words_of(scan.line()).take(2).eq([&b"p"[..], b"inccnf"]) {
        return Err("F1 header".into());
    }
    scan.skip_line();
    Ok(scan.place()..end)
}

/// The fault of the token behind so many others, which can't stand where it does.
fn fault_of(text: &[u8], items: Range<usize>, count: usize) -> String {
    let mut scan = Scan::new(text, items);
    (0..count).for_each(|_| {
        scan.token();
    });
    scan.seek();
    let fault = number_of(scan.word()).map_or("F2 token", |_| "F4 too large");
    format!("{fault}, line {}", line_of(text, scan.place()))
}
