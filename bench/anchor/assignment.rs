//! The literals that are true, as stamps: those whose stamp is the present one. To forget all of
//! them is to take the next stamp.
#![allow(unsafe_code)]

pub struct Assignment {
    /// By the literal's code. The code 0, which fills up clauses, always counts as true.
    stamps: Vec<u16>,
    now: u16,
}

/// What a clause says whose literals are given negated.
pub enum Followed {
    /// All of its literals are false.
    Conflict,
    /// All but this one, which is true from now on, and may have been before.
    Unit { literal: u32, was_true: bool },
    /// Two or more aren't false.
    Open,
}

/// What was found while a clause's literals became false.
pub struct Falsified {
    pub tautology: bool,
    pub repeats: bool,
}

impl Assignment {
    /// An assignment with room for this literal and its negation.
    pub fn new(greatest: u32) -> Self {
        let stamps = vec![0; (greatest as usize + 2).max(4)];
        Assignment { stamps, now: 0 }
    }

    /// Codes below this one have a stamp.
    pub fn room(&self) -> u32 {
        self.stamps.len() as u32
    }

    /// Makes room for this literal and its negation.
    pub fn make_room(&mut self, greatest: u32) {
        let needed = greatest as usize + 2;
        if needed > self.stamps.len() {
            self.stamps.resize(needed / 2 * 3, 0);
        }
    }

    /// Makes no literal true.
    #[inline(always)]
    pub fn forget(&mut self) {
        if self.now == u16::MAX {
            self.stamps.fill(0);
            self.now = 0;
        }
        self.now += 1;
        self.stamps[0] = self.now;
    }

    #[inline(always)]
    pub fn is_true(&self, literal: u32) -> bool {
        self.stamps[literal as usize] == self.now
    }

    pub fn set(&mut self, literal: u32) {
        self.stamps[literal as usize] = self.now;
    }

    pub fn unset(&mut self, literal: u32) {
        self.stamps[literal as usize] = 0;
    }

    /// Makes the literals false.
    ///
    /// # Safety
    /// They and their negations have stamps.
    #[inline(always)]
    pub unsafe fn falsify(&mut self, literals: &[u32]) -> Falsified {
        let mut found = Falsified {
            tautology: false,
            repeats: false,
        };
        for &literal in literals {
            // SAFETY: both have stamps.
            unsafe {
                found.tautology |= *self.stamps.get_unchecked(literal as usize) == self.now;
                let stamp = self.stamps.get_unchecked_mut((literal ^ 1) as usize);
                found.repeats |= *stamp == self.now;
                *stamp = self.now;
            }
        }
        found
    }

    /// Follows a clause, given as blocks of its literals' negations.
    ///
    /// # Safety
    /// These and the literals have stamps.
    #[inline(always)]
    pub unsafe fn follow<const N: usize>(&mut self, blocks: &[[u32; N]]) -> Followed {
        let (mut open, mut last) = (0u32, 0u32);
        for block in blocks {
            for &negated in block {
                // SAFETY: it has a stamp.
                let is_open = unsafe { *self.stamps.get_unchecked(negated as usize) } < self.now;
                last = if is_open { negated } else { last };
                open += u32::from(is_open);
            }
        }
        match open {
            0 => Followed::Conflict,
            1 => {
                let literal = last ^ 1;
                // SAFETY: the literal has a stamp.
                let stamp = unsafe { self.stamps.get_unchecked_mut(literal as usize) };
                let was_true = *stamp == self.now;
                *stamp = self.now;
                Followed::Unit { literal, was_true }
            }
            _ => Followed::Open,
        }
    }
}
