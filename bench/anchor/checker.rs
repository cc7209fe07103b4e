//! One proof judged from the formula and a path: additions by reverse unit propagation or as RAT
//! steps, and deletions.
#![allow(unsafe_code)]
use crate::assignment::{Assignment, Falsified, Followed};
use crate::clauses::Clauses;
use crate::formula::Formula;
use crate::index::{FormulaIndex, OwnIndex};
use crate::literal::{code, is_literal_or_end};
use crate::numbers::Numbers;
use crate::tokens::{END, MAX_ID, Tokens, WORD_D};
use std::collections::HashSet;

/// Why a proof is rejected.
#[derive(Clone, Copy, PartialEq)]
pub enum Reason {
    Unreadable,
    Id,
    Hint,
    Unit,
    Empty,
    Group,
    Candidate,
    End,
}

/// What is known of a node: nothing, that its proof is good, or the step at which that ends and
/// why.
#[derive(Clone, Copy, PartialEq)]
pub enum Finding {
    Open,
    Refuted,
    Rejected(u64, Reason),
}

/// What was counted while proofs were judged.
#[derive(Default, Clone, Copy)]
pub struct Counts {
    pub steps: u64,
    pub additions: u64,
    pub deleted: u64,
    pub rats: u64,
    pub groups: u64,
}

/// What one worker keeps from leaf to leaf.
///
/// Each literal of a clause in `clauses`, each of `literals` and the negations of all of these have
/// stamps in `assignment`: `new` makes room for the formula's, `read_literals` and `start_leaf` for
/// any other before it is used.
pub struct Checker<'a> {
    formula: &'a Formula,
    /// Numbers of this leaf's far variables that the formula doesn't have.
    numbers: Numbers,
    /// Literals below this code stand under it, and have stamps.
    plain_codes: u32,
    clauses: Clauses,
    assignment: Assignment,
    /// Made at the first RAT step of the first leaf that has one.
    formula_index: Option<FormulaIndex>,
    own_index: OwnIndex,
    has_empty_clause: bool,
    /// The step that is read: its literals, without repeats, and those of its hints that are kept.
    literals: Vec<u32>,
    hints: Vec<i64>,
    /// What a group of hints has made true.
    trail: Vec<u32>,
    /// The candidates that need a group, in rising order, and whether they have had one.
    needed: Vec<(u64, bool)>,
    pub counts: Counts,
}

impl<'a> Checker<'a> {
    pub fn new(formula: &'a Formula) -> Self {
        let count = formula.starts.len() - 1;
        let mut checker = Checker {
            formula,
            numbers: Numbers::starting_at(formula.numbers.free()),
            plain_codes: 0,
            clauses: Clauses::with_room(formula.literals.len(), count),
            assignment: Assignment::new(formula.greatest | 1),
            formula_index: None,
            own_index: OwnIndex::default(),
            has_empty_clause: formula.clauses().any(|literals| literals.is_empty()),
            literals: Vec::new(),
            hints: Vec::new(),
            trail: Vec::new(),
            needed: Vec::new(),
            counts: Counts::default(),
        };
        checker.count_plain_codes();
        for (literals, id) in formula.clauses().zip(1..) {
            checker.literals.clear();
            checker.literals.extend_from_slice(literals);
            let tautology = checker.falsify();
            checker.clauses.insert(id, &checker.literals, tautology);
        }
        checker.clauses.seal();
        checker
    }

    /// Judges the proof of these tokens, which has so many bytes, for the leaf with this path.
    pub fn judge(&mut self, path: &[u32], tokens: &mut Tokens, proof_bytes: usize) -> Finding {
        self.start_leaf(path, proof_bytes);
        if self.has_empty_clause {
            return Finding::Refuted;
        }
        let mut step = 0;
        loop {
            step += 1;
            let first = tokens.next();
            if first == END {
                return Finding::Rejected(step, Reason::End);
            }
            match self.step(tokens, first) {
                Ok(true) => return Finding::Refuted,
                Ok(false) => {}
                Err(reason) => return Finding::Rejected(step, reason),
            }
        }
    }

    /// The formula and the path's literals, each a unit clause, are what is live.
    fn start_leaf(&mut self, path: &[u32], proof_bytes: usize) {
        self.clauses.start_leaf(proof_bytes);
        self.own_index.stop();
        self.numbers.clear();
        for (&literal, id) in path.iter().zip(self.clauses.formula_count() + 1..) {
            self.literals.clear();
            self.literals.push(literal);
            self.admit(literal);
            self.clauses.insert(id, &self.literals, false);
        }
    }

    fn count_plain_codes(&mut self) {
        self.plain_codes = (self.assignment.room() & !1).min((self.formula.near + 1) << 1);
    }

    /// Makes room for `literals`, of which `greatest` is the one with the greatest code; far
    /// variables get their numbers.
    #[inline(always)]
    fn admit(&mut self, greatest: u32) {
        if greatest >= self.plain_codes {
            self.admit_now();
        }
    }

    #[cold]
    #[inline(never)]
    fn admit_now(&mut self) {
        let near = self.formula.near;
        for literal in self
            .literals
            .iter_mut()
            .filter(|literal| **literal >> 1 > near)
        {
            let known = self.formula.numbers.known(*literal);
            *literal = known.unwrap_or_else(|| self.numbers.of(*literal));
        }
        self.assignment
            .make_room(self.literals.iter().copied().max().unwrap_or(0) | 1);
        self.count_plain_codes();
    }

    /// Reads and judges what is behind a step's first number. Ok(true): the empty clause was added.
    #[inline(always)]
    fn step(&mut self, tokens: &mut Tokens, first: i64) -> Result<bool, Reason> {
        if !(0..=MAX_ID).contains(&first) {
            return Err(Reason::Unreadable);
        }
        let token = tokens.next();
        self.counts.steps += 1;
        if token == WORD_D {
            return self.deletion(tokens).map(|()| false);
        }
        self.addition(tokens, first as u64, token)
    }

    /// Deletes each id as it is read.
    #[inline(always)]
    fn deletion(&mut self, tokens: &mut Tokens) -> Result<(), Reason> {
        loop {
            match tokens.next() {
                0 => break,
                id if (1..=MAX_ID).contains(&id) => {
                    self.counts.deleted += u64::from(self.clauses.delete(id as u64));
                }
                _ => return Err(Reason::Unreadable),
            }
        }
        self.clauses.collect();
        Ok(())
    }

    /// Reads and judges an addition, of which the id and one more token were read. What can't be
    /// read goes before other reasons.
    #[inline(always)]
    fn addition(&mut self, tokens: &mut Tokens, id: u64, token: i64) -> Result<bool, Reason> {
        if id == 0 || !self.read_literals(tokens, token) {
            return Err(Reason::Unreadable);
        }
        self.counts.additions += 1;
        let tautology = self.falsify();
        if self.clauses.offset(id) != 0 {
            return pass_hints(tokens, Err(Reason::Id));
        }
        if tautology {
            pass_hints(tokens, Ok(()))?;
        } else {
            self.follow_hints(tokens)?;
        }
        if self.literals.is_empty() {
            return Ok(true);
        }
        if self.own_index.is_started() {
            self.own_index.note(id, self.literals.iter().copied());
        }
        self.clauses.insert(id, &self.literals, tautology);
        Ok(false)
    }

    /// Reads literals from this token on. False where they can't be read.
    #[inline(always)]
    fn read_literals(&mut self, tokens: &mut Tokens, mut token: i64) -> bool {
        self.literals.clear();
        let mut greatest = 0;
        while token != 0 {
            if !is_literal_or_end(token) {
                return false;
            }
            let literal = code(token);
            greatest = greatest.max(literal);
            self.literals.push(literal);
            token = tokens.next();
        }
        self.admit(greatest);
        true
    }

    /// Makes the negations of `literals` true and no other literal, and drops repeats. Answers
    /// whether they are a tautology.
    #[inline(always)]
    fn falsify(&mut self) -> bool {
        self.assignment.forget();
        // SAFETY: `literals` have stamps.
        let Falsified { tautology, repeats } = unsafe { self.assignment.falsify(&self.literals) };
        if repeats {
            self.drop_repeats();
        }
        tautology
    }

    #[cold]
    fn drop_repeats(&mut self) {
        let mut kept = HashSet::new();
        self.literals.retain(|literal| kept.insert(*literal));
    }

    /// Reads the leading hints and follows each as it is read.
    #[inline(always)]
    fn follow_hints(&mut self, tokens: &mut Tokens) -> Result<(), Reason> {
        loop {
            let hint = tokens.next();
            if hint <= 0 {
                return self.behind_leading(tokens, hint);
            }
            match self.follow(hint as u64) {
                Ok(Followed::Unit { .. }) => {}
                Ok(Followed::Conflict) => return pass_hints(tokens, Ok(())),
                Ok(Followed::Open) => return pass_hints(tokens, Err(Reason::Unit)),
                Err(reason) => return pass_hints(tokens, Err(reason)),
            }
        }
    }

    /// Follows the clause of this id.
    #[inline(always)]
    fn follow(&mut self, id: u64) -> Result<Followed, Reason> {
        match self.clauses.offset(id) {
            0 => Err(Reason::Hint),
            // SAFETY: the clause is live, so its literals have stamps.
            offset => Ok(unsafe { self.assignment.follow(self.clauses.blocks(offset)) }),
        }
    }

    /// What is behind the leading hints, which have found no conflict: the end, or the groups of a
    /// RAT step.
    #[inline(never)]
    fn behind_leading(&mut self, tokens: &mut Tokens, mut hint: i64) -> Result<(), Reason> {
        self.hints.clear();
        while hint != 0 {
            if !(-MAX_ID..=MAX_ID).contains(&hint) {
                return Err(Reason::Unreadable);
            }
            self.hints.push(hint);
            hint = tokens.next();
        }
        match self.literals.first() {
            None => Err(Reason::Empty),
            Some(&pivot) => self.check_groups(pivot),
        }
    }

    /// Judges a RAT step on its first literal: `hints` are groups, of which each begins with a
    /// candidate's id, negated.
    fn check_groups(&mut self, pivot: u32) -> Result<(), Reason> {
        self.counts.rats += 1;
        self.find_needed(pivot);
        let hints = std::mem::take(&mut self.hints);
        let mut rest = &hints[..];
        while let Some((candidate, behind)) = rest.split_first() {
            let size = behind.iter().take_while(|&&hint| hint > 0).count();
            let (group, others) = behind.split_at(size);
            rest = others;
            let candidate = candidate.unsigned_abs();
            if let Ok(place) = self
                .needed
                .binary_search_by_key(&candidate, |needed| needed.0)
            {
                self.needed[place].1 = true;
                self.check_group(candidate, pivot, group)?;
            }
        }
        self.hints = hints;
        if self.needed.iter().all(|needed| needed.1) {
            Ok(())
        } else {
            Err(Reason::Candidate)
        }
    }

    /// Follows a group's hints from the assignment that makes the candidate's other literals false,
    /// too; it stays as it was.
    fn check_group(&mut self, candidate: u64, pivot: u32, group: &[i64]) -> Result<(), Reason> {
        self.counts.groups += 1;
        self.trail.clear();
        for &negated in self.clauses.negated(self.clauses.offset(candidate)) {
            if negated != pivot && !self.assignment.is_true(negated) {
                self.assignment.set(negated);
                self.trail.push(negated);
            }
        }
        self.follow_group(group)?;
        self.trail
            .drain(..)
            .for_each(|literal| self.assignment.unset(literal));
        Ok(())
    }

    fn follow_group(&mut self, group: &[i64]) -> Result<(), Reason> {
        for &hint in group {
            match self.follow(hint as u64)? {
                // It stays true behind the group.
                Followed::Unit { was_true: true, .. } => {}
                Followed::Unit { literal, .. } => self.trail.push(literal),
                Followed::Conflict => return Ok(()),
                Followed::Open => return Err(Reason::Unit),
            }
        }
        Err(Reason::Group)
    }

    /// Finds the candidates that need a group: the live clauses that have the pivot's negation, but
    /// for tautologies and for those that have another literal which is true.
    fn find_needed(&mut self, pivot: u32) {
        let (clauses, assignment) = (&self.clauses, &self.assignment);
        let needs = |offset: u32| {
            let is_done = |&negated: &u32| negated != pivot && assignment.is_true(negated ^ 1);
            !clauses.is_tautology(offset) && !clauses.negated(offset).iter().any(is_done)
        };
        let make = || FormulaIndex::new(clauses, assignment.room());
        let formulas = self
            .formula_index
            .get_or_insert_with(make)
            .ids_of(pivot ^ 1);
        self.needed.clear();
        for id in formulas.iter().map(|&id| u64::from(id)) {
            let offset = clauses.offset(id);
            if clauses.is_formulas(offset) && needs(offset) {
                self.needed.push((id, false));
            }
        }
        self.own_index.start(clauses);
        let own = self.own_index.ids_of(pivot ^ 1, |&id| {
            let offset = clauses.offset(id);
            offset != 0 && !clauses.is_formulas(offset) && clauses.negated(offset).contains(&pivot)
        });
        if !own.is_empty() {
            let needed = own.iter().filter(|&&id| needs(clauses.offset(id)));
            self.needed.extend(needed.map(|&id| (id, false)));
            self.needed.sort_unstable();
            self.needed.dedup();
        }
    }
}

/// Reads the hints that are left for nothing but whether they can be read, and then answers what
/// was found.
#[inline(never)]
fn pass_hints<T>(tokens: &mut Tokens, found: Result<T, Reason>) -> Result<T, Reason> {
    loop {
        match tokens.next() {
            0 => return found,
            hint if (-MAX_ID..=MAX_ID).contains(&hint) => {}
            _ => return Err(Reason::Unreadable),
        }
    }
}
