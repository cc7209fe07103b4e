//! Which clauses have a literal: the index that RAT steps ask for candidates.
use crate::clauses::Clauses;

/// Of the formula's clauses, made once: the ids of a literal's clauses stand from one of `starts`
/// to the next.
pub struct FormulaIndex {
    starts: Vec<u32>,
    ids: Vec<u32>,
}

impl FormulaIndex {
    /// The codes of the formula's literals are below `codes`.
    pub fn new(clauses: &Clauses, codes: u32) -> Self {
        let places = clauses.formulas().flat_map(|(id, offset)| {
            clauses
                .negated(offset)
                .iter()
                .map(move |negated| (id as u32, (negated ^ 1) as usize))
        });
        let starts = starts_of(places.clone().map(|(_, literal)| literal), codes as usize);
        let mut next = starts.clone();
        let mut ids = vec![0; starts[codes as usize] as usize];
        for (id, literal) in places {
            ids[next[literal] as usize] = id;
            next[literal] += 1;
        }
        FormulaIndex { starts, ids }
    }

    /// The ids of the clauses that have this literal, in rising order; some may be deleted.
    pub fn ids_of(&self, literal: u32) -> &[u32] {
        match self.starts.get(literal as usize..) {
            Some([start, end, ..]) => &self.ids[*start as usize..*end as usize],
            _ => &[],
        }
    }
}

/// Where each literal's part begins in a list of so many, sorted by literal; the last place is its
/// end.
fn starts_of(literals: impl Iterator<Item = usize>, codes: usize) -> Vec<u32> {
    let mut starts = vec![0u32; codes + 1];
    literals.for_each(|literal| starts[literal + 1] += 1);
    let mut total = 0;
    for start in &mut starts {
        total += *start;
        *start = total;
    }
    starts
}

/// Of a leaf's own clauses, from its first RAT step on.
#[derive(Default)]
pub struct OwnIndex {
    /// By the literal. An id may stand for a clause that is gone.
    ids: Vec<Vec<u64>>,
    /// The literals that have ids.
    noted: Vec<u32>,
    started: bool,
}

impl OwnIndex {
    /// There was no RAT step yet.
    pub fn stop(&mut self) {
        for literal in self.noted.drain(..) {
            self.ids[literal as usize].clear();
        }
        self.started = false;
    }

    /// Notes the clauses that are live, if that isn't done.
    pub fn start(&mut self, clauses: &Clauses) {
        if !self.started {
            self.started = true;
            for (id, offset) in clauses.own() {
                self.note(
                    id,
                    clauses.negated(offset).iter().map(|negated| negated ^ 1),
                );
            }
        }
    }

    pub fn is_started(&self) -> bool {
        self.started
    }

    /// Notes a clause with these literals.
    pub fn note(&mut self, id: u64, literals: impl Iterator<Item = u32>) {
        for literal in literals {
            if literal as usize >= self.ids.len() {
                self.ids.resize(literal as usize + 1, Vec::new());
            }
            let list = &mut self.ids[literal as usize];
            if list.is_empty() {
                self.noted.push(literal);
            }
            list.push(id);
        }
    }

    /// The ids noted for this literal, and only those that `holds` says are clauses with it; the
    /// others are dropped.
    pub fn ids_of(&mut self, literal: u32, holds: impl FnMut(&u64) -> bool) -> &[u64] {
        match self.ids.get_mut(literal as usize) {
            Some(list) => {
                list.retain(holds);
                list
            }
            None => &[],
        }
    }
}
