//! The live clauses of a leaf in one list of numbers, the formula's at its front, and where each id
//! has its clause.
#![allow(unsafe_code)]
use crate::numbers::NumberMap;

/// A clause is filled up to whole blocks of so many numbers, so that it can be followed with no
/// test at each literal.
pub const BLOCK: usize = 4;

/// Numbers of deleted clauses that may stand in the list, beside as many as are live.
const SLACK: usize = 1 << 18;

pub struct Clauses {
    /// For each clause its head, which is twice its length, and 1 more for a tautology; then its
    /// literals, negated; then zeros. The first number is no clause's: offset 0 is that of an id
    /// that isn't live.
    list: Vec<u32>,
    /// How much of the list is live.
    live: usize,
    /// The offsets of ids up to `limit`, and of those above.
    near: Vec<u32>,
    far: NumberMap,
    limit: u64,
    /// The formula's clauses end here in the list; their offsets by id; and those of them that this
    /// leaf has deleted.
    formula_end: usize,
    formula: Vec<u32>,
    deleted: Vec<u32>,
}

impl Clauses {
    /// No clauses, and room for so many numbers of the formula's. Until `seal` each that is put in
    /// is one of these.
    pub fn with_room(numbers: usize, clauses: usize) -> Self {
        let mut list = Vec::with_capacity(numbers + clauses * (1 + BLOCK) + 1);
        list.push(0);
        Clauses {
            list,
            live: 1,
            near: vec![0],
            far: NumberMap::default(),
            limit: clauses as u64,
            formula_end: 0,
            formula: Vec::new(),
            deleted: Vec::new(),
        }
    }

    /// The formula is complete.
    pub fn seal(&mut self) {
        self.formula_end = self.list.len();
        self.formula.clone_from(&self.near);
    }

    /// How many clauses the formula has.
    pub fn formula_count(&self) -> u64 {
        self.formula.len() as u64 - 1
    }

    /// The formula's clauses alone are live again. Ids up to half the proof's bytes get places side
    /// by side.
    pub fn start_leaf(&mut self, proof_bytes: usize) {
        for id in self.deleted.drain(..) {
            self.near[id as usize] = self.formula[id as usize];
        }
        self.near.truncate(self.formula.len());
        self.list.truncate(self.formula_end);
        self.live = self.formula_end;
        self.far.clear();
        self.limit = self.formula_count() + 8192 + proof_bytes as u64 / 2;
    }

    /// Where the clause of this id stands; 0 if it isn't live.
    #[inline(always)]
    pub fn offset(&self, id: u64) -> u32 {
        match self.near.get(id as usize) {
            Some(&offset) => offset,
            None if id <= self.limit || self.far.is_empty() => 0,
            None => self.far.get(&id).copied().unwrap_or(0),
        }
    }

    /// Whether a clause of the formula stands there.
    pub fn is_formulas(&self, offset: u32) -> bool {
        offset != 0 && (offset as usize) < self.formula_end
    }

    pub fn is_tautology(&self, offset: u32) -> bool {
        self.list[offset as usize] & 1 == 1
    }

    /// How many literals the clause has.
    #[inline(always)]
    fn length(&self, offset: u32) -> usize {
        (self.list[offset as usize] >> 1) as usize
    }

    /// The negations of its literals.
    #[inline(always)]
    pub fn negated(&self, offset: u32) -> &[u32] {
        let start = offset as usize + 1;
        &self.list[start..start + self.length(offset)]
    }

    /// The same, filled up with zeros to whole blocks.
    ///
    /// # Safety
    /// The offset is that of a clause that is live.
    #[inline(always)]
    pub unsafe fn blocks(&self, offset: u32) -> &[[u32; BLOCK]] {
        // SAFETY: behind a live clause's head stand as many whole blocks as its length takes.
        unsafe {
            let head = self.list.as_ptr().add(offset as usize);
            let blocks = (*head >> 1).div_ceil(BLOCK as u32) as usize;
            std::slice::from_raw_parts(head.add(1).cast(), blocks)
        }
    }

    /// Puts in the clause of these literals, of which none repeats, for an id that isn't live.
    #[inline(always)]
    pub fn insert(&mut self, id: u64, literals: &[u32], tautology: bool) {
        let offset = self.list.len();
        let size = 1 + filled(literals.len());
        assert!(
            offset + size <= u32::MAX as usize,
            "more literals than the anchor has room for"
        );
        self.list.reserve(size);
        self.list
            .push((literals.len() as u32) << 1 | u32::from(tautology));
        let (blocks, rest) = literals.as_chunks::<BLOCK>();
        for block in blocks {
            self.list
                .extend_from_slice(&block.map(|literal| literal ^ 1));
        }
        if !rest.is_empty() {
            let mut block = [0; BLOCK];
            for (place, literal) in block.iter_mut().zip(rest) {
                *place = literal ^ 1;
            }
            self.list.extend_from_slice(&block);
        }
        self.live += size;
        self.place(id, offset as u32);
    }

    #[inline(always)]
    fn place(&mut self, id: u64, offset: u32) {
        if id > self.limit {
            self.far.insert(id, offset);
        } else if id as usize == self.near.len() {
            self.near.push(offset);
        } else {
            if id as usize > self.near.len() {
                self.near.resize(id as usize + 1, 0);
            }
            self.near[id as usize] = offset;
        }
    }

    /// The id isn't live from now on. False if it wasn't before.
    #[inline(always)]
    pub fn delete(&mut self, id: u64) -> bool {
        let offset = self.offset(id);
        if offset == 0 {
            return false;
        }
        if self.is_formulas(offset) {
            self.deleted.push(id as u32);
        } else {
            self.live -= 1 + filled(self.length(offset));
        }
        if id <= self.limit {
            self.near[id as usize] = 0;
        } else {
            self.far.remove(&id);
        }
        true
    }

    /// Makes the list anew without deleted clauses, where these are most of it.
    #[inline(always)]
    pub fn collect(&mut self) {
        if self.list.len() >= 2 * self.live + SLACK {
            self.collect_now();
        }
    }

    #[inline(never)]
    fn collect_now(&mut self) {
        let mut fresh = Vec::with_capacity(self.live * 2);
        fresh.extend_from_slice(&self.list[..self.formula_end]);
        let offsets = self.near.iter_mut().chain(self.far.values_mut());
        for offset in offsets.filter(|offset| **offset as usize >= self.formula_end) {
            let start = *offset as usize;
            let size = 1 + filled((self.list[start] >> 1) as usize);
            *offset = fresh.len() as u32;
            fresh.extend_from_slice(&self.list[start..start + size]);
        }
        self.list = fresh;
    }

    /// The formula's clauses, deleted ones included: id and offset.
    pub fn formulas(&self) -> impl Iterator<Item = (u64, u32)> + Clone {
        self.formula
            .iter()
            .enumerate()
            .skip(1)
            .map(|(id, &offset)| (id as u64, offset))
    }

    /// The live clauses that aren't the formula's: id and offset.
    pub fn own(&self) -> impl Iterator<Item = (u64, u32)> {
        let near = self
            .near
            .iter()
            .enumerate()
            .map(|(id, &offset)| (id as u64, offset));
        let far = self.far.iter().map(|(&id, &offset)| (id, offset));
        near.chain(far)
            .filter(|&(_, offset)| offset as usize >= self.formula_end)
    }
}

/// The numbers that so many literals take.
#[inline(always)]
fn filled(literals: usize) -> usize {
    literals.div_ceil(BLOCK) * BLOCK
}
