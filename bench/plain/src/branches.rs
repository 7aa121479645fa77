//! The branches of a search, and how facts come to the branch on top and leave it.

use crate::facts::*;
use crate::hashing::Set;
use crate::proofs::Node;
use crate::replacing::Walk;
use crate::terms::*;

/// A fact of a branch: its term, its number in the proof, and what it is.
#[derive(Clone, Copy)]
pub struct Fact {
    pub term: Term,
    pub number: u32,
    pub flags: u16,
}

/// A branch of the search.
#[derive(Clone, Default)]
pub struct Branch {
    pub facts: Vec<Fact>,
    /// The calls that were unfolded, but for logical functions.
    pub calls: Vec<Term>,
    /// Which facts were taken for which tuples.
    pub marks: Set<(Term, Term)>,
    /// The next new variable, and the next fact's number.
    pub variables: u32,
    pub next: u32,
    /// Among so many linear facts, the first, no pair can be combined.
    pub combined: usize,
    /// The nodes with which its proof begins.
    pub begins: Vec<Node>,
}

/// A search under way.
pub struct Search {
    pub terms: Terms,
    /// The branch on top, and whether there is one.
    pub top: Branch,
    pub active: bool,
    /// Whether a fact may stand against another.
    pub closable: bool,
    /// How many facts on top have each flag.
    pub tally: [u32; 16],
    /// The other branches, the next last.
    pub stack: Vec<Branch>,
    /// The nodes found, and the multipliers that they name.
    pub proof: Vec<Node>,
    pub multipliers: Vec<(i128, i128)>,
}

impl Search {
    /// A search without branches.
    pub fn new(terms: Terms) -> Search {
        Search {
            terms, top: Branch::default(), active: false, closable: false, tally: [0; 16], stack: Vec::new(), proof: Vec::new(),
            multipliers: Vec::new(),
        }
    }

    /// So many more facts have these flags.
    fn count(&mut self, flags: u16, by: u32) {
        let mut left = flags;
        while left != 0 {
            let i = left.trailing_zeros() as usize;
            self.tally[i] = self.tally[i].wrapping_add(by);
            left &= left - 1;
        }
    }

    /// Whether a fact of the branch on top has the flag.
    pub fn has(&self, flag: u16) -> bool {
        self.tally[flag.trailing_zeros() as usize] != 0
    }

    /// A fact comes: counts of it, of its Not and of its atoms.
    fn enter(&mut self, t: Term) -> u16 {
        let flags = self.terms.flags(t);
        self.count(flags, 1);
        let negation = self.terms.negated(t).unwrap_or(NONE);
        let memo = self.terms.memo(t);
        memo.present += 1;
        self.closable |= memo.denied > 0 || t == self.terms.truth[0];
        if negation != NONE {
            let memo = self.terms.memo(negation);
            memo.denied += 1;
            self.closable |= memo.present > 0;
        }
        for at in self.terms.atoms(t) {
            let atom = self.terms.found[at];
            self.terms.memo(atom).facts_with += 1;
        }
        flags
    }

    /// A fact leaves: what `enter` counted.
    fn leave(&mut self, fact: Fact) {
        self.count(fact.flags, u32::MAX);
        if fact.flags & LINEAR != 0 {
            self.top.combined = 0;
        }
        self.terms.memo(fact.term).present -= 1;
        let negation = self.terms.memo(fact.term).negation;
        if negation != NONE {
            self.terms.memo(negation).denied -= 1;
        }
        for at in self.terms.atoms(fact.term) {
            let atom = self.terms.found[at];
            self.terms.memo(atom).facts_with -= 1;
        }
    }

    /// The branch takes the place of that on top.
    pub fn load(&mut self, mut branch: Branch) {
        for at in 0..self.top.facts.len() {
            self.leave(self.top.facts[at]);
        }
        self.closable = false;
        for fact in &mut branch.facts {
            fact.flags = self.enter(fact.term);
        }
        self.top = branch;
        self.active = true;
    }

    /// Whether the fact would tell nothing new.
    pub fn is_true_or_there(&self, t: Term) -> bool {
        t == self.terms.truth[1] || self.terms.memos[t as usize].present > 0
    }

    /// A new fact of this number, tightened: its term and its number.
    pub fn tightened(&mut self, number: u32, t: Term) -> (Term, u32) {
        let u = self.terms.tighten(t);
        if u == t {
            return (t, number);
        }
        self.top.begins.push(Node::Tighten(number));
        self.top.next += 1;
        (u, self.top.next - 1)
    }

    /// The fact is added unless it is true or there; the size that counts.
    pub fn add(&mut self, (term, number): (Term, u32)) -> u64 {
        if self.is_true_or_there(term) {
            return 0;
        }
        let flags = self.enter(term);
        self.top.facts.push(Fact { term, number, flags });
        self.terms.cells[term as usize].size
    }

    /// The fact that the next node appends is added.
    pub fn append(&mut self, t: Term) -> u64 {
        self.top.next += 1;
        let fact = self.tightened(self.top.next - 1, t);
        self.add(fact)
    }

    /// The fact at this place is taken away.
    pub fn remove(&mut self, at: usize) -> Fact {
        let fact = self.top.facts.remove(at);
        self.leave(fact);
        fact
    }

    /// The fact at this place is changed; whether it stays, and the size that counts.
    pub fn change(&mut self, at: usize, (term, number): (Term, u32)) -> (bool, u64) {
        self.leave(self.top.facts[at]);
        let stays = !self.is_true_or_there(term);
        if stays {
            let flags = self.enter(term);
            self.top.facts[at] = Fact { term, number, flags };
        } else {
            self.top.facts.remove(at);
        }
        (stays, self.terms.cells[term as usize].size)
    }

    /// In each fact that is picked `old` becomes `new`, by a node of its own.
    pub fn change_each(&mut self, old: Term, new: Term, picks: impl Fn(&mut Terms, &Fact) -> bool, node: impl Fn(u32) -> Node) -> Checked<u64> {
        let (mut at, mut size) = (0, 0u64);
        while at < self.top.facts.len() {
            let fact = self.top.facts[at];
            if self.terms.cells[fact.term as usize].mask & bit(old) == 0 || !picks(&mut self.terms, &fact) {
                at += 1;
                continue;
            }
            let t = self.terms.walk(fact.term, Walk::Replace { old, new })?;
            self.top.begins.push(node(fact.number));
            self.top.next += 1;
            let changed = self.tightened(self.top.next - 1, t);
            let (stays, more) = self.change(at, changed);
            size = size.saturating_add(more);
            at += stays as usize;
        }
        Ok(size)
    }

    /// The first fact with this flag, and its place.
    pub fn first(&self, flag: u16) -> Option<(usize, Fact)> {
        if !self.has(flag) {
            return None;
        }
        self.top.facts.iter().position(|f| f.flags & flag != 0).map(|at| (at, self.top.facts[at]))
    }
}
