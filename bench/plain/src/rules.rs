//! The rules in their order, and those of them that leave one branch.

use crate::branches::{Fact, Search};
use crate::facts::*;
use crate::hashing::Set;
use crate::proofs::Node;
use crate::replacing::Walk;
use crate::terms::*;

impl Search {
    /// The first rule that applies; the size that counts, or None where none does.
    fn step(&mut self) -> Checked<Option<u64>> {
        if self.close() {
            return Ok(Some(0));
        }
        if let Some(size) = self.flatten() {
            return Ok(Some(size));
        }
        let rules = [Search::skolem, Search::rewrite, Search::back, Search::unfold, Search::combine, Search::trichotomy, Search::split,
            Search::condition, Search::past, Search::differ, Search::instantiate];
        for rule in rules {
            if let Some(size) = rule(self)? {
                return Ok(Some(size));
            }
        }
        Ok(None)
    }

    /// The verdict, and the turns used: a step takes one, and one more for each 64 of the size of what it makes.
    pub fn run(&mut self, turns: u64) -> (&'static str, u64) {
        let mut left = turns;
        loop {
            if !self.active {
                match self.stack.pop() {
                    None => return ("proved", turns - left),
                    Some(branch) => self.load(branch),
                }
            }
            match self.step() {
                Err(Wide) => return ("wide", turns - left),
                Ok(None) => return ("open", turns - left),
                Ok(Some(size)) if 1 + size / 64 > left => return ("turns", turns - left),
                Ok(Some(size)) => left -= 1 + size / 64,
            }
            self.proof.append(&mut self.top.begins);
        }
    }

    /// A branch ends where a fact and its negation are there, or false.
    fn close(&mut self) -> bool {
        if !self.closable {
            return false;
        }
        let no = |s: &Search, t: Term| s.terms.memos[t as usize].negation;
        for later in 0..self.top.facts.len() {
            let g = self.top.facts[later];
            let opposed = |f: &&Fact| no(self, f.term) == g.term || no(self, g.term) == f.term;
            let earlier = self.top.facts[..later].iter().find(opposed).copied();
            if let Some(f) = earlier.or((g.term == self.terms.truth[0]).then_some(g)) {
                let (x, y) = if f.number <= g.number { (f, g) } else { (g, f) };
                let in_order = x.number == y.number || no(self, x.term) == y.term;
                self.top.begins.push(if in_order { Node::Close(x.number, y.number) } else { Node::Close(y.number, x.number) });
                self.active = false;
                return true;
            }
        }
        self.closable = false;
        false
    }

    /// A conjunction's parts become facts.
    fn flatten(&mut self) -> Option<u64> {
        let (at, fact) = self.first(AND)?;
        self.remove(at);
        self.top.begins.push(Node::Split(fact.number, 0));
        let parts = self.terms.list_of(fact.term).to_vec();
        let number = self.top.next;
        self.top.next += parts.len() as u32;
        let facts: Vec<(Term, u32)> = parts.iter().zip(number..).map(|(t, n)| self.tightened(n, *t)).collect();
        Some(facts.into_iter().fold(0, |size, fact| self.add(fact).saturating_add(size)))
    }

    /// New variables stand for those that exist.
    fn skolem(&mut self) -> Checked<Option<u64>> {
        let Some((at, fact)) = self.first(EXISTS) else { return Ok(None) };
        self.remove(at);
        let (sorts, body, _) = self.terms.quantifier(fact.term);
        let sorts = sorts.to_vec();
        let mut terms: Vec<Term> = sorts.iter().zip(self.top.variables..).map(|(s, v)| self.terms.fixed(Form::Free, *s as Sort, v, 0, 0)).collect();
        self.top.variables += sorts.len() as u32;
        terms.reverse();
        let t = self.terms.walk(body, Walk::Put { depth: 0, terms: &terms })?;
        self.top.begins.push(Node::Skolem(fact.number));
        Ok(Some(self.append(t)))
    }

    /// An oriented equation's left side is replaced in all other facts.
    fn rewrite(&mut self) -> Checked<Option<u64>> {
        if !self.has(ORIENTED) {
            return Ok(None);
        }
        let memos = &self.terms.memos;
        let found = self.top.facts.iter().find(|f| f.flags & ORIENTED != 0 && memos[memos[f.term as usize].left as usize].facts_with > 1);
        let Some(&by) = found else { return Ok(None) };
        let old = self.terms.left(by.term);
        let new = self.terms.says(by.term, old)?;
        self.terms.walks += 1;
        let occurs = |terms: &mut Terms, f: &Fact| f.number != by.number && { let r = terms.atoms(f.term); terms.found[r].contains(&old) };
        let size = self.change_each(old, new, occurs, |n| Node::Replace(n, by.number, old))?;
        for at in 0..self.top.calls.len() {
            self.top.calls[at] = self.terms.walk(self.top.calls[at], Walk::Replace { old, new })?;
        }
        let mut marks = Set::default();
        for (fact, tuple) in std::mem::take(&mut self.top.marks) {
            marks.insert((self.terms.walk(fact, Walk::Replace { old, new })?, self.terms.walk(tuple, Walk::Replace { old, new })?));
        }
        self.top.marks = marks;
        Ok(Some(size))
    }

    /// A read of a write at a constant distance becomes what it reads.
    fn back(&mut self) -> Checked<Option<u64>> {
        if !self.has(ACCESS) {
            return Ok(None);
        }
        for at in 0..self.top.facts.len() {
            if self.top.facts[at].flags & ACCESS == 0 {
                continue;
            }
            let old = self.terms.back(self.top.facts[at].term)?;
            if old != NONE {
                let new = self.terms.read_back(old)?.ok_or(Wide)?;
                let stands = |terms: &mut Terms, f: &Fact| { let r = terms.applications(f.term); terms.found[r].contains(&old) };
                self.terms.walks += 1;
                return self.change_each(old, new, stands, |n| Node::Back(n, old)).map(Some);
            }
        }
        Ok(None)
    }

    /// A call becomes its definition's body.
    fn unfold(&mut self) -> Checked<Option<u64>> {
        let Some((at, fact)) = self.first(CALL) else { return Ok(None) };
        let call = self.terms.cells[fact.term as usize].call;
        let body = self.terms.body_of(call)?;
        let t = self.terms.replaced(fact.term, call, body)?;
        if !self.terms.definitions[self.terms.cells[call as usize].c as usize].logical {
            self.top.calls.push(call);
        }
        self.top.begins.push(Node::Unfold(fact.number, call));
        self.top.next += 1;
        let changed = self.tightened(self.top.next - 1, t);
        Ok(Some(self.change(at, changed).1))
    }

    /// Maps that differ do so at a new index.
    fn differ(&mut self) -> Checked<Option<u64>> {
        let Some((at, fact)) = self.first(DIFFER) else { return Ok(None) };
        let eq = self.terms.cells[self.terms.cells[fact.term as usize].a as usize];
        let w = self.terms.fixed(Form::Free, INT, self.top.variables, 0, 0);
        self.top.variables += 1;
        let (x, y) = (self.terms.read(eq.a, w), self.terms.read(eq.b, w));
        let equal = self.terms.equation(x, y)?;
        let t = self.terms.negated(equal)?;
        self.top.begins.push(Node::Differ(fact.number));
        self.top.next += 1;
        let changed = self.tightened(self.top.next - 1, t);
        Ok(Some(self.change(at, changed).1))
    }
}
