//! The rules of linear arithmetic.

use crate::branches::{Fact, Search};
use crate::facts::*;
use crate::hashing::Map;
use crate::linear::{greatest_divisor, Sum};
use crate::proofs::Node;
use crate::terms::*;

/// A linear fact, perhaps with its sum's signs turned; the place is its own among the linear facts.
#[derive(Clone, Copy)]
struct Entry {
    number: u32,
    linear: u32,
    turned: bool,
    place: usize,
}

impl Search {
    /// The linear facts in their order, an equation also with its sum's signs turned; and how many they are.
    fn linear_entries(&mut self) -> (Vec<Entry>, usize) {
        let mut entries: Vec<Entry> = Vec::new();
        let mut place = 0;
        for at in 0..self.top.facts.len() {
            let fact = self.top.facts[at];
            if fact.flags & LINEAR != 0 {
                let entry = Entry { number: fact.number, linear: self.terms.linear(fact.term), turned: false, place };
                entries.push(entry);
                if self.terms.form(fact.term) == Form::Equal {
                    entries.push(Entry { turned: true, ..entry });
                }
                place += 1;
            }
        }
        (entries, place)
    }

    /// The least constant of each sum of parts.
    fn least_constants(&self, entries: &[Entry]) -> Map<Term, i128> {
        let mut known: Map<Term, i128> = Map::default();
        for e in entries {
            let l = self.terms.linears[e.linear as usize];
            let (base, rest) = if e.turned { (l.opposite, l.rest.checked_neg()) } else { (l.base, Some(l.rest)) };
            if let (true, Some(rest)) = (base != NONE, rest) {
                let least = known.entry(base).or_insert(rest);
                *least = rest.min(*least);
            }
        }
        known
    }

    /// The multipliers with which the first atoms of two linear facts with opposite signs cancel, and the fact of their sum.
    fn pair(&mut self, d: Entry, e: Entry) -> Checked<Option<(i128, i128, Term)>> {
        let (k, l) = (self.terms.linears[d.linear as usize], self.terms.linears[e.linear as usize]);
        if k.lead != l.lead || ((k.coefficient < 0) != d.turned) == ((l.coefficient < 0) != e.turned) {
            return Ok(None);
        }
        let (a, b) = (k.coefficient.unsigned_abs(), l.coefficient.unsigned_abs());
        let g = greatest_divisor(a, b);
        let times = |n: u128, turned: bool| i128::try_from(n).map(|n| if turned { -n } else { n }).map_err(|_| Wide);
        let (p, q) = (times(b / g, d.turned)?, times(a / g, e.turned)?);
        let mut s = Sum { parts: Vec::new(), rest: 0 };
        self.terms.add(&mut s, p, k.sum)?;
        self.terms.add(&mut s, q, l.sum)?;
        let sum = self.terms.sum(s);
        Ok(Some((p, q, self.terms.zero_at_most(sum))))
    }

    /// Two linear facts are added so that an atom cancels, where what comes of it isn't known yet.
    pub fn combine(&mut self) -> Checked<Option<u64>> {
        let (entries, count) = self.linear_entries();
        let mut known: Map<Term, i128> = Map::default();
        for (later, &e) in entries.iter().enumerate().filter(|(_, e)| e.place >= self.top.combined).collect::<Vec<_>>() {
            for &d in &entries[..later] {
                let Some((p, q, fact)) = self.pair(d, e)? else { continue };
                if fact == self.terms.truth[1] {
                    continue;
                }
                let tight = self.terms.tighten(fact);
                if tight != self.terms.truth[0] {
                    if known.is_empty() {
                        known = self.least_constants(&entries);
                    }
                    let linear = self.terms.linear(tight);
                    let wanted = self.terms.linears[linear as usize];
                    if known.get(&wanted.base).is_some_and(|rest| *rest <= wanted.rest) {
                        continue;
                    }
                }
                self.top.combined = e.place;
                self.multipliers.push((p, q));
                self.top.begins.push(Node::Combine(d.number, e.number, self.multipliers.len() as u32 - 1));
                return Ok(Some(self.append(fact)));
            }
        }
        self.top.combined = count;
        Ok(None)
    }

    /// The sum that a fact leaves undecided: that of a disequation, or of an inequality whose opposite is a fact too.
    fn undecided(&mut self, fact: Fact) -> Checked<Option<Term>> {
        let cell = self.terms.cells[fact.term as usize];
        if cell.form == Form::Not {
            return Ok(Some(self.terms.cells[cell.a as usize].a));
        }
        let linear = self.terms.linear(fact.term);
        let l = self.terms.linears[linear as usize];
        let opposite = match l.rest.checked_neg() {
            Some(rest) if l.opposite != NONE => self.terms.affine(1, l.opposite, rest)?,
            _ => return Ok(None),
        };
        let at_most = self.terms.fixed(Form::AtMost, BOOL, self.terms.zero, opposite, 0);
        Ok((self.terms.memo(at_most).present > 0).then_some(cell.b))
    }

    /// A sum of which it isn't known whether it is below, at or above zero is decided: a branch for each.
    pub fn trichotomy(&mut self) -> Checked<Option<u64>> {
        if !self.has(UNDECIDED) {
            return Ok(None);
        }
        for at in 0..self.top.facts.len() {
            let fact = self.top.facts[at];
            if fact.flags & UNDECIDED == 0 {
                continue;
            }
            let Some(d) = self.undecided(fact)? else { continue };
            let not = self.terms.form(fact.term) == Form::Not;
            let ways = self.terms.ways(d);
            let mut known = false;
            for t in ways.into_iter().flatten() {
                let u = self.terms.tighten(t);
                known |= self.terms.memo(u).present > 0;
            }
            if !known {
                let [Some(below), Some(zero), Some(above)] = ways else { return Err(Wide) };
                return Ok(Some(self.fork(Node::Decide(d), at, &[(below, not), (zero, false), (above, not)])));
            }
        }
        Ok(None)
    }
}
