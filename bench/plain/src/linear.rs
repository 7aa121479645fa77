//! Sums with whole coefficients, and what linear arithmetic asks of them.

use crate::terms::*;

/// A sum under way: parts with falling atoms, and a constant.
pub struct Sum {
    pub parts: Vec<(i128, Term)>,
    pub rest: i128,
}

/// What combine needs of a fact AtMost(0, d) or Equal(d, 0).
#[derive(Clone, Copy)]
pub struct Linear {
    pub sum: Term,
    /// The first atom and its coefficient.
    pub lead: Term,
    pub coefficient: i128,
    /// d without its constant, and -d without it.
    pub base: Term,
    pub opposite: Term,
    pub rest: i128,
}

/// The greatest common divisor.
pub fn greatest_divisor(mut a: u128, mut b: u128) -> u128 {
    while b != 0 {
        (a, b) = (b, a % b);
    }
    a
}

/// Divided by g and rounded down.
fn floored(n: i128, g: u128) -> i128 {
    if n >= 0 { (n as u128 / g) as i128 } else { !((!n as u128 / g) as i128) }
}

impl Terms {
    /// k times the atom joins the sum.
    fn add_atom(&self, s: &mut Sum, k: i128, t: Term) -> Checked<()> {
        // most atoms come in falling order
        let at = match s.parts.last() {
            Some((_, u)) if self.order(t, *u).is_ge() => s.parts.partition_point(|(_, u)| self.order(*u, t).is_gt()),
            _ => s.parts.len(),
        };
        if at < s.parts.len() && s.parts[at].1 == t {
            let n = s.parts[at].0.checked_add(k).ok_or(Wide)?;
            if n == 0 { s.parts.remove(at); } else { s.parts[at].0 = n; }
        } else if k != 0 {
            s.parts.insert(at, (k, t));
        }
        Ok(())
    }

    /// k times the term joins the sum.
    pub fn add(&self, s: &mut Sum, k: i128, t: Term) -> Checked<()> {
        match self.form(t) {
            Form::Number | Form::Sum => {
                let (parts, c) = self.parts_of(t);
                for (j, u) in parts {
                    self.add_atom(s, k.checked_mul(*j).ok_or(Wide)?, *u)?;
                }
                s.rest = k.checked_mul(c).and_then(|m| s.rest.checked_add(m)).ok_or(Wide)?;
                Ok(())
            }
            _ => self.add_atom(s, k, t),
        }
    }

    /// The sum as a term.
    pub fn sum(&mut self, mut s: Sum) -> Term {
        match s.parts[..] {
            [] => self.numeral(s.rest),
            [(1, t)] if s.rest == 0 => t,
            _ => {
                s.parts.push((s.rest, 0));
                self.make(Form::Sum, INT, [0; 3], &[], &s.parts)
            }
        }
    }

    /// A term of Int as a sum.
    pub fn as_sum(&self, t: Term) -> Sum {
        match self.form(t) {
            Form::Number | Form::Sum => Sum { parts: self.parts_of(t).0.to_vec(), rest: self.parts_of(t).1 },
            _ => Sum { parts: vec![(1, t)], rest: 0 },
        }
    }

    /// k * d + c
    pub fn affine(&mut self, k: i128, d: Term, c: i128) -> Checked<Term> {
        let mut s = Sum { parts: Vec::new(), rest: c };
        self.add(&mut s, k, d)?;
        Ok(self.sum(s))
    }

    /// a - b
    pub fn difference(&mut self, a: Term, b: Term) -> Checked<Term> {
        let mut s = Sum { parts: Vec::new(), rest: 0 };
        self.add(&mut s, 1, a)?;
        self.add(&mut s, -1, b)?;
        Ok(self.sum(s))
    }

    /// a * b
    pub fn product(&mut self, a: Term, b: Term) -> Checked<Term> {
        match (self.number(a), self.number(b)) {
            (Some(n), _) => self.affine(n, b, 0),
            (_, Some(n)) => self.affine(n, a, 0),
            _ => {
                let (a, b) = self.in_order(a, b);
                Ok(self.fixed(Form::Product, INT, a, b, 0))
            }
        }
    }

    /// The fact divided by its coefficients' greatest common divisor; an inequality's constant is rounded down.
    pub fn tighten(&mut self, t: Term) -> Term {
        let cell = self.cells[t as usize];
        match cell.form {
            Form::AtMost => {
                let d = self.divided(cell.b, true).unwrap_or(cell.b);
                if d == cell.b { t } else { self.fixed(Form::AtMost, BOOL, self.zero, d, 0) }
            }
            Form::Equal if cell.b == self.zero => match self.divided(cell.a, false) {
                None => self.truth(false),
                Some(d) if d == cell.a => t,
                Some(d) => self.fixed(Form::Equal, BOOL, d, self.zero, 0),
            },
            Form::Not if self.form(cell.a) == Form::Equal => match self.tighten(cell.a) {
                u if u == cell.a => t,
                u if u == self.truth(false) => self.truth(true),
                u => self.fixed(Form::Not, BOOL, u, 0, 0),
            },
            _ => t,
        }
    }

    /// The sum divided by its coefficients' greatest common divisor; None where that leaves a rest and no rounding is asked for.
    fn divided(&mut self, d: Term, rounding: bool) -> Option<Term> {
        if self.form(d) != Form::Sum {
            return Some(d);
        }
        let mut s = self.as_sum(d);
        let g = s.parts.iter().fold(0, |g, (k, _)| greatest_divisor(k.unsigned_abs(), g));
        if g <= 1 {
            return Some(d);
        }
        if !rounding && s.rest.unsigned_abs() % g != 0 {
            return None;
        }
        s.parts.iter_mut().for_each(|(k, _)| *k = floored(*k, g));
        s.rest = floored(s.rest, g);
        Some(self.sum(s))
    }

    /// What combine needs of the fact, as a place in `linears`.
    pub fn linear(&mut self, t: Term) -> u32 {
        if self.memo(t).linear == NONE {
            let cell = self.cells[t as usize];
            let sum = if cell.form == Form::AtMost { cell.b } else { cell.a };
            let s = self.as_sum(sum);
            let (coefficient, lead) = s.parts[0];
            let rest = s.rest;
            let turned: Option<Vec<(i128, Term)>> = s.parts.iter().map(|(k, u)| Some((k.checked_neg()?, *u))).collect();
            let base = self.sum(Sum { parts: s.parts, rest: 0 });
            let opposite = turned.map_or(NONE, |parts| self.sum(Sum { parts, rest: 0 }));
            self.linears.push(Linear { sum, lead, coefficient, base, opposite, rest });
            self.memo(t).linear = self.linears.len() as u32 - 1;
        }
        self.memo(t).linear
    }

    /// Where d is below, at and above zero.
    pub fn ways(&mut self, d: Term) -> [Option<Term>; 3] {
        if self.memo(d).ways == NONE {
            let below = self.affine(-1, d, -1).map(|e| self.zero_at_most(e)).ok();
            let at = self.equals_zero(d).ok();
            let above = self.affine(1, d, -1).map(|e| self.zero_at_most(e)).ok();
            self.ways.push([below, at, above]);
            self.memo(d).ways = self.ways.len() as u32 - 1;
        }
        self.ways[self.memos[d as usize].ways as usize]
    }
}
