//! Terms with a term replaced by another, or with terms in place of a binder's variables.

use crate::linear::Sum;
use crate::terms::*;

/// What is done to each part of a term.
#[derive(Clone, Copy)]
pub enum Walk<'a> {
    /// `old` becomes `new`, wherever it stands.
    Replace { old: Term, new: Term },
    /// The variables of a binder that is taken away, numbered from `depth` on here, become the terms.
    Put { depth: u32, terms: &'a [Term] },
}

impl Terms {
    /// The term with each `old` replaced, or with terms for the variables of a binder that is taken away.
    pub fn walk(&mut self, t: Term, w: Walk) -> Checked<Term> {
        let cell = self.cells[t as usize];
        match w {
            Walk::Replace { old, new } => {
                if t == old {
                    return Ok(new);
                }
                if t < old || cell.mask & bit(old) == 0 {
                    return Ok(t);
                }
                if self.memos[t as usize].walked == self.walks {
                    return Ok(self.memos[t as usize].walk);
                }
                let u = self.rebuilt(t, cell, w)?;
                let walks = self.walks;
                let memo = self.memo(t);
                (memo.walked, memo.walk) = (walks, u);
                Ok(u)
            }
            Walk::Put { depth, terms } => {
                if cell.loose <= depth {
                    return Ok(t);
                }
                if cell.form == Form::Bound {
                    let v = cell.a - depth;
                    return Ok(match terms.get(v as usize) {
                        Some(u) => *u,
                        None => self.fixed(Form::Bound, cell.sort, cell.a - terms.len() as u32, 0, 0),
                    });
                }
                self.rebuilt(t, cell, w)
            }
        }
    }

    /// The normal form of the term after each of its parts is walked.
    fn rebuilt(&mut self, t: Term, cell: Cell, w: Walk) -> Checked<Term> {
        match cell.form {
            Form::Number | Form::Truth | Form::Free | Form::Bound => Ok(t),
            Form::Sum => self.rebuilt_sum(cell, w),
            Form::Call | Form::And | Form::Or => self.rebuilt_list(t, cell, w),
            Form::Forall | Form::Exists => self.rebuilt_quantifier(t, cell, w),
            Form::Not => self.rebuilt_parts(t, cell, 1, w),
            Form::Write | Form::If => self.rebuilt_parts(t, cell, 3, w),
            Form::Product | Form::Read | Form::Equal | Form::AtMost => self.rebuilt_parts(t, cell, 2, w),
        }
    }

    fn rebuilt_sum(&mut self, cell: Cell, w: Walk) -> Checked<Term> {
        let (start, end) = (cell.a as usize, (cell.a + cell.b) as usize);
        let mut s = Sum { parts: Vec::with_capacity(end - start + 1), rest: self.parts[end].0 };
        for at in start..end {
            let (k, atom) = self.parts[at];
            let u = self.walk(atom, w)?;
            self.add(&mut s, k, u)?;
        }
        Ok(self.sum(s))
    }

    fn rebuilt_list(&mut self, t: Term, cell: Cell, w: Walk) -> Checked<Term> {
        let mut us = self.list_of(t).to_vec();
        let mut same = true;
        for u in &mut us {
            let v = self.walk(*u, w)?;
            same &= *u == v;
            *u = v;
        }
        Ok(match cell.form {
            _ if same => t,
            Form::Call => self.call(cell.c, &us),
            form => self.junction(form, &us),
        })
    }

    fn rebuilt_quantifier(&mut self, t: Term, cell: Cell, w: Walk) -> Checked<Term> {
        let mut list = self.list_of(t).to_vec();
        let n = list[0] as usize;
        let inner = match w {
            Walk::Put { depth, terms } => Walk::Put { depth: depth + n as u32, terms },
            w => w,
        };
        let mut at = n + 2;
        while at < list.len() {
            for i in at + 1..=at + list[at] as usize {
                list[i] = self.walk(list[i], inner)?;
            }
            at += list[at] as usize + 1;
        }
        list[n + 1] = self.walk(list[n + 1], inner)?;
        Ok(self.quantified(cell.form, &list))
    }

    fn rebuilt_parts(&mut self, t: Term, cell: Cell, count: usize, w: Walk) -> Checked<Term> {
        let old = [cell.a, cell.b, cell.c];
        let mut new = old;
        for u in &mut new[..count] {
            *u = self.walk(*u, w)?;
        }
        if new == old { Ok(t) } else { self.joined(cell.form, &new[..count]) }
    }

    /// The term with each `old` replaced.
    pub fn replaced(&mut self, t: Term, old: Term, new: Term) -> Checked<Term> {
        self.walks += 1;
        self.walk(t, Walk::Replace { old, new })
    }
}
