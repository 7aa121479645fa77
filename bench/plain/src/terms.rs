//! Terms, each made once and known by its number; parts have smaller numbers than what they stand in.
//!
//! All terms here are in normal form: the functions that make them give the normal form of what they are
//! called for. A variable's sort is part of its term, so a term tells its own sort.

use crate::hashing::{Map, Mixed};
use crate::linear::Linear;
use crate::normal::Definition;
use std::hash::Hasher;
use std::rc::Rc;

/// A term's number.
pub type Term = u32;
/// 0 is int, 1 is bool, and s + 2 a map whose range is s: the order of sorts is that of numbers.
pub type Sort = u16;
/// The sort of whole numbers.
pub const INT: Sort = 0;
/// The sort of truth values.
pub const BOOL: Sort = 1;
/// No term.
pub const NONE: Term = u32::MAX;
/// Not asked yet.
pub const UNKNOWN: Term = u32::MAX - 1;
/// The number of no definition: a tuple is kept as a call of it.
pub const TUPLE: u32 = u32::MAX;

/// A number left 128 bits.
pub struct Wide;
/// What fails where a number leaves 128 bits.
pub type Checked<T> = Result<T, Wide>;

/// The forms of terms, in the order of their ranks.
#[derive(Clone, Copy, PartialEq, Eq, PartialOrd, Ord)]
pub enum Form { Number, Truth, Free, Bound, Sum, Product, Read, Write, If, Call, Not, And, Or, Equal, AtMost, Forall, Exists }

/// A term. `a`, `b` and `c` are parts or numbers; a Number and a Sum have their numbers in `parts` from `a`
/// on, `b` parts and then the constant; a Call, And, Or and a quantifier have `b` entries of `lists` from
/// `a` on, and a Call its definition in `c`. A quantifier's entries are the number of its variables, their
/// sorts, its body, and for each trigger the number of its patterns and these.
#[derive(Clone, Copy)]
pub struct Cell {
    pub form: Form,
    pub quantified: bool,
    pub sort: Sort,
    pub a: u32,
    pub b: u32,
    pub c: u32,
    /// One more than the greatest Bound that no binder inside binds.
    pub loose: u32,
    pub size: u64,
    /// A bit for each atom inside, by its number's hash.
    pub mask: u64,
    /// The first Call, Read of a Write, and If outside quantifiers, in preorder.
    pub call: Term,
    pub access: Term,
    pub choice: Term,
}

/// What is found out of a term when it is first asked for, and counts over the facts of the branch.
#[derive(Clone, Copy)]
pub struct Memo {
    pub negation: Term,
    pub left: Term,
    pub back: Term,
    pub linear: u32,
    pub ways: u32,
    pub flags: u16,
    pub atoms: (u32, u32),
    pub applications: (u32, u32),
    pub seen: u32,
    pub walked: u32,
    pub walk: Term,
    /// How many facts are this term, have it as their negation, and have it as an atom.
    pub present: u32,
    pub denied: u32,
    pub facts_with: u32,
}

/// Nothing is asked yet.
const NEW: Memo = Memo {
    negation: UNKNOWN, left: UNKNOWN, back: UNKNOWN, linear: NONE, ways: NONE, flags: 0, atoms: (NONE, 0),
    applications: (NONE, 0), seen: 0, walked: 0, walk: 0, present: 0, denied: 0, facts_with: 0,
};

/// All terms, and the obligation's variables and definitions.
pub struct Terms {
    pub cells: Vec<Cell>,
    pub memos: Vec<Memo>,
    pub table: Vec<Term>,
    pub parts: Vec<(i128, Term)>,
    pub lists: Vec<u32>,
    /// Lists of atoms and of applications.
    pub found: Vec<Term>,
    pub linears: Vec<Linear>,
    pub ways: Vec<[Option<Term>; 3]>,
    pub bodies: Map<Term, Term>,
    pub variables: Vec<Sort>,
    pub definitions: Rc<[Definition]>,
    /// Whose walks `walk` keeps, and whose visits `seen`.
    pub walks: u32,
    pub visits: u32,
    pub truth: [Term; 2],
    pub zero: Term,
}

/// A term's bit in masks.
pub fn bit(t: Term) -> u64 {
    1 << (t.wrapping_mul(0x9E37_79B1) >> 26)
}

impl Terms {
    /// The terms false, true and 0 over these variables and definitions.
    pub fn new(variables: Vec<Sort>, definitions: Vec<Definition>) -> Terms {
        let mut terms = Terms {
            cells: Vec::new(), memos: Vec::new(), table: vec![NONE; 256], parts: Vec::new(), lists: Vec::new(), found: Vec::new(),
            linears: Vec::new(), ways: Vec::new(), bodies: Map::default(), variables, definitions: definitions.into(),
            walks: 0, visits: 0, truth: [0; 2], zero: 0,
        };
        terms.truth = [terms.fixed(Form::Truth, BOOL, 0, 0, 0), terms.fixed(Form::Truth, BOOL, 1, 0, 0)];
        terms.zero = terms.numeral(0);
        terms
    }

    /// Which form the term has.
    pub fn form(&self, t: Term) -> Form {
        self.cells[t as usize].form
    }

    /// The term's sort.
    pub fn sort(&self, t: Term) -> Sort {
        self.cells[t as usize].sort
    }

    /// What is kept of the term.
    pub fn memo(&mut self, t: Term) -> &mut Memo {
        &mut self.memos[t as usize]
    }

    /// The parts of a Number or a Sum, and its constant.
    pub fn parts_of(&self, t: Term) -> (&[(i128, Term)], i128) {
        let cell = &self.cells[t as usize];
        let (start, end) = (cell.a as usize, (cell.a + cell.b) as usize);
        (&self.parts[start..end], self.parts[end].0)
    }

    /// The entries of a Call, And, Or or quantifier.
    pub fn list_of(&self, t: Term) -> &[u32] {
        let cell = &self.cells[t as usize];
        &self.lists[cell.a as usize..(cell.a + cell.b) as usize]
    }

    /// The number that the term is.
    pub fn number(&self, t: Term) -> Option<i128> {
        (self.form(t) == Form::Number).then(|| self.parts_of(t).1)
    }

    /// The parts, of a quantifier the patterns and the body.
    pub fn each_part(&self, t: Term, mut f: impl FnMut(Term)) {
        let cell = &self.cells[t as usize];
        match cell.form {
            Form::Number | Form::Truth | Form::Free | Form::Bound => {}
            Form::Sum => self.parts_of(t).0.iter().for_each(|p| f(p.1)),
            Form::Not => f(cell.a),
            Form::Product | Form::Read | Form::Equal | Form::AtMost => [cell.a, cell.b].into_iter().for_each(f),
            Form::Write | Form::If => [cell.a, cell.b, cell.c].into_iter().for_each(f),
            Form::Call | Form::And | Form::Or => self.list_of(t).iter().for_each(|u| f(*u)),
            Form::Forall | Form::Exists => {
                let (_, body, triggers) = self.quantifier(t);
                triggers.iter().flat_map(|p| p.iter()).for_each(|u| f(*u));
                f(body);
            }
        }
    }

    /// The sorts, the body and the triggers.
    pub fn quantifier(&self, t: Term) -> (&[u32], Term, Vec<&[u32]>) {
        let list = self.list_of(t);
        let n = list[0] as usize;
        let (mut triggers, mut rest) = (Vec::new(), &list[n + 2..]);
        while let Some((len, more)) = rest.split_first() {
            let (patterns, others) = more.split_at(*len as usize);
            triggers.push(patterns);
            rest = others;
        }
        (&list[1..=n], list[n + 1], triggers)
    }

    /// The hash of a term of these parts.
    fn hashed(form: Form, sort: Sort, fixed: [u32; 3], list: &[u32], parts: &[(i128, Term)]) -> usize {
        let mut h = Mixed::default();
        h.write_u64((form as u64) << 48 | (sort as u64) << 32 | fixed[2] as u64);
        h.write_u64((fixed[0] as u64) << 32 | fixed[1] as u64);
        list.iter().for_each(|u| h.write_u32(*u));
        for (k, u) in parts {
            h.write_u64(*k as u64 ^ (*k >> 64) as u64);
            h.write_u32(*u);
        }
        h.finish() as usize
    }

    /// The term's hash.
    fn hash_of(&self, t: Term) -> usize {
        let cell = &self.cells[t as usize];
        match cell.form {
            Form::Number | Form::Sum => Terms::hashed(cell.form, cell.sort, [0; 3], &[], &self.parts[cell.a as usize..=(cell.a + cell.b) as usize]),
            Form::Call | Form::And | Form::Or | Form::Forall | Form::Exists => Terms::hashed(cell.form, cell.sort, [0, 0, cell.c], self.list_of(t), &[]),
            _ => Terms::hashed(cell.form, cell.sort, [cell.a, cell.b, cell.c], &[], &[]),
        }
    }

    /// Whether the term is made of these parts.
    fn is_made_of(&self, t: Term, form: Form, sort: Sort, fixed: [u32; 3], list: &[u32], parts: &[(i128, Term)]) -> bool {
        let cell = &self.cells[t as usize];
        cell.form == form && cell.sort == sort && match form {
            Form::Number | Form::Sum => self.parts[cell.a as usize..=(cell.a + cell.b) as usize] == *parts,
            Form::Call | Form::And | Form::Or | Form::Forall | Form::Exists => cell.c == fixed[2] && self.list_of(t) == list,
            _ => [cell.a, cell.b, cell.c] == fixed,
        }
    }

    /// The term of these parts: `parts` of a Number or a Sum, with the constant last, or `list` and the Call's
    /// definition, or `fixed`. It is made unless it is there.
    pub fn make(&mut self, form: Form, sort: Sort, fixed: [u32; 3], list: &[u32], parts: &[(i128, Term)]) -> Term {
        let mut at = Terms::hashed(form, sort, fixed, list, parts) & (self.table.len() - 1);
        while self.table[at] != NONE {
            if self.is_made_of(self.table[at], form, sort, fixed, list, parts) {
                return self.table[at];
            }
            at = (at + 1) & (self.table.len() - 1);
        }
        let t = self.cells.len() as Term;
        self.table[at] = t;
        let [a, b, c] = match form {
            Form::Number | Form::Sum => {
                self.parts.extend_from_slice(parts);
                [(self.parts.len() - parts.len()) as u32, parts.len() as u32 - 1, 0]
            }
            Form::Call | Form::And | Form::Or | Form::Forall | Form::Exists => {
                self.lists.extend_from_slice(list);
                [(self.lists.len() - list.len()) as u32, list.len() as u32, fixed[2]]
            }
            _ => fixed,
        };
        self.cells.push(Cell { form, quantified: false, sort, a, b, c, loose: 0, size: 1, mask: 0, call: NONE, access: NONE, choice: NONE });
        self.memos.push(NEW);
        self.describe(t);
        if 2 * self.cells.len() > self.table.len() {
            self.grow();
        }
        t
    }

    /// What the term's parts tell of it.
    fn describe(&mut self, t: Term) {
        let mut cell = self.cells[t as usize];
        let binder = matches!(cell.form, Form::Forall | Form::Exists);
        match cell.form {
            Form::Call => cell.call = t,
            Form::If => cell.choice = t,
            Form::Read if self.form(cell.a) == Form::Write => cell.access = t,
            _ => {}
        }
        self.each_part(t, |u| {
            let part = &self.cells[u as usize];
            cell.size = cell.size.saturating_add(part.size);
            cell.mask |= part.mask;
            cell.loose = cell.loose.max(part.loose);
            cell.quantified |= part.quantified;
            if !binder {
                if cell.call == NONE { cell.call = part.call; }
                if cell.access == NONE { cell.access = part.access; }
                if cell.choice == NONE { cell.choice = part.choice; }
            }
        });
        if cell.form == Form::Bound {
            cell.loose = cell.a + 1;
        }
        if binder {
            cell.quantified = true;
            cell.loose = cell.loose.saturating_sub(self.list_of(t)[0]);
        }
        if matches!(cell.form, Form::Free | Form::Product | Form::Read | Form::Write | Form::If | Form::Call) {
            cell.mask |= bit(t);
        }
        self.cells[t as usize] = cell;
    }

    /// The table gets twice as large.
    fn grow(&mut self) {
        let len = 2 * self.table.len();
        self.table = vec![NONE; len];
        for t in 0..self.cells.len() as Term {
            let mut at = self.hash_of(t) & (len - 1);
            while self.table[at] != NONE {
                at = (at + 1) & (len - 1);
            }
            self.table[at] = t;
        }
    }

    /// The term of a form with a fixed number of parts.
    pub fn fixed(&mut self, form: Form, sort: Sort, a: u32, b: u32, c: u32) -> Term {
        self.make(form, sort, [a, b, c], &[], &[])
    }

    /// The term of a form with entries.
    pub fn list(&mut self, form: Form, sort: Sort, list: &[u32]) -> Term {
        self.make(form, sort, [0; 3], list, &[])
    }

    /// The number as a term.
    pub fn numeral(&mut self, n: i128) -> Term {
        self.make(Form::Number, INT, [0; 3], &[], &[(n, 0)])
    }

    /// The truth value as a term.
    pub fn truth(&self, b: bool) -> Term {
        self.truth[b as usize]
    }
}
