// The functions that `clause` is compared with, as logicrs 0.6.1 has them (MIT licence), with what of its types they use.
use std::ops::{Deref, Not};

#[derive(Clone, Copy, PartialEq, Eq, PartialOrd, Ord)]
pub struct Var(pub u32);

#[derive(Clone, Copy, PartialEq, Eq, PartialOrd, Ord)]
pub struct Lit(pub u32);

impl Lit {
    #[inline]
    pub fn var(&self) -> Var {
        Var(self.0 >> 1)
    }

    #[inline]
    pub fn polarity(&self) -> bool {
        self.0 & 1 == 0
    }
}

impl Not for Lit {
    type Output = Self;

    #[inline]
    fn not(mut self) -> Self::Output {
        self.0 ^= 1;
        self
    }
}

#[derive(Clone, Copy, PartialEq, Eq)]
pub struct Lbool(pub u8);

impl Lbool {
    #[inline]
    pub fn is_true(self) -> bool {
        self == Lbool(1)
    }

    #[inline]
    pub fn is_false(self) -> bool {
        self == Lbool(0)
    }
}

pub struct VarAssign {
    pub map: Vec<Lbool>,
}

impl VarAssign {
    #[inline]
    pub fn v(&self, lit: Lit) -> Lbool {
        Lbool(unsafe { self.map.get_unchecked((lit.0 >> 1) as usize) }.0 ^ (!lit.polarity() as u8))
    }
}

#[derive(Clone)]
pub struct LitVec {
    pub lits: Vec<Lit>,
}

impl Deref for LitVec {
    type Target = Vec<Lit>;

    #[inline]
    fn deref(&self) -> &Self::Target {
        &self.lits
    }
}

impl LitVec {
    #[inline]
    pub fn new_with_cap(c: usize) -> Self {
        LitVec {
            lits: Vec::with_capacity(c),
        }
    }

    #[inline]
    pub fn ordered_simp(&self, v: &VarAssign) -> Option<Self> {
        let mut res = LitVec::new_with_cap(self.len());
        for i in 0..self.len() {
            let lv = v.v(self[i]);
            if lv.is_true() {
                return None;
            } else if lv.is_false() {
                continue;
            }
            if let Some(&last) = (*res).last() {
                if self[i] == last {
                    continue;
                } else if self[i] == !last {
                    return None;
                }
            }
            res.lits.push(self[i]);
        }
        Some(res)
    }

    #[inline]
    pub fn ordered_subsume(&self, cube: &LitVec) -> bool {
        if self.len() > cube.len() {
            return false;
        }
        let mut j = 0;
        for i in 0..self.len() {
            while j < cube.len() && self[i].0 > cube[j].0 {
                j += 1;
            }
            if j == cube.len() || self[i] != cube[j] {
                return false;
            }
        }
        true
    }

    #[inline]
    pub fn ordered_subsume_execpt_one(&self, cube: &LitVec) -> (bool, Option<Lit>) {
        let mut diff = None;
        if self.len() > cube.len() {
            return (false, None);
        }
        let mut j = 0;
        for i in 0..self.len() {
            while j < cube.len() && self[i].var() > cube[j].var() {
                j += 1;
            }
            if j == cube.len() {
                return (false, None);
            }
            if self[i] != cube[j] {
                if diff.is_none() && self[i].var() == cube[j].var() {
                    diff = Some(self[i]);
                } else {
                    return (false, None);
                }
            }
        }
        (diff.is_none(), diff)
    }

    #[inline]
    pub fn ordered_resolvent(&self, other: &LitVec, v: Var) -> Option<LitVec> {
        let (x, y) = if self.len() < other.len() {
            (self, other)
        } else {
            (other, self)
        };
        let mut new = LitVec::new_with_cap(self.len() + other.len());
        let (mut i, mut j) = (0, 0);
        while i < x.len() {
            if x[i].var() == v {
                i += 1;
                continue;
            }
            while j < y.len() && y[j].var() < x[i].var() {
                j += 1;
            }
            if j < y.len() && x[i].var() == y[j].var() {
                if x[i] == !y[j] {
                    return None;
                }
            } else {
                new.lits.push(x[i]);
            }
            i += 1;
        }
        new.lits.extend(y.iter().filter(|l| l.var() != v).copied());
        Some(new)
    }

    // `retain`, as the list of resolvents loses a literal.
    #[inline]
    pub fn drop_literal(&mut self, literal: Lit) {
        self.lits.retain(|l| *l != literal);
    }

    // The loop of `LitOrdVec::new` over the literals.
    #[inline]
    pub fn sign(&self) -> u128 {
        let mut sign = 0;
        for l in self.iter() {
            sign |= 1 << (l.0 % u128::BITS);
        }
        sign
    }
}

#[inline]
pub fn may_subsume(a: u128, b: u128) -> bool {
    a & b == a
}

#[inline]
fn var_sign(sign: u128) -> u128 {
    ((sign >> 1) | sign) & 113427455640312821154458202477256070485_u128
}

#[inline]
pub fn may_fit(a: u128, b: u128) -> bool {
    let ss = var_sign(a);
    ss & var_sign(b) == ss
}

// A clause with its signature.
#[derive(Clone)]
pub struct LitOrdVec {
    pub cube: LitVec,
    sign: u128,
}

impl Default for LitOrdVec {
    fn default() -> Self {
        LitOrdVec {
            cube: LitVec { lits: Vec::new() },
            sign: 0,
        }
    }
}

impl LitOrdVec {
    #[inline]
    pub fn new(cube: LitVec) -> Self {
        let sign = cube.sign();
        LitOrdVec { cube, sign }
    }

    #[inline]
    pub fn subsume_execpt_one(&self, other: &LitOrdVec) -> (bool, Option<Lit>) {
        if self.cube.len() > other.cube.len() {
            return (false, None);
        }
        let ss = var_sign(self.sign);
        if ss & var_sign(other.sign) != ss {
            return (false, None);
        }
        self.cube.ordered_subsume_execpt_one(&other.cube)
    }
}

pub fn lemmas_subsume_simplify(mut lemmas: Vec<LitOrdVec>) -> Vec<LitOrdVec> {
    lemmas.sort_by_key(|l| l.cube.len());
    let mut i = 0;
    while i < lemmas.len() {
        if lemmas[i].cube.is_empty() {
            i += 1;
            continue;
        }
        let mut update = false;
        for j in i + 1..lemmas.len() {
            if lemmas[j].cube.is_empty() {
                continue;
            }
            let (res, diff) = lemmas[i].subsume_execpt_one(&lemmas[j]);
            if res {
                lemmas[j] = Default::default();
                continue;
            } else if let Some(diff) = diff {
                if lemmas[i].cube.len() == lemmas[j].cube.len() {
                    update = true;
                    let mut cube = lemmas[i].cube.clone();
                    cube.drop_literal(diff);
                    lemmas[i] = LitOrdVec::new(cube);
                    lemmas[j] = Default::default();
                } else {
                    let mut cube = lemmas[j].cube.clone();
                    cube.drop_literal(!diff);
                    lemmas[j] = LitOrdVec::new(cube);
                }
            }
        }
        if !update {
            i += 1;
        }
    }
    lemmas.retain(|l| !l.cube.is_empty());
    lemmas
}
