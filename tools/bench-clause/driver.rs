// Runs one operation, of the source or of `clause`, over the same pairs of clauses of 3 to 10 literals:
// driver OPERATION SIDE, with SIDE `source` or `rattle`. It writes a sum of the answers, which both sides have alike. callgrind counts what
// stands below the function SIDE_OPERATION.
mod source;
use source::*;
use std::hint::black_box;

unsafe extern "C" {
    fn rattle_simp(
        c: *const u32,
        n: usize,
        v: *const u8,
        m: usize,
        out: *mut u32,
        k: usize,
    ) -> usize;
    fn rattle_resolvent(
        a: *const u32,
        n: usize,
        b: *const u32,
        m: usize,
        pivot: u32,
        out: *mut u32,
        k: usize,
    ) -> usize;
    fn rattle_subsume(a: *const u32, n: usize, b: *const u32, m: usize) -> bool;
    fn rattle_except_one(a: *const u32, n: usize, b: *const u32, m: usize) -> u64;
    fn rattle_drop(c: *mut u32, n: usize, literal: u32) -> usize;
    fn rattle_signature(c: *const u32, n: usize, low: *mut u64, high: *mut u64);
    fn rattle_may_subsume(a_low: u64, a_high: u64, b_low: u64, b_high: u64) -> bool;
    fn rattle_lemmas(
        lengths: *mut u32,
        n: usize,
        literals: *mut u32,
        m: usize,
        order: *mut u32,
        o: usize,
        entries: *mut u32,
        e: usize,
        places: *mut u32,
        p: usize,
        count: u32,
    ) -> usize;
    fn rattle_may_fit(a_low: u64, a_high: u64, b_low: u64, b_high: u64) -> bool;
}

#[inline(never)]
#[unsafe(no_mangle)]
fn source_simp(c: &LitVec, v: &VarAssign) -> Option<LitVec> {
    c.ordered_simp(v)
}

#[inline(never)]
#[unsafe(no_mangle)]
fn source_resolvent(a: &LitVec, b: &LitVec, v: Var) -> Option<LitVec> {
    a.ordered_resolvent(b, v)
}

#[inline(never)]
#[unsafe(no_mangle)]
fn source_subsume(a: &LitVec, b: &LitVec) -> bool {
    a.ordered_subsume(b)
}

#[inline(never)]
#[unsafe(no_mangle)]
fn source_except_one(a: &LitVec, b: &LitVec) -> u64 {
    match a.ordered_subsume_execpt_one(b) {
        (true, _) => 1 << 40,
        (false, None) => 1 << 41,
        (false, Some(l)) => l.0 as u64,
    }
}

#[inline(never)]
#[unsafe(no_mangle)]
fn source_drop(c: &mut LitVec, literal: Lit) {
    c.drop_literal(literal)
}

#[inline(never)]
#[unsafe(no_mangle)]
fn source_signature(c: &LitVec) -> u128 {
    c.sign()
}

#[inline(never)]
#[unsafe(no_mangle)]
fn source_may_subsume(a: u128, b: u128) -> bool {
    may_subsume(a, b)
}

#[inline(never)]
#[unsafe(no_mangle)]
fn source_may_fit(a: u128, b: u128) -> bool {
    may_fit(a, b)
}

#[inline(never)]
#[unsafe(no_mangle)]
fn source_lemmas(cs: Vec<LitOrdVec>) -> Vec<LitOrdVec> {
    lemmas_subsume_simplify(cs)
}

struct Rng(u64);

impl Rng {
    fn below(&mut self, n: u64) -> u64 {
        self.0 ^= self.0 << 13;
        self.0 ^= self.0 >> 7;
        self.0 ^= self.0 << 17;
        (self.0.wrapping_mul(0x2545F4914F6CDD1D) >> 11) % n
    }
}

// A clause of k literals in order, of the nodes below `span`.
fn clause(g: &mut Rng, k: u64, span: u64) -> Vec<u32> {
    let mut nodes = std::collections::BTreeMap::new();
    while (nodes.len() as u64) < k {
        nodes.insert(1 + g.below(span) as u32, g.below(2) as u32);
    }
    nodes.into_iter().map(|(n, s)| 2 * n + s).collect()
}

// A pair: unrelated, one with the other's literals, or so but for one sign; in a third of the cases each.
fn pair(g: &mut Rng) -> (Vec<u32>, Vec<u32>) {
    let span = [14, 30, 120][g.below(3) as usize];
    let b = {
        let k = 3 + g.below(8);
        clause(g, k, span)
    };
    let kind = g.below(3);
    if kind == 0 {
        let k = 3 + g.below(8);
        return (clause(g, k, span), b);
    }
    let keep = 3 + g.below(b.len() as u64 - 2);
    let mut a = b.clone();
    while a.len() as u64 > keep {
        let i = g.below(a.len() as u64) as usize;
        a.remove(i);
    }
    if kind == 2 {
        let i = g.below(a.len() as u64) as usize;
        a[i] ^= 1;
    }
    (a, b)
}

fn lits(c: &[u32]) -> LitVec {
    LitVec {
        lits: c.iter().map(|&l| Lit(l)).collect(),
    }
}

// A pivot that the first has and its opposite the second: the first odd one out, or a new node.
fn pivoted(g: &mut Rng, a: &[u32], b: &[u32]) -> (Vec<u32>, Vec<u32>, u32) {
    if let Some(&p) = a.iter().find(|&&l| b.contains(&(l ^ 1))) {
        return (a.to_vec(), b.to_vec(), p);
    }
    let p = 2 * (200 + g.below(3) as u32);
    let (mut a, mut b) = (a.to_vec(), b.to_vec());
    a.pop();
    b.pop();
    a.push(p);
    b.push(p ^ 1);
    (a, b, p)
}

// What is left of a list of clauses: all the literals, one after another, each clause behind its length.
fn left(cs: &[Vec<u32>], rattle: bool) -> Vec<u32> {
    let mut out = Vec::new();
    if !rattle {
        let cs = cs.iter().map(|c| LitOrdVec::new(lits(c))).collect();
        for c in source_lemmas(cs) {
            out.push(c.cube.len() as u32);
            out.extend(c.cube.iter().map(|l| l.0));
        }
        return out;
    }
    let n = cs.len();
    let mut lengths: Vec<u32> = cs.iter().map(|c| c.len() as u32).collect();
    let mut literals = vec![0u32; 32 * n];
    for (k, c) in cs.iter().enumerate() {
        literals[32 * k..][..c.len()].copy_from_slice(c);
    }
    let (mut order, mut entries, mut places) = (vec![0u32; n], vec![0u32; n], vec![0u32; n]);
    let r = unsafe {
        rattle_lemmas(
            lengths.as_mut_ptr(),
            n,
            literals.as_mut_ptr(),
            32 * n,
            order.as_mut_ptr(),
            n,
            entries.as_mut_ptr(),
            n,
            places.as_mut_ptr(),
            n,
            n as u32,
        )
    };
    for &k in &order[..r] {
        let len = lengths[k as usize];
        out.push(len);
        out.extend(&literals[32 * k as usize..][..len as usize]);
    }
    out
}

fn main() {
    let args: Vec<String> = std::env::args().collect();
    let (op, rattle) = (args[1].as_str(), args[2] == "rattle");
    let mut g = Rng(88172645463325252);
    let mut values = vec![2u8; 256];
    for v in values.iter_mut() {
        if g.below(10) == 0 {
            *v = g.below(2) as u8;
        }
    }
    let assign = VarAssign {
        map: values.iter().map(|&v| Lbool(v)).collect(),
    };
    let mut total = 0u64;
    let mut add = |x: u64| total = total.wrapping_mul(31).wrapping_add(x);
    for _ in 0..2000 {
        let (a, b) = pair(&mut g);
        let (la, lb) = (lits(&a), lits(&b));
        let (sa, sb) = (la.sign(), lb.sign());
        let mut out = [0u32; 64];
        let halves = |s: u128| (s as u64, (s >> 64) as u64);
        let ((al, ah), (bl, bh)) = (halves(sa), halves(sb));
        match op {
            "simp" => {
                if rattle {
                    let n = unsafe {
                        rattle_simp(
                            a.as_ptr(),
                            a.len(),
                            values.as_ptr(),
                            values.len(),
                            out.as_mut_ptr(),
                            64,
                        )
                    };
                    add(n as u64);
                    if n < 1000 {
                        out[..n].iter().for_each(|&l| add(l as u64));
                    }
                } else {
                    match source_simp(&la, &assign) {
                        None => add(1000),
                        Some(c) => {
                            add(c.len() as u64);
                            c.iter().for_each(|l| add(l.0 as u64));
                        }
                    }
                }
            }
            "resolvent" => {
                let (a, b, p) = pivoted(&mut g, &a, &b);
                if rattle {
                    let n = unsafe {
                        rattle_resolvent(
                            a.as_ptr(),
                            a.len(),
                            b.as_ptr(),
                            b.len(),
                            p,
                            out.as_mut_ptr(),
                            64,
                        )
                    };
                    add(n as u64);
                    if n < 1000 {
                        out[..n].iter().for_each(|&l| add(l as u64));
                    }
                } else {
                    match source_resolvent(&lits(&a), &lits(&b), Var(p >> 1)) {
                        None => add(1000),
                        Some(c) => {
                            let mut c: Vec<u32> = c.iter().map(|l| l.0).collect();
                            c.sort();
                            add(c.len() as u64);
                            c.iter().for_each(|&l| add(l as u64));
                        }
                    }
                }
            }
            "subsume" => add(if rattle {
                unsafe { rattle_subsume(a.as_ptr(), a.len(), b.as_ptr(), b.len()) }
            } else {
                source_subsume(&la, &lb)
            } as u64),
            "except_one" => add(if rattle {
                unsafe { rattle_except_one(a.as_ptr(), a.len(), b.as_ptr(), b.len()) }
            } else {
                source_except_one(&la, &lb)
            }),
            "drop" => {
                let literal = a[g.below(a.len() as u64) as usize];
                if rattle {
                    let mut c = a.clone();
                    let n = unsafe { rattle_drop(c.as_mut_ptr(), c.len(), literal) };
                    c[..n].iter().for_each(|&l| add(l as u64));
                } else {
                    let mut c = la.clone();
                    source_drop(&mut c, Lit(literal));
                    c.iter().for_each(|l| add(l.0 as u64));
                }
            }
            "signature" => {
                let (mut low, mut high) = (0, 0);
                if rattle {
                    unsafe { rattle_signature(a.as_ptr(), a.len(), &mut low, &mut high) };
                } else {
                    (low, high) = halves(source_signature(&la));
                }
                add(low);
                add(high);
            }
            "may_subsume" => add(if rattle {
                unsafe { rattle_may_subsume(al, ah, bl, bh) }
            } else {
                source_may_subsume(sa, sb)
            } as u64),
            "lemmas" => {
                // a list of two to forty clauses, in pairs as above
                let mut cs = vec![a.clone(), b.clone()];
                for _ in 0..g.below(20) {
                    let (a, b) = pair(&mut g);
                    cs.extend([a, b]);
                }
                left(&cs, rattle).into_iter().for_each(|w| add(w as u64));
            }
            "may_fit" => {
                // the two tests differ: their answers are not compared
                black_box(if rattle {
                    unsafe { rattle_may_fit(al, ah, bl, bh) }
                } else {
                    source_may_fit(sa, sb)
                });
            }
            _ => panic!("no such operation"),
        }
    }
    println!("{op} {total}");
}
