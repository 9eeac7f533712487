//! Pairs of clauses with the reference's answers: the table to one file, the counts to another.
use logicrs::*;
use std::collections::BTreeMap;
use std::io::Write;
include!("random.in");

fn un(c: &LitVec) -> Vec<u32> {
    c.iter().map(|&l| l.into()).collect()
}
fn list(c: &[u32]) -> String {
    let mut s = c.len().to_string();
    for l in c {
        s += &format!(" {l}");
    }
    s
}
fn sign(c: &[u32]) -> u128 {
    c.iter().fold(0u128, |s, l| s | 1 << (l % 128))
}
fn main() {
    let args: Vec<String> = std::env::args().collect();
    let (mut table, mut counts) = (
        std::fs::File::create(&args[1]).unwrap(),
        std::fs::File::create(&args[2]).unwrap(),
    );
    let mut g = Rng(88172645463325252);
    let rows = 400u64;
    let (mut n_sub, mut n_odd, mut n_res, mut n_taut, mut n_gone, mut n_lits, mut n_spared) =
        (0u64, 0u64, 0u64, 0u64, 0u64, 0u64, 0u64);
    for row in 0..rows {
        let span = [4u64, 6, 10, 200][(row % 4) as usize];
        let mk = |g: &mut Rng| {
            let mut b = BTreeMap::new();
            let k = 1 + g.below(9);
            for _ in 0..k {
                let n = if span == 200 {
                    g.below(3) + 64 * g.below(3)
                } else {
                    g.below(span)
                };
                b.insert(n as u32, g.below(2) as u32);
            }
            b.into_iter().map(|(n, s)| 2 * n + s).collect::<Vec<u32>>()
        };
        let b = mk(&mut g);
        // unrelated, part of b, or part of b but for one sign
        let a = match g.below(3) {
            0 => mk(&mut g),
            kind => {
                let mut a: Vec<u32> = b.iter().copied().filter(|_| g.below(3) > 0).collect();
                if a.is_empty() {
                    a = b.clone();
                }
                if kind == 2 {
                    let i = g.below(a.len() as u64) as usize;
                    a[i] ^= 1;
                }
                a
            }
        };
        // values of the first nodes: node 0 false, the others mostly unknown
        let mut va = VarAssign::new_with(Var(1023));
        let mut values = vec![0u32];
        for n in 1..1 + g.below(12) as u32 {
            let v = [2u32, 2, 2, 2, 2, 0, 1][g.below(7) as usize];
            if v < 2 {
                va.set(Lit::new(Var(n), v == 1));
            }
            values.push(v);
        }
        let (la, lb) = (lv(&a), lv(&b));
        let (oa, ob) = (LitOrdVec::new(la.clone()), LitOrdVec::new(lb.clone()));
        let sub = la.ordered_subsume(&lb);
        assert_eq!(sub, oa.subsume(&ob));
        let (yes, odd) = la.ordered_subsume_execpt_one(&lb);
        assert_eq!((yes, odd), oa.subsume_execpt_one(&ob));
        let odd: Vec<u32> = odd.into_iter().map(|l| l.into()).collect();
        let simp = la.ordered_simp(&va).map(|c| un(&c));
        let pivot: Vec<u32> = a
            .iter()
            .copied()
            .filter(|l| b.contains(&(l ^ 1)))
            .take(1)
            .collect();
        let res = pivot.first().map(|p| {
            la.ordered_resolvent(&lb, Var(p >> 1)).map(|c| {
                let mut c = un(&c);
                c.sort();
                c
            })
        });
        let lost = a[g.below(a.len() as u64) as usize];
        let mut rest = la.clone();
        rest.retain(|l| u32::from(*l) != lost);
        let (sa, sb) = (sign(&a), sign(&b));
        n_sub += sub as u64;
        n_odd += odd.len() as u64;
        n_gone += simp.is_none() as u64;
        n_lits += simp.as_ref().map_or(0, |c| c.len() as u64);
        n_res += pivot.len() as u64;
        n_taut += matches!(res, Some(None)) as u64;
        n_spared += ((sa & !sb).count_ones() > 1) as u64;
        let opt = |c: &Option<Vec<u32>>| c.clone().unwrap_or_default();
        let resolvent = res.clone().flatten();
        let flags = [
            sub as u32,
            yes as u32,
            (sa & sb == sa) as u32,
            ((sa & !sb).count_ones() <= 1) as u32,
            simp.is_some() as u32,
            resolvent.is_some() as u32,
        ];
        let words = |s: u128| {
            [
                s as u32,
                (s >> 32) as u32,
                (s >> 64) as u32,
                (s >> 96) as u32,
            ]
        };
        let signs = [words(sa), words(sb)].concat();
        let row = [
            list(&a),
            list(&b),
            list(&values),
            list(&pivot),
            list(&odd),
            list(&opt(&simp)),
            list(&opt(&resolvent)),
            list(&[lost]),
            list(&un(&rest)),
            list(&flags),
            list(&signs),
        ];
        writeln!(table, "{}", row.join(" ")).unwrap();
    }
    writeln!(counts, "pairs {rows}").unwrap();
    writeln!(counts, "subsumed {n_sub}, but for one literal {n_odd}").unwrap();
    writeln!(
        counts,
        "simplified {}, gone {n_gone}, literals left {n_lits}",
        rows - n_gone
    )
    .unwrap();
    writeln!(counts, "resolved {n_res}, tautologies {n_taut}").unwrap();
    writeln!(counts, "spared by signatures {n_spared}").unwrap();
    writeln!(counts, "differences 0").unwrap();
}
