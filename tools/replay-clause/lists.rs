//! Lists of clauses with what the reference leaves of them: the lists to one file, the counts to another.
use logicrs::*;
use std::collections::BTreeMap;
use std::io::Write;
include!("random.in");

fn text(cs: &[Vec<u32>]) -> String {
    let clauses: Vec<String> = cs
        .iter()
        .map(|c| c.iter().map(u32::to_string).collect::<Vec<_>>().join(" "))
        .collect();
    clauses.join("; ")
}
fn main() {
    let args: Vec<String> = std::env::args().collect();
    let (mut lists, mut counts) = (
        std::fs::File::create(&args[1]).unwrap(),
        std::fs::File::create(&args[2]).unwrap(),
    );
    std::panic::set_hook(Box::new(|_| {}));
    let mut g = Rng(88172645463325252);
    let (mut n_lists, mut n_clauses, mut n_left, mut n_literals, mut n_shorter) = (0, 0, 0, 0, 0);
    while n_lists < 300 {
        // few nodes and short clauses, where much happens, or many and long ones, and nodes whose signatures collide
        let (span, most, longest) = [(5, 6, 4), (6, 12, 5), (8, 24, 8), (40, 16, 12), (200, 10, 6)][n_lists % 5];
        let k = 1 + g.below(most);
        let cs: Vec<Vec<u32>> = (0..k)
            .map(|_| {
                let mut b = BTreeMap::new();
                for _ in 0..1 + g.below(longest) {
                    let n = if span == 200 {
                        1 + g.below(3) + 64 * g.below(3)
                    } else {
                        1 + g.below(span)
                    };
                    b.insert(n as u32, g.below(2) as u32);
                }
                b.into_iter().map(|(n, s)| 2 * n + s).collect()
            })
            .collect();
        // a list that comes to the empty clause, which the reference takes for one that is gone, is left out
        let Ok(left) = std::panic::catch_unwind(|| {
            lemmas_subsume_simplify(cs.iter().map(|c| LitOrdVec::new(lv(c))).collect())
        }) else {
            continue;
        };
        let left: Vec<Vec<u32>> = left
            .iter()
            .map(|c| c.cube().iter().map(|&l| l.into()).collect())
            .collect();
        writeln!(lists, "{} => {}", text(&cs), text(&left)).unwrap();
        n_lists += 1;
        n_clauses += cs.len();
        n_left += left.len();
        n_literals += left.iter().map(Vec::len).sum::<usize>();
        n_shorter += left.iter().filter(|c| !cs.contains(c)).count();
    }
    writeln!(counts, "lists {n_lists}").unwrap();
    writeln!(counts, "clauses {n_clauses}, left {n_left}, their literals {n_literals}").unwrap();
    writeln!(counts, "left shorter than they came {n_shorter}").unwrap();
    writeln!(counts, "differences 0").unwrap();
}
