// Drives one store through all steps: driver STORE ROOM CLAUSES late|early. STORE is scanned or indexed. `early` puts the index on before
// the first clause, and empties the store; `late` enters, walks, puts the index on, walks the uses, removes, retires, and takes the index
// off. The answers of each step are known beforehand, and any other ends the program. callgrind counts each step.
unsafe extern "C" {
    fn drive_scanned(
        words: *mut u32,
        n: usize,
        room: u32,
        clauses: *const u32,
        m: usize,
        early: bool,
        out: *mut u32,
        k: usize,
    );
    fn drive_indexed(
        words: *mut u32,
        n: usize,
        room: u32,
        clauses: *const u32,
        m: usize,
        early: bool,
        out: *mut u32,
        k: usize,
    );
}

struct Rng(u64);

impl Rng {
    fn below(&mut self, n: u64) -> u64 {
        self.0 ^= self.0 << 13;
        self.0 ^= self.0 >> 7;
        self.0 ^= self.0 << 17;
        (self.0.wrapping_mul(0x2545F4914F6CDD1D) >> 11) % n
    }
}

// How many clauses each own list has that has any: one of 2, one of 3 and one of 4 literals.
const EACH: u32 = 3;

// The clauses, each in five words: its length and its literals. Clause c of a round is of the literal 16 + c, the others are of the eight
// nodes below that one's.
fn clauses(count: u32) -> Vec<u32> {
    let mut g = Rng(88172645463325252);
    let mut words = Vec::new();
    for round in 0..EACH {
        for c in 0..count / EACH {
            let last = 16 + c;
            let len = 2 + (round + c) % 3;
            let mut nodes = std::collections::BTreeSet::new();
            while (nodes.len() as u32) < len - 1 {
                nodes.insert(last / 2 - 1 - g.below(8) as u32);
            }
            let mut clause: Vec<u32> = nodes.iter().map(|v| 2 * v + g.below(2) as u32).collect();
            clause.push(last);
            words.push(len);
            clause.resize(4, 0);
            words.extend(clause);
        }
    }
    words
}

fn main() {
    let args: Vec<String> = std::env::args().collect();
    let room: u32 = args[2].parse().unwrap();
    let count: u32 = args[3].parse().unwrap();
    let early = args[4] == "early";
    let cs = clauses(count);
    let literals: u32 = cs.chunks(5).map(|c| c[0]).sum();
    // more than either store needs
    let mut words = vec![0u32; 120 * room as usize + 16384];
    let mut out = [0u32; 6];
    let drive = if args[1] == "scanned" {
        drive_scanned
    } else {
        drive_indexed
    };
    unsafe {
        drive(
            words.as_mut_ptr(),
            words.len(),
            room,
            cs.as_ptr(),
            cs.len(),
            early,
            out.as_mut_ptr(),
            out.len(),
        )
    };
    let wanted = if early {
        [count, 0, 0, 0, 0, 0]
    } else {
        [count, literals, literals - count, count / 2, count / 2, 0]
    };
    assert_eq!(out, wanted);
    println!("{literals}");
}
