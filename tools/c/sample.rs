//! Simplifies the sample of the program: node 3 is the conjunction of the nodes 1 and 2, node 4 the negation of node 3.
mod dilkaums;

fn main() {
    let image = [4, 5, 7, 7, 7, 17, 23, 2, 2, 7, 2, 4, 7, 3, 3, 5, 6, 2, 6, 8, 2, 7, 9];
    let mut store = vec![0; 48 * 128 + 4096];
    let mut working = vec![0; 64 * 128 + 8192];
    let mut out = [0; 64];
    let told = dilkaums::simplify(&image, &[1, 2, 4], false, 128, &mut store, &mut working, &mut out);
    let words = &out[..told.expect("refused") as usize];
    println!("{}", words.iter().map(u32::to_string).collect::<Vec<_>>().join(" "));
}
