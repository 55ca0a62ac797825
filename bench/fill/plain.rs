// A hand-written chart with no proof: 64 entries, one nonterminal, 64 pair rules and 64 leaf rules.
#[derive(Clone, Copy)] enum Exp { Pair(u32, u32), Leaf(u8) }
#[derive(Clone, Copy)] struct Rule { lhs: u32, exp: Exp, #[allow(dead_code)] cost: u16 }
fn place(n: usize, b: usize, e: usize, a: usize) -> usize { (e * (e - 1) / 2 + b) * n + a }
fn main() {
    let mut rules = Vec::new();
    for i in 0..64u16 { rules.push(Rule { lhs: 0, exp: Exp::Pair(0, 0), cost: i }); }
    for i in 0..64u16 { rules.push(Rule { lhs: 0, exp: Exp::Leaf(0), cost: i }); }
    let n = 1usize;
    let mut cells = vec![0u64; 2080 * n];
    let entry = std::env::args().nth(1).map(|s| s.parse::<u32>().unwrap()).unwrap_or(1);
    for end in 1..=64usize {
        for begin in (0..end).rev() {
            for r in &rules {
                match r.exp {
                    Exp::Leaf(c) => if begin + 1 == end && (entry >> c) & 1 == 1 {
                        let at = place(n, begin, end, r.lhs as usize);
                        cells[at] = cells[at].saturating_add(1);
                    },
                    Exp::Pair(l, rr) => {
                        let mut sum = 0u64;
                        for cut in begin + 1..end {
                            let x = cells[place(n, begin, cut, l as usize)];
                            let y = cells[place(n, cut, end, rr as usize)];
                            sum = sum.saturating_add(x.saturating_mul(y));
                        }
                        let at = place(n, begin, end, r.lhs as usize);
                        cells[at] = cells[at].saturating_add(sum);
                    }
                }
            }
        }
    }
    println!("{}", cells[place(n, 0, 64, 0)]);
}
