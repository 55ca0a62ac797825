//! The same program written by hand in plain Rust: reads a job on standard
//! input, fills a chart, and writes the answer in one go.

use std::io::{Read, Write};

/// The most bytes a job may have.
const JOB_BYTES: usize = 4096;
const ROWS: usize = 256;
const BANS: usize = 16;
const ENTRIES: usize = 64;
const SLOTS: usize = 4096;

/// The cost of a cell without a derivation. No derivation costs nearly as much,
/// and two of these and a rule's cost still add up in 32 bits.
const NONE: i32 = 1 << 29;

#[derive(Clone, Copy)]
enum Expansion {
    Pair(u8, u8),
    Leaf(u8),
}

#[derive(Clone, Copy)]
struct Rule {
    lhs: u8,
    expansion: Expansion,
    cost: u16,
}

/// What a job describes.
struct Job {
    nonterminals: usize,
    codes: usize,
    start: usize,
    rules: Vec<Rule>,
    bans: Vec<usize>,
    states: usize,
    start_state: usize,
    accepting: u8,
    steps: [[u8; 32]; 8],
    /// For each code of the table, the codes of an entry that are read as it.
    read_as: [u32; 32],
    entries: Vec<u32>,
}

/// A refusal and its place.
struct Fault(u32, usize);

fn read(bytes: &[u8]) -> Result<Job, Fault> {
    if bytes.len() > JOB_BYTES {
        return Err(Fault(16, JOB_BYTES));
    }
    let [0x01, n, t, start, ..] = *bytes else {
        return Err(Fault(16, 0));
    };
    if n < 1 || n > 32 || t < 1 || t > 32 || start >= n {
        return Err(Fault(1, 0));
    }
    let mut job = Job {
        nonterminals: n as usize,
        codes: t as usize,
        start: start as usize,
        rules: Vec::with_capacity(ROWS),
        bans: Vec::with_capacity(BANS),
        states: 1,
        start_state: 0,
        accepting: 1,
        steps: [[0; 32]; 8],
        read_as: [0; 32],
        entries: Vec::with_capacity(ENTRIES),
    };
    let mut automaton_codes = None;
    let mut readings: Option<(u8, [u8; 32])> = None;
    let mut topmost = job.codes;
    let mut place = 4;
    loop {
        let rest = &bytes[place..];
        let in_entries = !job.entries.is_empty();
        let (number, width) = match *rest {
            [0x0B] => break,
            [0x0B, _, ..] => return Err(Fault(16, place + 1)),
            [0x0A, a, b, c, d, ..] => {
                let set = u32::from_be_bytes([a, b, c, d]);
                let length = job.entries.len() + 1;
                let number = if set == 0 || set as u64 >> topmost != 0 {
                    7
                } else if length > ENTRIES
                    || length * (length + 1) / 2 * job.nonterminals * job.states * job.states
                        > SLOTS
                {
                    9
                } else {
                    job.entries.push(set);
                    0
                };
                (number, 5)
            }
            _ if in_entries => (16, 0),
            [0x02, lhs, left, right, high, low, ..] => {
                let number = if lhs >= n || left >= n || right >= n {
                    2
                } else if job.rules.len() == ROWS {
                    3
                } else {
                    let cost = u16::from_be_bytes([high, low]);
                    job.rules.push(Rule {
                        lhs,
                        expansion: Expansion::Pair(left, right),
                        cost,
                    });
                    0
                };
                (number, 6)
            }
            [0x03, lhs, code, high, low, ..] => {
                let number = if lhs >= n || code >= t {
                    2
                } else if job.rules.len() == ROWS {
                    3
                } else {
                    let cost = u16::from_be_bytes([high, low]);
                    job.rules.push(Rule {
                        lhs,
                        expansion: Expansion::Leaf(code),
                        cost,
                    });
                    0
                };
                (number, 5)
            }
            [0x04, high, low, ..] => {
                let number = if job.bans.len() == BANS {
                    6
                } else {
                    job.bans.push(u16::from_be_bytes([high, low]) as usize);
                    0
                };
                (number, 3)
            }
            [0x05, states, codes, start, accepting, ..] if automaton_codes.is_none() => {
                let number = if states < 1
                    || states > 8
                    || codes < 1
                    || codes > 32
                    || start >= states
                    || accepting as u32 >> states != 0
                {
                    15
                } else if codes < t {
                    4
                } else {
                    automaton_codes = Some(codes);
                    job.states = states as usize;
                    job.start_state = start as usize;
                    job.accepting = accepting;
                    for (state, steps) in job.steps.iter_mut().enumerate() {
                        *steps = [state as u8; 32];
                    }
                    0
                };
                (number, 5)
            }
            [0x06, from, code, to, ..] if automaton_codes.is_some() => {
                let states = job.states as u8;
                let number = if from >= states || to >= states || Some(code) >= automaton_codes {
                    15
                } else {
                    job.steps[from as usize][code as usize] = to;
                    0
                };
                (number, 4)
            }
            [0x07, count, ..] if readings.is_none() => {
                let number = if count < 1 || count > 32 {
                    15
                } else {
                    // 32 stands for nothing.
                    readings = Some((count, [32; 32]));
                    topmost = count as usize;
                    0
                };
                (number, 2)
            }
            [0x08, recorder, code, ..] => match &mut readings {
                None => (16, 0),
                Some((count, _)) if recorder >= *count || code >= 32 => (15, 0),
                Some((_, readings)) => {
                    readings[recorder as usize] = code;
                    (0, 3)
                }
            },
            // No such command, or none that may come here, or one that is cut.
            _ => (16, 0),
        };
        if number != 0 {
            return Err(Fault(number, place));
        }
        place += width;
    }
    match readings {
        None => (0..32).for_each(|code| job.read_as[code] = 1 << code),
        Some((_, readings)) => {
            for (recorder, &code) in readings.iter().enumerate() {
                if code < 32 {
                    job.read_as[code as usize] |= 1 << recorder;
                }
            }
        }
    }
    Ok(job)
}

/// A pair rule of the stack. The left-hand side is known from where it stands.
struct PairRule {
    left: u16,
    right: u16,
    cost: u16,
    bottom: u16,
}

/// The leaf rules of the stack that stem from one rule and begin in one state:
/// one for each code of the set.
struct LeafRule {
    lhs: u16,
    cost: u16,
    bottom: u16,
    set: u32,
}

/// The rules of the stack. The pair rules of one left-hand side stand together,
/// those of A from `first[A]` on, in the order of their numbers.
struct Stack {
    nonterminals: usize,
    leaves: Vec<LeafRule>,
    pairs: Vec<PairRule>,
    first: Vec<u32>,
}

fn lay(job: &Job) -> Stack {
    let states = job.states;
    let triple = |p: usize, a: usize, r: usize| ((a * states + p) * states + r) as u16;
    let mut stack = Stack {
        nonterminals: job.nonterminals * states * states,
        leaves: Vec::new(),
        pairs: Vec::new(),
        first: Vec::new(),
    };

    let mut by_lhs = vec![Vec::new(); job.nonterminals];
    for (bottom, rule) in job.rules.iter().enumerate() {
        if job.bans.contains(&bottom) {
            continue;
        }
        match rule.expansion {
            Expansion::Pair(left, right) => by_lhs[rule.lhs as usize].push((
                left as usize,
                right as usize,
                rule.cost,
                bottom as u16,
            )),
            Expansion::Leaf(code) => {
                let set = job.read_as[code as usize];
                for p in 0..states {
                    let r = job.steps[p][code as usize] as usize;
                    let lhs = triple(p, rule.lhs as usize, r);
                    stack.leaves.push(LeafRule {
                        lhs,
                        cost: rule.cost,
                        bottom: bottom as u16,
                        set,
                    });
                }
            }
        }
    }
    // One entry is derived by leaf rules alone.
    if job.entries.len() > 1 {
        let many: usize = by_lhs.iter().map(|rules| rules.len()).sum();
        stack.pairs.reserve_exact(many * states * states * states);
        stack.first.reserve_exact(stack.nonterminals + 1);
        for rules in &by_lhs {
            for p in 0..states {
                for r in 0..states {
                    stack.first.push(stack.pairs.len() as u32);
                    for &(left, right, cost, bottom) in rules {
                        for q in 0..states {
                            let (left, right) = (triple(p, left, q), triple(q, right, r));
                            stack.pairs.push(PairRule {
                                left,
                                right,
                                cost,
                                bottom,
                            });
                        }
                    }
                }
            }
        }
        stack.first.push(stack.pairs.len() as u32);
    }
    stack
}

/// The chart. Each cell stands twice, so that both the cells that begin at one
/// place and those that end at one place lie in a row.
struct Chart {
    length: usize,
    /// The cell of A from begin to end is at (A * length + begin) * length + end - 1.
    counts_from: Vec<u64>,
    costs_from: Vec<i32>,
    /// The cell of A from begin to end is at (A * length + end - 1) * length + begin.
    counts_to: Vec<u64>,
    costs_to: Vec<i32>,
}

impl Chart {
    fn new(nonterminals: usize, length: usize) -> Chart {
        let cells = nonterminals * length * length;
        Chart {
            length,
            counts_from: vec![0; cells],
            costs_from: vec![NONE; cells],
            counts_to: vec![0; cells],
            costs_to: vec![NONE; cells],
        }
    }

    fn put(&mut self, a: usize, begin: usize, end: usize, count: u64, cost: i32) {
        let from = (a * self.length + begin) * self.length + end - 1;
        let to = (a * self.length + end - 1) * self.length + begin;
        self.counts_from[from] = count;
        self.costs_from[from] = cost;
        self.counts_to[to] = count;
        self.costs_to[to] = cost;
    }

    /// The count and the cost of a cell.
    fn get(&self, a: usize, begin: usize, end: usize) -> (u64, i32) {
        let from = (a * self.length + begin) * self.length + end - 1;
        (self.counts_from[from], self.costs_from[from])
    }

    fn fill(&mut self, stack: &Stack, entries: &[u32]) {
        let length = self.length;
        for (begin, set) in entries.iter().enumerate() {
            for rule in &stack.leaves {
                let fits = (rule.set & set).count_ones();
                if fits != 0 {
                    let (count, cost) = self.get(rule.lhs as usize, begin, begin + 1);
                    self.put(
                        rule.lhs as usize,
                        begin,
                        begin + 1,
                        count + fits as u64,
                        cost.min(rule.cost as i32),
                    );
                }
            }
        }
        for end in 2..=length {
            for begin in (0..end - 1).rev() {
                for (lhs, bounds) in stack.first.windows(2).enumerate() {
                    // The sum of the low halves of the products, and the bits
                    // of all high halves.
                    let mut total = 0u128;
                    let mut high = 0u64;
                    let mut cost = NONE;
                    for rule in &stack.pairs[bounds[0] as usize..bounds[1] as usize] {
                        let (left, right) = self.rows(rule, begin, end);
                        let counts = self.counts_from[left.clone()]
                            .iter()
                            .zip(&self.counts_to[right.clone()]);
                        let costs = self.costs_from[left].iter().zip(&self.costs_to[right]);
                        let mut least = NONE;
                        for ((left_count, right_count), (left_cost, right_cost)) in
                            counts.zip(costs)
                        {
                            let product = *left_count as u128 * *right_count as u128;
                            total += product as u64 as u128;
                            high |= (product >> 64) as u64;
                            least = least.min(left_cost + right_cost);
                        }
                        cost = cost.min(least + rule.cost as i32);
                    }
                    // What does not fit into 64 bits stays at the cap.
                    let count = if high != 0 {
                        u64::MAX
                    } else {
                        total.min(u64::MAX as u128) as u64
                    };
                    self.put(lhs, begin, end, count, cost);
                }
            }
        }
    }

    /// Where the left parts and the right parts of a span lie, cut by cut.
    fn rows(
        &self,
        rule: &PairRule,
        begin: usize,
        end: usize,
    ) -> (std::ops::Range<usize>, std::ops::Range<usize>) {
        let left = (rule.left as usize * self.length + begin) * self.length + begin;
        let right = (rule.right as usize * self.length + end - 1) * self.length + begin + 1;
        let cuts = end - begin - 1;
        (left..left + cuts, right..right + cuts)
    }
}

fn number(out: &mut Vec<u8>, mut number: u64) {
    let mut digits = [0; 20];
    let mut at = digits.len();
    loop {
        at -= 1;
        digits[at] = b'0' + (number % 10) as u8;
        number /= 10;
        if number == 0 {
            break;
        }
    }
    out.extend_from_slice(&digits[at..]);
}

/// Writes the cheapest tree: of the rules that attain a cell's cost the one with
/// the lowest number, and of its cuts the smallest.
fn tree(out: &mut Vec<u8>, stack: &Stack, chart: &Chart, entries: &[u32], start: usize) {
    let mut waiting = vec![(0, entries.len(), start)];
    while let Some((begin, end, a)) = waiting.pop() {
        let (_, cost) = chart.get(a, begin, end);
        let bottom;
        if end - begin == 1 {
            let set = entries[begin];
            let attains = |rule: &&LeafRule| {
                rule.lhs as usize == a && rule.cost as i32 == cost && rule.set & set != 0
            };
            bottom = stack
                .leaves
                .iter()
                .find(attains)
                .expect("a leaf rule attains the cost")
                .bottom;
        } else {
            let rules = &stack.pairs[stack.first[a] as usize..stack.first[a + 1] as usize];
            let attains = |rule: &PairRule| {
                let (left, right) = chart.rows(rule, begin, end);
                let mut costs = chart.costs_from[left].iter().zip(&chart.costs_to[right]);
                let cut =
                    costs.position(|(first, rest)| first + rest + rule.cost as i32 == cost)?;
                Some((rule.left, rule.right, begin + 1 + cut, rule.bottom))
            };
            let (left, right, cut, number) = rules
                .iter()
                .find_map(attains)
                .expect("a pair rule attains the cost");
            waiting.push((cut, end, right as usize));
            waiting.push((begin, cut, left as usize));
            bottom = number;
        }
        out.extend_from_slice(b"node ");
        number(out, begin as u64);
        out.push(b' ');
        number(out, end as u64);
        out.push(b' ');
        number(out, bottom as u64);
        out.push(b'\n');
    }
}

fn answer(bytes: &[u8], out: &mut Vec<u8>) {
    let job = match read(bytes) {
        Ok(job) => job,
        Err(Fault(refusal, place)) => {
            out.extend_from_slice(b"fault ");
            number(out, refusal as u64);
            out.push(b' ');
            number(out, place as u64);
            out.push(b'\n');
            return;
        }
    };
    let length = job.entries.len();
    let mut total = 0u64;
    let mut best = None;
    let mut least = NONE;
    let stack = lay(&job);
    let mut chart = Chart::new(stack.nonterminals, length);
    if length > 0 {
        chart.fill(&stack, &job.entries);
        for state in (0..job.states).filter(|state| job.accepting >> state & 1 == 1) {
            let start = (job.start * job.states + job.start_state) * job.states + state;
            let (count, cost) = chart.get(start, 0, length);
            total = total.saturating_add(count);
            if cost < least {
                least = cost;
                best = Some(start);
            }
        }
    }
    match best {
        None => out.extend_from_slice(b"read no\ncount 0\ncost none\n"),
        Some(start) => {
            out.extend_from_slice(b"read yes\ncount ");
            number(out, total);
            out.extend_from_slice(b"\ncost ");
            number(out, least as u64);
            out.push(b'\n');
            tree(out, &stack, &chart, &job.entries, start);
        }
    }
}

fn main() {
    let mut bytes = Vec::with_capacity(JOB_BYTES + 1);
    // One byte more than a job may have tells that it is too long.
    let read = std::io::stdin()
        .lock()
        .take(JOB_BYTES as u64 + 1)
        .read_to_end(&mut bytes);
    let mut out = Vec::with_capacity(4096);
    if read.is_ok() {
        answer(&bytes, &mut out);
        if std::io::stdout().lock().write_all(&out).is_ok() {
            return;
        }
    }
    std::process::exit(1);
}
