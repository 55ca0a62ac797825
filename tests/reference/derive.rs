//! What the entries come to by the stack: recursion over spans, each cell
//! worked out once and remembered.

use crate::job::{Expansion, Job};
use crate::stack::{self, Shown};
use crate::{Node, Reading};
use std::collections::HashMap;

/// The number of derivations of a span from a nonterminal, and the least cost
/// of them. The count stops at 2^128 - 1, far above where the answer stops.
#[derive(Clone, Copy)]
struct Cell {
    count: u128,
    cost: Option<u64>,
}

impl Cell {
    /// The cell with further derivations, of this least cost.
    fn and(self, count: u128, cost: u64) -> Cell {
        Cell {
            count: self.count.saturating_add(count),
            cost: Some(self.cost.map_or(cost, |least| least.min(cost))),
        }
    }
}

const NOTHING: Cell = Cell {
    count: 0,
    cost: None,
};

struct Cells<'a> {
    entries: &'a [u32],
    /// The rules of each nonterminal, in the order of their numbers.
    rules: Vec<Vec<Shown>>,
    known: HashMap<(usize, usize, usize), Cell>,
}

impl Cells<'_> {
    fn cell(&mut self, begin: usize, end: usize, nonterminal: usize) -> Cell {
        if let Some(cell) = self.known.get(&(begin, end, nonterminal)) {
            return *cell;
        }
        let mut cell = NOTHING;
        for at in 0..self.rules[nonterminal].len() {
            let (expansion, cost) = {
                let rule = &self.rules[nonterminal][at];
                (rule.expansion, rule.cost)
            };
            match expansion {
                Expansion::Leaf { code } => {
                    if end - begin == 1 && self.entries[begin] >> code & 1 == 1 {
                        cell = cell.and(1, cost);
                    }
                }
                Expansion::Pair { left, right } => {
                    for cut in begin + 1..end {
                        if let Some((count, both)) = self.product(begin, cut, end, left, right) {
                            cell = cell.and(count, cost + both);
                        }
                    }
                }
            }
        }
        self.known.insert((begin, end, nonterminal), cell);
        cell
    }

    /// The derivations of both parts together: how many, and the least cost.
    fn product(
        &mut self,
        begin: usize,
        cut: usize,
        end: usize,
        left: usize,
        right: usize,
    ) -> Option<(u128, u64)> {
        let first = self.cell(begin, cut, left);
        let first_cost = first.cost?;
        let rest = self.cell(cut, end, right);
        let rest_cost = rest.cost?;
        Some((
            first.count.saturating_mul(rest.count),
            first_cost + rest_cost,
        ))
    }

    /// Writes the nodes of the cheapest derivation: the lowest rule number that
    /// attains the cell's cost, and of its cuts the smallest that does.
    fn tree(&mut self, begin: usize, end: usize, nonterminal: usize, nodes: &mut Vec<Node>) {
        let cost = self
            .cell(begin, end, nonterminal)
            .cost
            .expect("a cell with a derivation");
        for at in 0..self.rules[nonterminal].len() {
            let rule = self.rules[nonterminal][at].clone();
            let node = Node {
                begin,
                end,
                bottom: rule.bottom,
            };
            match rule.expansion {
                Expansion::Leaf { code } => {
                    if end - begin == 1 && self.entries[begin] >> code & 1 == 1 && rule.cost == cost
                    {
                        nodes.push(node);
                        return;
                    }
                }
                Expansion::Pair { left, right } => {
                    for cut in begin + 1..end {
                        let Some((_, both)) = self.product(begin, cut, end, left, right) else {
                            continue;
                        };
                        if rule.cost + both == cost {
                            nodes.push(node);
                            self.tree(begin, cut, left, nodes);
                            self.tree(cut, end, right, nodes);
                            return;
                        }
                    }
                }
            }
        }
        unreachable!("some rule attains the cost");
    }
}

/// What the job comes to; none if there is no derivation.
pub fn read(job: &Job) -> Option<Reading> {
    if job.entries.is_empty() {
        return None;
    }
    let grammar = stack::of(job);
    // An entry that the reader let through has only codes of the topmost grammar.
    assert!(job
        .entries
        .iter()
        .all(|set| (*set as u64) >> grammar.codes() == 0));
    let mut rules = vec![Vec::new(); grammar.nonterminals()];
    for number in 0..grammar.bound() {
        if let Some(rule) = grammar.rule(number) {
            rules[rule.lhs].push(rule);
        }
    }
    let mut cells = Cells {
        entries: &job.entries,
        rules,
        known: HashMap::new(),
    };
    let length = job.entries.len();

    let mut whole = NOTHING;
    let mut lowest_start = None;
    for start in (0..grammar.nonterminals()).filter(|a| grammar.is_start(*a)) {
        let cell = cells.cell(0, length, start);
        let Some(cost) = cell.cost else { continue };
        // Only a smaller cost takes the place of an earlier start.
        if whole.cost.is_none_or(|least| cost < least) {
            lowest_start = Some(start);
        }
        whole = whole.and(cell.count, cost);
    }
    let start = lowest_start?;
    let mut nodes = Vec::new();
    cells.tree(0, length, start, &mut nodes);
    Some(Reading {
        count: whole.count.min(u64::MAX as u128) as u64,
        cost: whole.cost?,
        nodes,
    })
}
