//! The same question answered by writing out every derivation, for small jobs.
//!
//! This works from the bottom, without the layers: every word that fits the
//! entries, as the renaming reads it; if the automaton accepts what is read,
//! every tree of table rules for it, without a banned one. The numbers that
//! the stack gives the rules of a tree serve only to choose among the cheapest.

use crate::job::{Automaton, Expansion, Job};
use crate::{Node, Reading};

/// A derivation by the table.
#[derive(Clone)]
struct Tree {
    number: usize,
    begin: usize,
    end: usize,
    parts: Option<Box<(Tree, Tree)>>,
}

/// Stops the listing when it gets long.
struct Budget(usize);

impl Budget {
    fn spend(&mut self) -> Option<()> {
        self.0 = self.0.checked_sub(1)?;
        Some(())
    }
}

/// What the job comes to; the outer none if the listing gets too long.
pub fn read(job: &Job) -> Option<Option<Reading>> {
    if job.entries.is_empty() {
        return Some(None);
    }
    let mut budget = Budget(50_000);
    let automaton = job.automaton_or_all();
    let mut count = 0;
    // The cheapest so far, with the order among the cheapest: first the start,
    // then the rule numbers and cuts of the nodes, root first.
    let mut best: Option<(u64, usize, Vec<(usize, usize)>, Vec<Node>)> = None;
    for word in words(&job.entries, &mut budget)? {
        let Some(read) = as_read(job, &word) else {
            continue;
        };
        let Some(states) = states_of(&automaton, &read) else {
            continue;
        };
        if !automaton.accepting[states[read.len()]] {
            continue;
        }
        for tree in trees(job, &read, 0, read.len(), job.start, &mut budget)? {
            count += 1;
            let order = order(job, &automaton, &word, &states, &tree);
            let start = (job.start * automaton.states + automaton.start) * automaton.states
                + states[read.len()];
            let mut nodes = Vec::new();
            list(&tree, &mut nodes);
            let new = (cost(job, &tree), start, order, nodes);
            if best
                .as_ref()
                .is_none_or(|old| (&new.0, &new.1, &new.2) < (&old.0, &old.1, &old.2))
            {
                best = Some(new);
            }
        }
    }
    Some(best.map(|(cost, _, _, nodes)| Reading { count, cost, nodes }))
}

/// All words that fit the entries.
fn words(entries: &[u32], budget: &mut Budget) -> Option<Vec<Vec<usize>>> {
    let mut words = vec![Vec::new()];
    for set in entries {
        let mut longer = Vec::new();
        for word in &words {
            for code in (0..32).filter(|code| set >> code & 1 == 1) {
                budget.spend()?;
                let mut word = word.clone();
                word.push(code);
                longer.push(word);
            }
        }
        words = longer;
    }
    Some(words)
}

/// The word as the renaming reads it; none if a code is read as nothing, or as
/// a code that the table grammar lacks.
fn as_read(job: &Job, word: &[usize]) -> Option<Vec<usize>> {
    word.iter()
        .map(|code| match &job.readings {
            None => Some(*code),
            Some(readings) => readings[*code].filter(|read| *read < job.codes),
        })
        .collect()
}

/// The states before and after each code of the word.
fn states_of(automaton: &Automaton, word: &[usize]) -> Option<Vec<usize>> {
    let mut states = vec![automaton.start];
    for code in word {
        let state = *states.last()?;
        states.push(*automaton.steps[state].get(*code)?);
    }
    Some(states)
}

/// All derivations of a part of the word from a nonterminal.
fn trees(
    job: &Job,
    word: &[usize],
    begin: usize,
    end: usize,
    nonterminal: usize,
    budget: &mut Budget,
) -> Option<Vec<Tree>> {
    budget.spend()?;
    let mut found = Vec::new();
    for (number, rule) in job.rules.iter().enumerate() {
        if rule.lhs != nonterminal || job.bans.contains(&number) {
            continue;
        }
        match rule.expansion {
            Expansion::Leaf { code } => {
                if end - begin == 1 && word[begin] == code {
                    found.push(Tree {
                        number,
                        begin,
                        end,
                        parts: None,
                    });
                }
            }
            Expansion::Pair { left, right } => {
                for cut in begin + 1..end {
                    let firsts = trees(job, word, begin, cut, left, budget)?;
                    let rests = trees(job, word, cut, end, right, budget)?;
                    for first in &firsts {
                        for rest in &rests {
                            budget.spend()?;
                            let parts = Some(Box::new((first.clone(), rest.clone())));
                            found.push(Tree {
                                number,
                                begin,
                                end,
                                parts,
                            });
                        }
                    }
                }
            }
        }
    }
    Some(found)
}

fn cost(job: &Job, tree: &Tree) -> u64 {
    let own = job.rules[tree.number].cost;
    match &tree.parts {
        None => own,
        Some(parts) => own + cost(job, &parts.0) + cost(job, &parts.1),
    }
}

fn list(tree: &Tree, nodes: &mut Vec<Node>) {
    nodes.push(Node {
        begin: tree.begin,
        end: tree.end,
        bottom: tree.number,
    });
    if let Some(parts) = &tree.parts {
        list(&parts.0, nodes);
        list(&parts.1, nodes);
    }
}

/// For each node, root first, the number that the stack gives its rule, and its cut.
fn order(
    job: &Job,
    automaton: &Automaton,
    word: &[usize],
    states: &[usize],
    tree: &Tree,
) -> Vec<(usize, usize)> {
    let many = automaton.states;
    let recorder_codes = job.readings.as_ref().map_or(1, |readings| readings.len());
    let (p, r) = (states[tree.begin], states[tree.end]);
    match &tree.parts {
        None => {
            let number = ((tree.number * many + p) * many) * many + r;
            let recorder = if job.readings.is_some() {
                word[tree.begin]
            } else {
                0
            };
            vec![(number * recorder_codes + recorder, 0)]
        }
        Some(parts) => {
            let cut = parts.0.end;
            let number = ((tree.number * many + p) * many + states[cut]) * many + r;
            let mut all = vec![(number * recorder_codes, cut)];
            all.extend(order(job, automaton, word, states, &parts.0));
            all.extend(order(job, automaton, word, states, &parts.1));
            all
        }
    }
}
