//! The stack of grammars: table, ban, intersection, renaming (LAYERS.md).
//! Each layer answers for the rule at a number by asking the one below.

use crate::job::{Automaton, Expansion, Job, Rule};

/// A rule as a grammar of the stack shows it.
#[derive(Clone)]
pub struct Shown {
    pub lhs: usize,
    pub expansion: Expansion,
    pub cost: u64,
    /// The number of the rule of the table that it stems from.
    pub bottom: usize,
}

pub trait Grammar {
    fn nonterminals(&self) -> usize;
    fn codes(&self) -> usize;
    /// Rule numbers lie below it.
    fn bound(&self) -> usize;
    fn rule(&self, number: usize) -> Option<Shown>;
    fn is_start(&self, nonterminal: usize) -> bool;
}

struct Table {
    nonterminals: usize,
    codes: usize,
    start: usize,
    rules: Vec<Rule>,
}

impl Grammar for Table {
    fn nonterminals(&self) -> usize {
        self.nonterminals
    }
    fn codes(&self) -> usize {
        self.codes
    }
    fn bound(&self) -> usize {
        self.rules.len()
    }
    fn rule(&self, number: usize) -> Option<Shown> {
        let rule = self.rules.get(number)?;
        Some(Shown {
            lhs: rule.lhs,
            expansion: rule.expansion,
            cost: rule.cost,
            bottom: number,
        })
    }
    fn is_start(&self, nonterminal: usize) -> bool {
        nonterminal == self.start
    }
}

struct Ban {
    below: Box<dyn Grammar>,
    bans: Vec<usize>,
}

impl Grammar for Ban {
    fn nonterminals(&self) -> usize {
        self.below.nonterminals()
    }
    fn codes(&self) -> usize {
        self.below.codes()
    }
    fn bound(&self) -> usize {
        self.below.bound()
    }
    fn rule(&self, number: usize) -> Option<Shown> {
        if self.bans.contains(&number) {
            return None;
        }
        self.below.rule(number)
    }
    fn is_start(&self, nonterminal: usize) -> bool {
        self.below.is_start(nonterminal)
    }
}

struct Intersection {
    below: Box<dyn Grammar>,
    automaton: Automaton,
}

impl Intersection {
    /// The number of the triple (p, A, r).
    fn triple(&self, p: usize, nonterminal: usize, r: usize) -> usize {
        let q = self.automaton.states;
        (nonterminal * q + p) * q + r
    }
}

impl Grammar for Intersection {
    fn nonterminals(&self) -> usize {
        self.below.nonterminals() * self.automaton.states.pow(2)
    }
    fn codes(&self) -> usize {
        self.below.codes()
    }
    fn bound(&self) -> usize {
        self.below.bound() * self.automaton.states.pow(3)
    }
    fn rule(&self, number: usize) -> Option<Shown> {
        let states = self.automaton.states;
        let r = number % states;
        let q = number / states % states;
        let p = number / states.pow(2) % states;
        let below = self.below.rule(number / states.pow(3))?;
        let expansion = match below.expansion {
            Expansion::Pair { left, right } => Expansion::Pair {
                left: self.triple(p, left, q),
                right: self.triple(q, right, r),
            },
            Expansion::Leaf { code } => {
                if q != 0 || self.automaton.steps[p][code] != r {
                    return None;
                }
                Expansion::Leaf { code }
            }
        };
        Some(Shown {
            lhs: self.triple(p, below.lhs, r),
            expansion,
            ..below
        })
    }
    fn is_start(&self, nonterminal: usize) -> bool {
        let states = self.automaton.states;
        let r = nonterminal % states;
        let p = nonterminal / states % states;
        p == self.automaton.start
            && self.automaton.accepting[r]
            && self.below.is_start(nonterminal / states.pow(2))
    }
}

struct Renaming {
    below: Box<dyn Grammar>,
    readings: Vec<Option<usize>>,
}

impl Grammar for Renaming {
    fn nonterminals(&self) -> usize {
        self.below.nonterminals()
    }
    fn codes(&self) -> usize {
        self.readings.len()
    }
    fn bound(&self) -> usize {
        self.below.bound() * self.readings.len()
    }
    fn rule(&self, number: usize) -> Option<Shown> {
        let recorder = number % self.readings.len();
        let below = self.below.rule(number / self.readings.len())?;
        match below.expansion {
            Expansion::Pair { .. } if recorder == 0 => Some(below),
            Expansion::Leaf { code } if self.readings[recorder] == Some(code) => Some(Shown {
                expansion: Expansion::Leaf { code: recorder },
                ..below
            }),
            _ => None,
        }
    }
    fn is_start(&self, nonterminal: usize) -> bool {
        self.below.is_start(nonterminal)
    }
}

/// The stack that a job describes.
pub fn of(job: &Job) -> Box<dyn Grammar> {
    let table = Table {
        nonterminals: job.nonterminals,
        codes: job.codes,
        start: job.start,
        rules: job.rules.clone(),
    };
    let ban = Ban {
        below: Box::new(table),
        bans: job.bans.clone(),
    };
    let intersection = Intersection {
        below: Box::new(ban),
        automaton: job.automaton_or_all(),
    };
    match &job.readings {
        None => Box::new(intersection),
        Some(readings) => Box::new(Renaming {
            below: Box::new(intersection),
            readings: readings.clone(),
        }),
    }
}
