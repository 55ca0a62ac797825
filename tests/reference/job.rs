//! Reading a job: the commands, their order, and the faults (JOB.md).

/// Where a job is faulted, and by which refusal.
#[derive(Debug)]
pub struct Fault {
    pub number: u32,
    pub place: usize,
}

/// A rule of the table.
#[derive(Debug, Clone)]
pub struct Rule {
    pub lhs: usize,
    pub expansion: Expansion,
    pub cost: u64,
}

#[derive(Debug, Clone, Copy)]
pub enum Expansion {
    Pair { left: usize, right: usize },
    Leaf { code: usize },
}

/// A deterministic automaton: for each state and code the next state.
#[derive(Debug, Clone)]
pub struct Automaton {
    pub states: usize,
    pub codes: usize,
    pub start: usize,
    pub accepting: Vec<bool>,
    pub steps: Vec<Vec<usize>>,
}

/// A job without a fault.
#[derive(Debug)]
pub struct Job {
    pub nonterminals: usize,
    pub codes: usize,
    pub start: usize,
    pub rules: Vec<Rule>,
    pub bans: Vec<usize>,
    pub automaton: Option<Automaton>,
    /// For each recorder code the code it is read as, if any.
    pub readings: Option<Vec<Option<usize>>>,
    pub entries: Vec<u32>,
}

impl Job {
    /// The automaton of the job, or the one that lets everything through.
    pub fn automaton_or_all(&self) -> Automaton {
        match &self.automaton {
            Some(automaton) => automaton.clone(),
            None => staying(1, self.codes, 0, 1),
        }
    }

    /// How many codes an entry can have.
    pub fn topmost_codes(&self) -> usize {
        match &self.readings {
            Some(readings) => readings.len(),
            None => self.codes,
        }
    }

    /// The slots that a chart of so many entries takes.
    fn slots(&self, entries: usize) -> usize {
        let states = self
            .automaton
            .as_ref()
            .map_or(1, |automaton| automaton.states);
        entries * (entries + 1) / 2 * self.nonterminals * states * states
    }
}

/// An automaton that stays in each state on each code.
fn staying(states: usize, codes: usize, start: usize, accepting: usize) -> Automaton {
    Automaton {
        states,
        codes,
        start,
        accepting: (0..states)
            .map(|state| accepting >> state & 1 == 1)
            .collect(),
        steps: (0..states).map(|state| vec![state; codes]).collect(),
    }
}

/// How many bytes of operands a command has; none if the byte is no command's.
fn operand_bytes(command: u8) -> Option<usize> {
    match command {
        0x01 => Some(3),
        0x02 => Some(5),
        0x03 => Some(4),
        0x04 => Some(2),
        0x05 => Some(4),
        0x06 => Some(3),
        0x07 => Some(1),
        0x08 => Some(2),
        0x0A => Some(4),
        0x0B => Some(0),
        _ => None,
    }
}

/// Whether the command may come after what came so far.
fn may_come(command: u8, so_far: &Option<Job>) -> bool {
    let job = match so_far {
        None => return command == 0x01,
        Some(job) => job,
    };
    if !job.entries.is_empty() && command != 0x0A && command != 0x0B {
        return false;
    }
    match command {
        0x01 => false,
        0x05 => job.automaton.is_none(),
        0x06 => job.automaton.is_some(),
        0x07 => job.readings.is_none(),
        0x08 => job.readings.is_some(),
        _ => true,
    }
}

/// An operand of several bytes, the high byte first.
fn number(bytes: &[u8]) -> usize {
    bytes.iter().fold(0, |sum, byte| sum * 256 + *byte as usize)
}

const BAD_JOB: u32 = 16;

pub fn read(bytes: &[u8]) -> Result<Job, Fault> {
    if bytes.len() > 4096 {
        return Err(Fault {
            number: BAD_JOB,
            place: 4096,
        });
    }
    let mut so_far: Option<Job> = None;
    let mut place = 0;
    loop {
        // The bytes stop and the end did not come: the place is their number.
        let fault = |number| Err(Fault { number, place });
        let Some(&command) = bytes.get(place) else {
            return fault(BAD_JOB);
        };
        let Some(width) = operand_bytes(command) else {
            return fault(BAD_JOB);
        };
        if !may_come(command, &so_far) {
            return fault(BAD_JOB);
        }
        let next = place + 1 + width;
        let Some(operands) = bytes.get(place + 1..next) else {
            return fault(BAD_JOB);
        };
        if command == 0x0B {
            if next < bytes.len() {
                return Err(Fault {
                    number: BAD_JOB,
                    place: next,
                });
            }
            return Ok(so_far.expect("the end does not come first"));
        }
        let taken = match so_far.as_mut() {
            None => declare(operands).map(|job| so_far = Some(job)),
            Some(job) => take(job, command, operands),
        };
        if let Err(number) = taken {
            return fault(number);
        }
        place = next;
    }
}

/// Command 01.
fn declare(operands: &[u8]) -> Result<Job, u32> {
    let [nonterminals, codes, start] = [0, 1, 2].map(|at| operands[at] as usize);
    let in_range = 1..=32;
    if !in_range.contains(&nonterminals) || !in_range.contains(&codes) || start >= nonterminals {
        return Err(1);
    }
    Ok(Job {
        nonterminals,
        codes,
        start,
        rules: Vec::new(),
        bans: Vec::new(),
        automaton: None,
        readings: None,
        entries: Vec::new(),
    })
}

/// Every other command but the end. An error is the number of the refusal.
fn take(job: &mut Job, command: u8, operands: &[u8]) -> Result<(), u32> {
    let one = |at: usize| operands[at] as usize;
    match command {
        0x02 => {
            let (lhs, left, right) = (one(0), one(1), one(2));
            if lhs >= job.nonterminals || left >= job.nonterminals || right >= job.nonterminals {
                return Err(2);
            }
            add_rule(
                job,
                lhs,
                Expansion::Pair { left, right },
                number(&operands[3..5]),
            )
        }
        0x03 => {
            let (lhs, code) = (one(0), one(1));
            if lhs >= job.nonterminals || code >= job.codes {
                return Err(2);
            }
            add_rule(job, lhs, Expansion::Leaf { code }, number(&operands[2..4]))
        }
        0x04 => {
            if job.bans.len() == 16 {
                return Err(6);
            }
            job.bans.push(number(operands));
            Ok(())
        }
        0x05 => {
            let (states, codes, start, accepting) = (one(0), one(1), one(2), one(3));
            if states < 1 || states > 8 || codes < 1 || codes > 32 || start >= states {
                return Err(15);
            }
            if accepting >> states != 0 {
                return Err(15);
            }
            if codes < job.codes {
                return Err(4);
            }
            job.automaton = Some(staying(states, codes, start, accepting));
            Ok(())
        }
        0x06 => {
            let automaton = job.automaton.as_mut().expect("06 comes after 05");
            let (from, code, to) = (one(0), one(1), one(2));
            if from >= automaton.states || to >= automaton.states || code >= automaton.codes {
                return Err(15);
            }
            automaton.steps[from][code] = to;
            Ok(())
        }
        0x07 => {
            if one(0) < 1 || one(0) > 32 {
                return Err(15);
            }
            job.readings = Some(vec![None; one(0)]);
            Ok(())
        }
        0x08 => {
            let readings = job.readings.as_mut().expect("08 comes after 07");
            let (recorder, code) = (one(0), one(1));
            if recorder >= readings.len() || code >= 32 {
                return Err(15);
            }
            readings[recorder] = Some(code);
            Ok(())
        }
        0x0A => {
            let set = number(operands);
            if set == 0 || set >> job.topmost_codes() != 0 {
                return Err(7);
            }
            let length = job.entries.len() + 1;
            if length > 64 || job.slots(length) > 4096 {
                return Err(9);
            }
            job.entries.push(set as u32);
            Ok(())
        }
        _ => unreachable!("no such command is taken"),
    }
}

fn add_rule(job: &mut Job, lhs: usize, expansion: Expansion, cost: usize) -> Result<(), u32> {
    if job.rules.len() == 256 {
        return Err(3);
    }
    job.rules.push(Rule {
        lhs,
        expansion,
        cost: cost as u64,
    });
    Ok(())
}
