//! Makes jobs: whole and damaged ones, of every shape.
//!
//! The kinds are listed in `KINDS`, each with how many of it one round has and
//! the function that makes the i-th of them. A round has 400 jobs. The same
//! index and seed always make the same job; another seed or another round
//! makes others of the same kinds.

use crate::derive;
use crate::job;

/// A job before it is written: a list of commands, each with its operands.
type Commands = Vec<Vec<u8>>;

/// A small generator of numbers that look random (the mixing of SplitMix64).
pub struct Dice(u64);

impl Dice {
    fn next(&mut self) -> u64 {
        self.0 = self.0.wrapping_add(0x9E37_79B9_7F4A_7C15);
        let mut mixed = self.0;
        mixed = (mixed ^ (mixed >> 30)).wrapping_mul(0xBF58_476D_1CE4_E5B9);
        mixed = (mixed ^ (mixed >> 27)).wrapping_mul(0x94D0_49BB_1331_11EB);
        mixed ^ (mixed >> 31)
    }
    /// A number below `bound`.
    fn below(&mut self, bound: usize) -> usize {
        (self.next() % bound as u64) as usize
    }
    /// A number from `least` to `most`.
    fn from(&mut self, least: usize, most: usize) -> usize {
        least + self.below(most - least + 1)
    }
    /// Yes, `part` times of `whole`.
    fn chance(&mut self, part: usize, whole: usize) -> bool {
        self.below(whole) < part
    }
}

const KINDS: &[(&str, usize, fn(&mut Dice, usize) -> Vec<u8>)] = &[
    // Whole jobs.
    ("example", 1, example),
    ("table only", 18, table_only),
    ("bans that matter", 14, bans_that_matter),
    ("automaton", 20, with_automaton),
    ("renaming", 10, with_renaming),
    ("codes read alike", 10, read_alike),
    ("all layers", 36, all_layers),
    ("ties in rule", 12, rule_ties),
    ("ties in cut", 8, cut_ties),
    ("ties in start", 10, start_ties),
    ("lower rule, later cut", 6, rule_before_cut),
    ("automaton accepts nothing", 6, accepts_nothing),
    ("no entries or no rules", 6, nothing_there),
    ("counts at the cap", 8, capped),
    ("64 entries", 5, longest),
    ("high bytes", 5, high_bytes),
    ("as many entries as slots allow", 14, slots_filled),
    ("256 rules", 1, full_table),
    ("16 bans", 3, sixteen_bans),
    ("4096 bytes", 1, longest_job),
    // Faults at their edges.
    ("fault 1 and its edge", 10, bad_grammar),
    ("fault 2 and its edge", 8, undeclared),
    ("fault 3", 4, too_many_rules),
    ("fault 4 and its edge", 4, few_codes),
    ("fault 6", 3, too_many_bans),
    ("fault 7 and its edge", 10, bad_entry),
    ("fault 9 by entries", 2, too_many_entries),
    ("fault 9 by slots", 14, slots_passed),
    ("fault 15 and its edge", 22, out_of_range),
    ("fault 16, empty or cut", 48, cut),
    ("fault 16, no such command", 10, no_command),
    ("fault 16, order", 24, order),
    ("fault 16, no end", 4, no_end),
    ("fault 16, bytes after the end", 6, after_end),
    ("fault 16, over 4096 bytes", 2, too_long),
    ("two faults", 8, two_faults),
    ("damaged at random", 27, damaged),
];

/// The kind and the bytes of the job with this index.
pub fn job(index: usize, seed: u64) -> (&'static str, Vec<u8>) {
    let round: usize = KINDS.iter().map(|kind| kind.1).sum();
    assert!(round == 400);
    // Steps of 149 reach each place of the round once and mix the kinds.
    let mut place = index * 149 % round;
    let mut dice = Dice(seed.wrapping_mul(1_000_003).wrapping_add(index as u64));
    dice.next();
    for (name, many, make) in KINDS {
        if place < *many {
            return (name, make(&mut dice, place));
        }
        place -= many;
    }
    unreachable!("the place lies in the round")
}

// The commands.

fn grammar(nonterminals: usize, codes: usize, start: usize) -> Vec<u8> {
    vec![0x01, nonterminals as u8, codes as u8, start as u8]
}
fn pair(lhs: usize, left: usize, right: usize, cost: usize) -> Vec<u8> {
    vec![
        0x02,
        lhs as u8,
        left as u8,
        right as u8,
        (cost >> 8) as u8,
        cost as u8,
    ]
}
fn leaf(lhs: usize, code: usize, cost: usize) -> Vec<u8> {
    vec![0x03, lhs as u8, code as u8, (cost >> 8) as u8, cost as u8]
}
fn ban(number: usize) -> Vec<u8> {
    vec![0x04, (number >> 8) as u8, number as u8]
}
fn automaton(states: usize, codes: usize, start: usize, accepting: usize) -> Vec<u8> {
    vec![
        0x05,
        states as u8,
        codes as u8,
        start as u8,
        accepting as u8,
    ]
}
fn step(from: usize, code: usize, to: usize) -> Vec<u8> {
    vec![0x06, from as u8, code as u8, to as u8]
}
fn renaming(count: usize) -> Vec<u8> {
    vec![0x07, count as u8]
}
fn read_as(recorder: usize, code: usize) -> Vec<u8> {
    vec![0x08, recorder as u8, code as u8]
}
fn entry(set: usize) -> Vec<u8> {
    vec![
        0x0A,
        (set >> 24) as u8,
        (set >> 16) as u8,
        (set >> 8) as u8,
        set as u8,
    ]
}
fn end() -> Vec<u8> {
    vec![0x0B]
}

// Building blocks.

/// A set of codes below `codes` that is not empty.
fn some_set(dice: &mut Dice, codes: usize) -> usize {
    let all = (1usize << codes) - 1;
    let set = dice.next() as usize & all;
    if set != 0 {
        set
    } else {
        1 << dice.below(codes)
    }
}

/// A cost: `style` says whether costs are alike, small, or anything.
fn some_cost(dice: &mut Dice, style: usize) -> usize {
    match style {
        0 => 1,
        1 => dice.below(3),
        2 => dice.below(300),
        _ => [0, 1, 255, 256, 65535, 40000, 65534][dice.below(7)],
    }
}

/// Which layers a job has, beside the table.
#[derive(Clone, Copy)]
struct Layers {
    bans: bool,
    automaton: bool,
    renaming: bool,
}

/// A small whole job with these layers.
fn small(dice: &mut Dice, layers: Layers) -> Commands {
    let nonterminals = dice.from(1, 4);
    let codes = dice.from(1, 4);
    let style = dice.below(4);

    let mut rules = Vec::new();
    for lhs in 0..nonterminals {
        if dice.chance(4, 5) {
            let code = dice.below(codes);
            rules.push(leaf(lhs, code, some_cost(dice, style)));
        }
        if dice.chance(4, 5) {
            let (left, right) = (dice.below(nonterminals), dice.below(nonterminals));
            rules.push(pair(lhs, left, right, some_cost(dice, style)));
        }
    }
    for _ in 0..dice.below(7) {
        let (lhs, left, right) = (
            dice.below(nonterminals),
            dice.below(nonterminals),
            dice.below(nonterminals),
        );
        let code = dice.below(codes);
        let cost = some_cost(dice, style);
        rules.push(if dice.chance(1, 2) {
            pair(lhs, left, right, cost)
        } else {
            leaf(lhs, code, cost)
        });
    }
    shuffle(dice, &mut rules);

    let mut streams = vec![rules.clone()];
    if layers.bans {
        let many = dice.from(1, 3);
        streams.push(
            (0..many)
                .map(|_| ban(dice.below(rules.len() + 2)))
                .collect(),
        );
    }
    let mut states = 1;
    if layers.automaton {
        states = dice.from(1, 4);
        let known = (codes + dice.below(3)).min(32);
        let accepting = some_set(dice, states);
        let mut stream = vec![automaton(states, known, dice.below(states), accepting)];
        for _ in 0..dice.below(states * known + 3) {
            stream.push(step(
                dice.below(states),
                dice.below(known),
                dice.below(states),
            ));
        }
        streams.push(stream);
    }
    let mut topmost = codes;
    if layers.renaming {
        topmost = dice.from(1, 6);
        let mut stream = vec![renaming(topmost)];
        for recorder in 0..topmost {
            if dice.chance(5, 6) {
                let code = if dice.chance(1, 10) {
                    dice.below(32)
                } else {
                    dice.below(codes)
                };
                stream.push(read_as(recorder, code));
            }
        }
        streams.push(stream);
    }

    let mut commands = vec![grammar(nonterminals, codes, dice.below(nonterminals))];
    commands.extend(merge(dice, streams));
    let most = room(nonterminals * states * states).min(7);
    for _ in 0..dice.from(1, most) {
        commands.push(entry(some_set(dice, topmost)));
    }
    commands.push(end());
    commands
}

/// The same, tried a few times until it has a derivation.
fn readable(dice: &mut Dice, layers: Layers) -> Commands {
    for _ in 0..20 {
        let commands = small(dice, layers);
        if tree_rules(&commands).is_some() {
            return commands;
        }
    }
    small(dice, layers)
}

/// The table's rules in the cheapest tree of a job, if there is one.
fn tree_rules(commands: &Commands) -> Option<Vec<usize>> {
    let job = job::read(&commands.concat()).expect("a whole job");
    Some(
        derive::read(&job)?
            .nodes
            .iter()
            .map(|node| node.bottom)
            .collect(),
    )
}

fn shuffle(dice: &mut Dice, commands: &mut Commands) {
    for at in (1..commands.len()).rev() {
        commands.swap(at, dice.below(at + 1));
    }
}

/// One list out of several, each of which keeps its order.
fn merge(dice: &mut Dice, streams: Vec<Commands>) -> Commands {
    let mut waiting: Vec<std::vec::IntoIter<Vec<u8>>> = streams
        .into_iter()
        .map(|stream| stream.into_iter())
        .collect();
    let mut merged = Vec::new();
    while !waiting.is_empty() {
        let at = dice.below(waiting.len());
        match waiting[at].next() {
            Some(command) => merged.push(command),
            None => drop(waiting.remove(at)),
        }
    }
    merged
}

/// How many entries a chart over so many nonterminals can hold.
fn room(nonterminals: usize) -> usize {
    (1..=64)
        .filter(|length| length * (length + 1) / 2 * nonterminals <= 4096)
        .max()
        .expect("one entry always fits")
}

// Whole jobs.

fn example(_: &mut Dice, _: usize) -> Vec<u8> {
    [
        grammar(1, 2, 0),
        pair(0, 0, 0, 1),
        leaf(0, 0, 2),
        leaf(0, 1, 3),
        automaton(2, 2, 0, 2),
        step(0, 1, 1),
        entry(3),
        entry(3),
        end(),
    ]
    .concat()
}

fn table_only(dice: &mut Dice, index: usize) -> Vec<u8> {
    let layers = Layers {
        bans: false,
        automaton: false,
        renaming: false,
    };
    if index % 6 == 5 {
        small(dice, layers)
    } else {
        readable(dice, layers)
    }
    .concat()
}

/// A readable job in which a rule of its cheapest tree is then banned.
fn bans_that_matter(dice: &mut Dice, index: usize) -> Vec<u8> {
    let layers = Layers {
        bans: false,
        automaton: index % 3 == 1,
        renaming: index % 3 == 2,
    };
    let mut banned = Vec::new();
    // Mostly a ban after which something is left.
    for _ in 0..20 {
        banned = readable(dice, layers);
        let Some(rules) = tree_rules(&banned) else {
            continue;
        };
        let at = dice.from(1, 2);
        banned.insert(at, ban(rules[dice.below(rules.len())]));
        if index % 7 == 6 || tree_rules(&banned).is_some() {
            break;
        }
    }
    banned.concat()
}

fn with_automaton(dice: &mut Dice, index: usize) -> Vec<u8> {
    let layers = Layers {
        bans: false,
        automaton: true,
        renaming: false,
    };
    if index % 5 == 4 {
        small(dice, layers)
    } else {
        readable(dice, layers)
    }
    .concat()
}

fn with_renaming(dice: &mut Dice, index: usize) -> Vec<u8> {
    let layers = Layers {
        bans: false,
        automaton: false,
        renaming: true,
    };
    if index % 5 == 4 {
        small(dice, layers)
    } else {
        readable(dice, layers)
    }
    .concat()
}

/// Recorder codes that are read as the same code, together in the entries.
fn read_alike(dice: &mut Dice, index: usize) -> Vec<u8> {
    let codes = dice.from(1, 2);
    let mut commands = vec![grammar(1, codes, 0)];
    commands.push(pair(0, 0, 0, dice.below(2)));
    for code in 0..codes {
        commands.push(leaf(0, code, dice.below(3)));
    }
    if index % 2 == 1 {
        commands.push(automaton(2, codes, 0, dice.from(1, 3)));
        commands.push(step(0, codes - 1, 1));
        commands.push(step(1, codes - 1, 0));
    }
    let count = [2, 3, 5, 32][dice.below(4)];
    commands.push(renaming(count));
    for recorder in 0..count {
        commands.push(read_as(recorder, dice.below(codes)));
    }
    for _ in 0..dice.from(1, 5) {
        let set = some_set(dice, count) | 3;
        commands.push(entry(set));
    }
    commands.push(end());
    commands.concat()
}

fn all_layers(dice: &mut Dice, index: usize) -> Vec<u8> {
    let layers = Layers {
        bans: true,
        automaton: true,
        renaming: true,
    };
    if index % 5 == 4 {
        small(dice, layers)
    } else {
        readable(dice, layers)
    }
    .concat()
}

/// Rules of one shape and one cost, and rules that tie otherwise.
fn rule_ties(dice: &mut Dice, index: usize) -> Vec<u8> {
    let nonterminals = dice.from(1, 3);
    let mut rules = Vec::new();
    for _ in 0..2 {
        for lhs in 0..nonterminals {
            rules.push(leaf(lhs, 0, 1));
            rules.push(pair(
                lhs,
                dice.below(nonterminals),
                dice.below(nonterminals),
                1,
            ));
        }
    }
    rules.push(leaf(0, 1, 1));
    rules.push(pair(0, 0, 0, 1));
    shuffle(dice, &mut rules);
    let mut commands = vec![grammar(nonterminals, 2, 0)];
    commands.extend(rules);
    if index % 3 == 1 {
        commands.push(ban(dice.below(5)));
    }
    if index % 3 == 2 {
        commands.push(renaming(3));
        commands.extend([read_as(0, 1), read_as(1, 0), read_as(2, 0)]);
    }
    for _ in 0..dice.from(2, 5) {
        commands.push(entry(some_set(dice, 2)));
    }
    commands.push(end());
    commands.concat()
}

/// One rule whose cuts all cost the same, or cost the same in part.
fn cut_ties(dice: &mut Dice, index: usize) -> Vec<u8> {
    let mut commands = vec![grammar(2, 2, 0)];
    commands.push(pair(0, 0, 0, dice.below(2)));
    commands.push(leaf(0, 0, 1));
    if index % 2 == 1 {
        // A chain to the left that costs as much as the rule above.
        commands.push(pair(0, 0, 1, dice.below(2)));
        commands.push(leaf(1, 0, 1));
        commands.push(leaf(1, 1, 0));
        commands.push(leaf(0, 1, 2));
    }
    for _ in 0..index + 2 {
        commands.push(entry(if index % 2 == 1 { some_set(dice, 2) } else { 1 }));
    }
    commands.push(end());
    commands.concat()
}

/// Several accepting states that are reached at one cost. The lowest state
/// decides, also where it takes a higher rule.
fn start_ties(dice: &mut Dice, index: usize) -> Vec<u8> {
    let states = dice.from(2, 3);
    let accepting = (1 << states) - 1;
    let mut commands = vec![grammar(1, states, 0)];
    commands.push(automaton(states, states, dice.below(states), accepting));
    for code in 0..states {
        commands.push(leaf(0, code, 1));
    }
    commands.push(pair(0, 0, 0, 1));
    for from in 0..states {
        for code in 0..states {
            // The lowest code leads to the highest state, or anywhere.
            let to = if index < 3 {
                states - 1 - code
            } else {
                dice.below(states)
            };
            commands.push(step(from, code, to));
        }
    }
    for _ in 0..dice.from(1, 4) {
        commands.push(entry(if index < 3 {
            (1 << states) - 1
        } else {
            some_set(dice, states)
        }));
    }
    commands.push(end());
    commands.concat()
}

/// An automaton that goes round: a lower rule number of the stack, by its
/// middle state, comes with a later cut.
fn rule_before_cut(dice: &mut Dice, index: usize) -> Vec<u8> {
    let states = dice.from(2, 3);
    let mut commands = vec![
        grammar(1, 1, 0),
        pair(0, 0, 0, 1),
        leaf(0, 0, dice.below(3)),
    ];
    let start = dice.below(states);
    commands.push(automaton(states, 1, start, (1 << states) - 1));
    for from in 0..states {
        commands.push(step(from, 0, (from + 1) % states));
    }
    for _ in 0..index + 3 {
        commands.push(entry(1));
    }
    commands.push(end());
    commands.concat()
}

/// No accepting state, or one that is never reached.
fn accepts_nothing(dice: &mut Dice, index: usize) -> Vec<u8> {
    let mut commands = vec![
        grammar(1, 2, 0),
        pair(0, 0, 0, 1),
        leaf(0, 0, 2),
        leaf(0, 1, 3),
    ];
    match index % 3 {
        0 => commands.push(automaton(dice.from(1, 8), 2, 0, 0)),
        1 => commands.push(automaton(2, 2, 0, 2)),
        _ => {
            // The accepting state is left on the last entry at the latest.
            commands.push(automaton(3, 2, 0, 2));
            commands.extend([step(0, 0, 1), step(0, 1, 1), step(1, 0, 2), step(1, 1, 2)]);
        }
    }
    for _ in 0..dice.from(2, 3) {
        commands.push(entry(some_set(dice, 2)));
    }
    commands.push(end());
    commands.concat()
}

fn nothing_there(dice: &mut Dice, index: usize) -> Vec<u8> {
    let one = vec![grammar(1, 1, 0)];
    let mut commands = match index {
        0 => one,
        1 => vec![grammar(32, 32, 31)],
        2 => vec![grammar(1, 1, 0), leaf(0, 0, 0)],
        3 => vec![
            grammar(2, 2, 1),
            automaton(2, 3, 1, 3),
            renaming(2),
            pair(0, 0, 1, 7),
        ],
        4 => vec![grammar(1, 1, 0), entry(1)],
        // All codes are read as nothing.
        _ => vec![
            grammar(1, 1, 0),
            leaf(0, 0, 0),
            renaming(3),
            entry(some_set(dice, 3)),
        ],
    };
    commands.push(end());
    commands.concat()
}

/// Counts just below 2^64 - 1, at it and above it.
fn capped(dice: &mut Dice, index: usize) -> Vec<u8> {
    let mut commands;
    match index {
        0..=3 => {
            // X begins a word in 4^k - 1 ways after k entries of code 0: four
            // times the ways before, and three. On code 1 the last step adds
            // 1, 2, 3 or 4 instead: 2^64 - 3 to 2^64.
            let (x, o, d, e, f) = (0, 1, 2, 3, 4);
            commands = vec![grammar(5, 2, x)];
            let mut rules = vec![
                pair(o, o, e, 0),
                leaf(o, 0, 0),
                leaf(e, 0, 0),
                leaf(f, 1, 0),
                pair(x, x, d, 1),
            ];
            for _ in 0..4 {
                rules.push(leaf(d, 0, 2));
                rules.push(leaf(d, 1, 3));
            }
            for _ in 0..3 {
                rules.push(pair(x, o, e, 9));
                rules.push(leaf(x, 0, 1));
            }
            for _ in 0..index + 1 {
                rules.push(pair(x, o, f, 70));
            }
            shuffle(dice, &mut rules);
            commands.extend(rules);
            commands.extend((0..31).map(|_| entry(1)));
            commands.push(entry(2));
        }
        4 | 5 => {
            // Products of powers of two: 2^63, and 2^64.
            commands = vec![grammar(2, 2, 0), pair(0, 1, 0, 1)];
            commands.extend((0..4).map(|_| leaf(1, 0, 1)));
            commands.extend((0..2).map(|_| leaf(0, 0, 1)));
            commands.extend((0..4).map(|_| leaf(0, 1, 1)));
            commands.extend((0..31).map(|_| entry(1)));
            commands.push(entry(if index == 4 { 1 } else { 2 }));
        }
        6 => {
            // Cells at the cap beside cells of zero.
            commands = vec![
                grammar(2, 1, 0),
                pair(0, 0, 0, 0),
                pair(0, 0, 1, 0),
                leaf(0, 0, 0),
                leaf(0, 0, 0),
            ];
            commands.extend((0..40).map(|_| entry(1)));
        }
        _ => {
            // Many starts, each with a large count.
            commands = vec![
                grammar(1, 2, 0),
                pair(0, 0, 0, 1),
                leaf(0, 0, 1),
                leaf(0, 1, 1),
            ];
            commands.push(automaton(2, 2, 0, 3));
            commands.push(step(0, 1, 1));
            commands.push(step(1, 1, 0));
            commands.extend((0..29).map(|_| entry(3)));
        }
    }
    commands.push(end());
    commands.concat()
}

/// Jobs of 64 entries.
fn longest(dice: &mut Dice, index: usize) -> Vec<u8> {
    let mut commands = vec![grammar(1, 4, 0)];
    match index {
        0 => commands.extend([pair(0, 0, 0, 65535), leaf(0, 0, 65535)]),
        1 => commands.extend([pair(0, 0, 0, 0), leaf(0, 0, 0), leaf(0, 1, 0)]),
        2 => {
            commands.extend([pair(0, 0, 0, 3), pair(0, 0, 0, 2)]);
            commands.extend((0..4).map(|code| leaf(0, code, dice.below(100))));
        }
        3 => {
            // A renaming in which one entry is read as nothing.
            commands.extend([
                pair(0, 0, 0, 1),
                leaf(0, 0, 1),
                renaming(3),
                read_as(0, 0),
                read_as(1, 0),
            ]);
        }
        _ => commands.extend([
            leaf(0, 2, 1),
            pair(0, 0, 0, 1),
            leaf(0, 0, 1),
            leaf(0, 1, 1),
            ban(0),
        ]),
    }
    for at in 0..64 {
        commands.push(entry(match index {
            0 | 1 => 1,
            3 => {
                if at == 40 && dice.chance(1, 2) {
                    4
                } else {
                    7
                }
            }
            4 => [1, 2, 3, 5, 7][dice.below(5)],
            _ => some_set(dice, 4),
        }));
    }
    commands.push(end());
    commands.concat()
}

/// Numbers of several bytes: costs, ban numbers and codes that need the high ones.
fn high_bytes(dice: &mut Dice, index: usize) -> Vec<u8> {
    let mut commands = vec![grammar(32, 32, 31)];
    match index {
        0 => {
            // 256 against 255, and 1 against 256.
            commands.extend([
                leaf(31, 0, 256),
                leaf(31, 1, 255),
                leaf(31, 2, 511),
                entry(7),
            ]);
        }
        1 => commands.extend([
            leaf(31, 31, 65535),
            leaf(31, 24, 65534),
            entry(1 << 31 | 1 << 24),
        ]),
        2 => {
            // A ban of 256 is no ban of 0 or 1.
            commands.extend([
                leaf(31, 8, 1),
                leaf(31, 8, 2),
                ban(256),
                ban(65535),
                entry(1 << 8),
            ]);
        }
        3 => {
            commands.extend([pair(31, 30, 29, 258), leaf(30, 16, 513), leaf(29, 23, 770)]);
            commands.extend([entry(1 << 16 | 1), entry(1 << 23 | 2)]);
        }
        _ => {
            commands.extend([leaf(31, 31, 5), leaf(31, 0, 6), renaming(32)]);
            commands.extend((0..32).map(|recorder| read_as(recorder, 31 - recorder)));
            commands.push(entry(1 << dice.below(32) | 1 << 31));
        }
    }
    commands.push(end());
    commands.concat()
}

/// Pairs of nonterminals and states whose charts have different room.
const SIZES: [(usize, usize); 14] = [
    (1, 1),
    (2, 1),
    (3, 1),
    (5, 1),
    (8, 1),
    (32, 1),
    (1, 2),
    (7, 2),
    (4, 3),
    (32, 2),
    (1, 8),
    (2, 8),
    (16, 8),
    (32, 8),
];

/// A small table under so many states, with so many entries.
fn sized(dice: &mut Dice, nonterminals: usize, states: usize, entries: usize) -> Commands {
    let last = nonterminals - 1;
    let mut commands = vec![grammar(nonterminals, 2, last)];
    commands.push(leaf(last, 0, 1));
    commands.push(leaf(last, 1, dice.below(3)));
    commands.push(pair(last, last, last, 1));
    commands.push(pair(last, last, 0, dice.below(3)));
    commands.push(leaf(0, 0, dice.below(2)));
    if states > 1 {
        commands.push(automaton(
            states,
            2,
            dice.below(states),
            255 >> (8 - states),
        ));
        for from in 0..states {
            commands.push(step(from, 1, dice.below(states)));
        }
    }
    commands.extend((0..entries).map(|_| entry(some_set(dice, 2))));
    commands.push(end());
    commands
}

fn slots_filled(dice: &mut Dice, index: usize) -> Vec<u8> {
    let (nonterminals, states) = SIZES[index];
    sized(
        dice,
        nonterminals,
        states,
        room(nonterminals * states * states),
    )
    .concat()
}

fn full_table(dice: &mut Dice, _: usize) -> Vec<u8> {
    rows(dice, 256).concat()
}

/// A job with so many rules.
fn rows(dice: &mut Dice, many: usize) -> Commands {
    let mut commands = vec![grammar(4, 8, 0)];
    for _ in 0..many {
        let lhs = dice.below(4);
        commands.push(if dice.chance(1, 8) {
            pair(lhs, dice.below(4), dice.below(4), dice.below(9))
        } else {
            leaf(lhs, dice.below(8), dice.below(9))
        });
    }
    commands.extend((0..3).map(|_| entry(some_set(dice, 8))));
    commands.push(end());
    commands
}

/// A job with so many bans; most name no rule.
fn with_bans(dice: &mut Dice, index: usize, many: usize) -> Commands {
    let mut commands = vec![grammar(1, 1, 0)];
    commands.extend((0..4).map(|cost| leaf(0, 0, cost)));
    for at in 0..many {
        commands.push(ban(match index {
            // All alike; all out of range; the last is the only one that matters.
            0 => 2,
            1 => 4 + dice.below(60000),
            _ => {
                if at == 15 {
                    0
                } else {
                    9
                }
            }
        }));
    }
    commands.extend([entry(1), end()]);
    commands
}

fn sixteen_bans(dice: &mut Dice, index: usize) -> Vec<u8> {
    with_bans(dice, index, 16).concat()
}

/// A whole job of so many bytes, which are filled by steps and readings.
fn of_bytes(dice: &mut Dice, bytes: usize) -> Vec<u8> {
    let mut commands = vec![
        grammar(2, 3, 0),
        pair(0, 0, 1, 1),
        leaf(0, 0, 2),
        leaf(1, 1, 3),
        leaf(1, 2, 3),
    ];
    commands.extend([automaton(3, 4, 1, 5), renaming(5)]);
    let tail = vec![entry(some_set(dice, 5)), entry(31), entry(31), end()].concat();
    let mut job = commands.concat();
    while job.len() + tail.len() < bytes {
        let rest = bytes - job.len() - tail.len();
        // Steps take 4 bytes and readings 3; from 6 on every rest can be met.
        let by_step = match rest {
            4 | 8 => true,
            3 | 6 | 9 => false,
            7 => true,
            _ => dice.chance(1, 2),
        };
        job.extend(if by_step {
            step(dice.below(3), dice.below(4), dice.below(3))
        } else {
            read_as(dice.below(5), dice.below(3))
        });
    }
    job.extend(tail);
    assert!(job.len() == bytes);
    job
}

fn longest_job(dice: &mut Dice, _: usize) -> Vec<u8> {
    let readable =
        |bytes: &Vec<u8>| derive::read(&job::read(bytes).expect("a whole job")).is_some();
    (0..50)
        .map(|_| of_bytes(dice, 4096))
        .find(readable)
        .expect("one of them has a derivation")
}

// Faults.

fn bad_grammar(dice: &mut Dice, index: usize) -> Vec<u8> {
    let first = match index {
        0 => grammar(0, 1, 0),
        1 => grammar(33, 1, 0),
        2 => grammar(1, 0, 0),
        3 => grammar(1, 33, 0),
        4 => {
            let nonterminals = dice.from(1, 32);
            grammar(nonterminals, 1, nonterminals)
        }
        5 => grammar(255, 255, 255),
        6 => grammar(32, 32, 32),
        7 => grammar(dice.below(256), dice.below(256), dice.below(256)),
        // These two are in range.
        8 => grammar(32, 32, 31),
        _ => grammar(1, 1, 0),
    };
    vec![first, leaf(0, 0, 4), entry(1), end()].concat()
}

fn undeclared(dice: &mut Dice, index: usize) -> Vec<u8> {
    let nonterminals = dice.from(1, 5);
    let codes = dice.from(1, 5);
    let last = nonterminals - 1;
    let mut commands = vec![
        grammar(nonterminals, codes, 0),
        leaf(last, codes - 1, 0),
        pair(last, last, last, 1),
    ];
    commands.push(match index {
        0 => pair(nonterminals, 0, 0, 0),
        1 => pair(0, nonterminals, 0, 0),
        2 => pair(0, 0, nonterminals, 0),
        3 => leaf(nonterminals, 0, 0),
        4 => leaf(0, codes, 0),
        5 => leaf(255, 255, 65535),
        6 => pair(last, 0, last, 65535),
        _ => leaf(0, codes - 1, 0),
    });
    commands.extend([entry(1 << (codes - 1)), end()]);
    commands.concat()
}

/// A 257th rule, of either shape; and ones that also name what is not declared.
fn too_many_rules(dice: &mut Dice, index: usize) -> Vec<u8> {
    let mut commands = rows(dice, 257);
    commands[257] = match index {
        0 => pair(3, 3, 3, 0),
        1 => leaf(3, 7, 0),
        2 => pair(0, 4, 0, 0),
        _ => leaf(0, 8, 0),
    };
    commands.concat()
}

fn few_codes(dice: &mut Dice, index: usize) -> Vec<u8> {
    let codes = dice.from(2, 32);
    let mut commands = vec![grammar(1, codes, 0), leaf(0, codes - 1, 1)];
    commands.push(match index {
        0 => automaton(1, codes - 1, 0, 1),
        1 => automaton(8, 1, 7, 255),
        2 => automaton(1, codes, 0, 1),
        // Out of range comes before too few.
        _ => automaton(2, codes - 1, 2, 1),
    });
    commands.extend([entry(1 << (codes - 1)), end()]);
    commands.concat()
}

fn too_many_bans(dice: &mut Dice, index: usize) -> Vec<u8> {
    with_bans(dice, index, 17).concat()
}

fn bad_entry(dice: &mut Dice, index: usize) -> Vec<u8> {
    let codes = dice.from(2, 30);
    let mut commands = vec![
        grammar(1, codes, 0),
        pair(0, 0, 0, 1),
        leaf(0, 0, 1),
        leaf(0, codes - 1, 2),
    ];
    let all = (1 << codes) - 1;
    match index {
        0 => commands.push(entry(0)),
        1 => commands.push(entry(1 << codes)),
        2 => commands.push(entry(all + 1 + (1 << codes))),
        3 => commands.push(entry(all)),
        4 => commands.extend([entry(1), entry(1), entry(0)]),
        // A renaming has more codes, or fewer, than the table.
        5 => commands.extend([renaming(codes + 1), read_as(codes, 0), entry(1 << codes)]),
        6 => commands.extend([
            renaming(codes - 1),
            read_as(0, 0),
            entry(1 << (codes - 1) | 1),
        ]),
        7 => commands.extend([renaming(codes + 1), entry(1 << (codes + 1))]),
        // An automaton has more codes than the table, an entry has not.
        8 => commands.extend([automaton(1, codes + 1, 0, 1), entry(1 << codes)]),
        _ => commands.push(entry(0xFFFF_FFFF)),
    }
    commands.push(end());
    commands.concat()
}

/// A 65th entry; and one that is empty besides.
fn too_many_entries(dice: &mut Dice, index: usize) -> Vec<u8> {
    let mut commands = sized(dice, 1, 1, 65);
    if index == 1 {
        let at = commands.len() - 2;
        commands[at] = entry(0);
    }
    commands.concat()
}

fn slots_passed(dice: &mut Dice, index: usize) -> Vec<u8> {
    let (nonterminals, states) = SIZES[index];
    sized(
        dice,
        nonterminals,
        states,
        room(nonterminals * states * states) + 1,
    )
    .concat()
}

fn out_of_range(dice: &mut Dice, index: usize) -> Vec<u8> {
    let mut commands = vec![
        grammar(1, 2, 0),
        pair(0, 0, 0, 1),
        leaf(0, 0, 1),
        leaf(0, 1, 1),
    ];
    let states = dice.from(1, 7);
    let known = dice.from(2, 32);
    let count = dice.from(2, 31);
    match index {
        0 => commands.push(automaton(0, 2, 0, 0)),
        1 => commands.push(automaton(9, 2, 0, 0)),
        2 => commands.push(automaton(1, 0, 0, 1)),
        3 => commands.push(automaton(1, 33, 0, 1)),
        4 => commands.push(automaton(states, 2, states, 1)),
        5 => commands.push(automaton(states, 2, 0, 1 << states)),
        6 => commands.push(automaton(states, 2, 0, 0x80)),
        7 => commands.push(automaton(8, 32, 7, 0x80)),
        8 => commands.push(automaton(255, 255, 255, 255)),
        9 => commands.extend([automaton(states, known, 0, 1), step(states, 0, 0)]),
        10 => commands.extend([automaton(states, known, 0, 1), step(0, known, 0)]),
        11 => commands.extend([automaton(states, known, 0, 1), step(0, 0, states)]),
        12 => commands.extend([
            automaton(states, known, 0, 1),
            step(states - 1, known - 1, states - 1),
        ]),
        13 => commands.push(renaming(0)),
        14 => commands.push(renaming(33)),
        15 => commands.extend([renaming(32), read_as(31, 31)]),
        16 => commands.extend([renaming(count), read_as(count, 0)]),
        17 => commands.extend([renaming(count), read_as(0, 32)]),
        18 => commands.extend([renaming(count), read_as(count - 1, 31), read_as(1, 1)]),
        // All eight states: a step in range, and one out of it.
        19 => commands.extend([automaton(8, 2, 7, 255), step(7, 1, 0)]),
        20 => commands.extend([automaton(8, 2, 7, 255), step(8, 2, 8)]),
        _ => commands.push(renaming(255)),
    }
    commands.extend([entry(3), end()]);
    commands.concat()
}

/// A job of 48 bytes with each command in it.
fn each_command(dice: &mut Dice) -> Commands {
    let mut commands = vec![grammar(1, 2, 0), pair(0, 0, 0, dice.below(9))];
    commands.extend([
        leaf(0, 0, dice.below(9)),
        leaf(0, 1, dice.below(9)),
        ban(dice.below(6)),
    ]);
    commands.extend([automaton(2, 2, 0, dice.from(1, 3)), step(0, 1, 1)]);
    commands.extend([renaming(2), read_as(0, dice.below(2))]);
    commands.extend([entry(dice.from(1, 3)), entry(dice.from(1, 3)), end()]);
    commands
}

/// The same, with so many of its bytes left; the first of these is empty.
fn cut(dice: &mut Dice, index: usize) -> Vec<u8> {
    let whole = each_command(dice).concat();
    assert!(whole.len() == 48);
    whole[..index].to_vec()
}

fn no_command(dice: &mut Dice, index: usize) -> Vec<u8> {
    let mut commands = each_command(dice);
    let byte = [0x00, 0x09, 0x0C, 0xFF, 0x10, 0x80, 0x81, 0x0D, 0x20, 0x8B][index];
    let at = dice.below(commands.len());
    if index % 2 == 0 {
        commands.insert(at, vec![byte]);
    } else {
        commands[at][0] = byte;
    }
    commands.concat()
}

fn order(dice: &mut Dice, index: usize) -> Vec<u8> {
    let whole = each_command(dice);
    let first = whole[0].clone();
    let rule = leaf(0, 0, 1);
    let (five, six) = (automaton(2, 2, 0, 3), step(0, 0, 1));
    let (seven, eight) = (renaming(2), read_as(0, 0));
    let mut commands = match index {
        // Something else comes first.
        0 => vec![rule, first],
        1 => vec![end()],
        2 => vec![entry(1), first],
        3 => vec![five, first],
        4 => vec![ban(0), first],
        5 => vec![seven, first],
        // 01 comes again.
        6 => vec![first.clone(), first],
        7 => vec![first.clone(), rule, entry(1), first],
        8 => vec![first, grammar(0, 0, 0)],
        // 06 without 05, 08 without 07.
        9 => vec![first, six, five],
        10 => vec![first, eight, seven],
        11 => vec![first, seven, six],
        12 => vec![first, five, eight],
        // 05 or 07 comes again.
        13 => vec![first, five.clone(), rule, five],
        14 => vec![first, seven.clone(), rule, seven],
        15 => vec![first, five, automaton(0, 0, 0, 0)],
        16 => vec![first, seven, renaming(0)],
        // Anything but entries and the end after an entry.
        17 => vec![first, rule, entry(1), pair(0, 0, 0, 0)],
        18 => vec![first, rule.clone(), entry(1), rule],
        19 => vec![first, rule, entry(1), ban(0)],
        20 => vec![first, rule, entry(1), five],
        21 => vec![first, rule, five, entry(1), six],
        22 => vec![first, rule, entry(1), seven],
        _ => vec![first, rule, seven, entry(1), eight],
    };
    commands.extend([entry(1), end()]);
    commands.concat()
}

/// Whole commands, but no end.
fn no_end(dice: &mut Dice, index: usize) -> Vec<u8> {
    let mut commands = each_command(dice);
    let left = [1, 4, 10, 11][index];
    commands.truncate(left);
    commands.concat()
}

fn after_end(dice: &mut Dice, index: usize) -> Vec<u8> {
    let mut commands = each_command(dice);
    match index {
        0 => commands.push(end()),
        1 => commands.push(vec![0x00]),
        2 => commands.push(entry(1)),
        3 => commands.push(vec![0x0A]),
        4 => commands.push(each_command(dice).concat()),
        _ => commands.push(vec![dice.below(256) as u8; 5]),
    }
    commands.concat()
}

/// 4,097 bytes: a whole job and one byte, and a job that is faulted earlier too.
fn too_long(dice: &mut Dice, index: usize) -> Vec<u8> {
    if index == 0 {
        let mut job = of_bytes(dice, 4096);
        job.push(0x0B);
        job
    } else {
        let mut job = of_bytes(dice, 4097);
        job[1] = 0;
        job
    }
}

/// Two things are wrong: the earlier command is named, and of one command's
/// tests the earlier.
fn two_faults(dice: &mut Dice, index: usize) -> Vec<u8> {
    match index {
        0 => vec![grammar(0, 1, 0), vec![0xFF]].concat(),
        1 => vec![0x01, 0x00],
        2 => vec![grammar(1, 1, 0), leaf(1, 0, 0), entry(0)].concat(),
        3 => vec![grammar(1, 1, 0), entry(2), leaf(0, 0, 0), end()].concat(),
        4 => vec![grammar(1, 1, 0), entry(1), leaf(1, 1, 0)].concat(),
        5 => vec![grammar(1, 3, 0), automaton(9, 2, 0, 0), end(), end()].concat(),
        // Too few slots, but the entry is bad in itself.
        6 => {
            let mut commands = sized(dice, 32, 8, 2);
            let at = commands.len() - 2;
            commands[at] = entry(4);
            commands.concat()
        }
        _ => {
            let mut commands = with_bans(dice, 1, 17);
            commands.pop();
            commands.concat()
        }
    }
}

/// A whole job with one or two changes of bytes or commands.
fn damaged(dice: &mut Dice, _: usize) -> Vec<u8> {
    let layers = Layers {
        bans: dice.chance(1, 2),
        automaton: dice.chance(2, 3),
        renaming: dice.chance(1, 2),
    };
    let mut commands = small(dice, layers);
    let many = commands.len();
    match dice.below(4) {
        0 => commands.swap(dice.below(many), dice.below(many)),
        1 => drop(commands.remove(dice.below(many))),
        2 => {
            let again = commands[dice.below(many)].clone();
            commands.insert(dice.below(many), again);
        }
        _ => (),
    }
    let mut bytes = commands.concat();
    for _ in 0..dice.below(3) {
        let at = dice.below(bytes.len());
        match dice.below(4) {
            0 => bytes[at] ^= 1 << dice.below(8),
            1 => bytes[at] = dice.below(16) as u8,
            2 => drop(bytes.remove(at)),
            _ => bytes.insert(at, dice.below(12) as u8),
        }
    }
    bytes
}

// The large jobs, for measuring.

/// The job of this name.
pub fn bench(name: &str) -> Vec<u8> {
    let dice = &mut Dice(name.bytes().fold(0, |sum, byte| sum * 256 + byte as u64));
    let mut commands = Vec::new();
    match name {
        "entries" => {
            // 64 entries, one nonterminal, 64 pair rules and 64 leaf rules.
            commands.push(grammar(1, 32, 0));
            for at in 0..64 {
                commands.push(pair(0, 0, 0, 100 + dice.below(1000)));
                commands.push(leaf(0, at % 32, dice.below(1000)));
            }
            commands.extend((0..64).map(|_| entry(some_set(dice, 32))));
        }
        "nonterminals" => {
            // 31 entries, eight nonterminals, 192 pair rules and 64 leaf rules.
            commands.push(grammar(8, 16, 0));
            for at in 0..256 {
                let lhs = at % 8;
                commands.push(if at / 8 % 4 == 3 {
                    leaf(lhs, dice.below(16), dice.below(1000))
                } else {
                    pair(lhs, dice.below(8), dice.below(8), dice.below(1000))
                });
            }
            commands.extend((0..31).map(|_| entry(some_set(dice, 16))));
        }
        "pattern" => {
            // Ten entries, four nonterminals, four states (3,520 slots), 128
            // rules, and 32 recorder codes for 16 codes.
            commands.push(grammar(4, 16, 0));
            for at in 0..128 {
                let lhs = at % 4;
                commands.push(if at / 4 % 2 == 1 {
                    leaf(lhs, at / 8, dice.below(1000))
                } else {
                    pair(lhs, dice.below(4), dice.below(4), dice.below(1000))
                });
            }
            commands.push(automaton(4, 16, 0, 8));
            for state in 0..3 {
                // Three codes of the upper half are awaited.
                commands.extend(
                    (8..16)
                        .filter(|code| code % 3 == state)
                        .map(|code| step(state, code, state + 1)),
                );
            }
            commands.push(renaming(32));
            commands.extend((0..32).map(|recorder| read_as(recorder, recorder / 2)));
            commands.extend((0..10).map(|_| entry(some_set(dice, 32))));
        }
        "widest" => {
            // One entry; 32 nonterminals, eight states (2,048 slots), 256 rules
            // and 32 recorder codes: the widest stack that a job can have.
            commands.push(grammar(32, 32, 0));
            for at in 0..256 {
                let lhs = at % 32;
                commands.push(if at / 32 % 2 == 0 {
                    leaf(lhs, dice.below(32), dice.below(1000))
                } else {
                    pair(lhs, dice.below(32), dice.below(32), dice.below(1000))
                });
            }
            commands.push(automaton(8, 32, 0, 0xFE));
            for state in 0..8 {
                commands.extend((0..32).map(|code| step(state, code, (state + 1 + code % 7) % 8)));
            }
            commands.push(renaming(32));
            commands.extend((0..32).map(|recorder| read_as(recorder, (recorder * 5) % 32)));
            commands.push(entry(0xFFFF_FFFF));
        }
        _ => panic!("the large jobs are: entries, nonterminals, pattern, widest"),
    }
    commands.push(end());
    commands.concat()
}
