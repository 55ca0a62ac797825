//! The reference: what a job comes to, worked out by plain means.
//!
//!     reference answer          reads one job (bytes) and prints its answer
//!     reference make N SEED     prints N generated jobs, one per line, as hex
//!     reference table           reads such lines and prints, for each,
//!                               the hex, a tab, and the answer's lines joined by |
//!     reference kinds N SEED    prints the kind of each job that `make` makes
//!     reference bench NAME      writes one of the four large jobs (bytes)
//!     reference check PROGRAM   reads lines as `table` prints them, puts each job
//!                               to the program, and compares the answers
//!
//! The parts: `job` reads the bytes, `stack` lays the layers on one another,
//! `derive` counts by recursion over spans, `enumerate` writes out every
//! derivation of a small job one by one and must come to the same, and
//! `make` makes jobs.

mod derive;
mod enumerate;
mod job;
mod make;
mod stack;

use std::io::{BufRead, Read, Write};
use std::process::{Command, Stdio};

/// The answer to a job, line by line, without the line ends.
pub fn answer(bytes: &[u8]) -> Vec<String> {
    let job = match job::read(bytes) {
        Ok(job) => job,
        Err(fault) => return vec![format!("fault {} {}", fault.number, fault.place)],
    };
    let reading = derive::read(&job);
    if let Some(listed) = enumerate::read(&job) {
        if listed != reading {
            eprintln!("the reference does not agree with itself on {}", hex(bytes));
            eprintln!("by recursion: {:?}", reading);
            eprintln!("by listing:   {:?}", listed);
            std::process::exit(3);
        }
    }
    match reading {
        None => vec!["read no".into(), "count 0".into(), "cost none".into()],
        Some(reading) => {
            let mut lines = vec![
                "read yes".into(),
                format!("count {}", reading.count),
                format!("cost {}", reading.cost),
            ];
            for node in reading.nodes {
                lines.push(format!("node {} {} {}", node.begin, node.end, node.bottom));
            }
            lines
        }
    }
}

/// What a job with at least one derivation comes to.
#[derive(Debug, PartialEq, Eq)]
pub struct Reading {
    /// The number of derivations, capped at 2^64 - 1.
    pub count: u64,
    /// The cost of a cheapest one.
    pub cost: u64,
    /// The nodes of the cheapest one, root first, left before right.
    pub nodes: Vec<Node>,
}

/// One line of the tree.
#[derive(Debug, Clone, PartialEq, Eq)]
pub struct Node {
    pub begin: usize,
    pub end: usize,
    pub bottom: usize,
}

/// What a program prints when it is given these bytes.
fn put_to(program: &str, bytes: &[u8]) -> String {
    let mut child = Command::new(program)
        .stdin(Stdio::piped())
        .stdout(Stdio::piped())
        .spawn()
        .expect("the program starts");
    // A program may answer before it has read everything.
    let _ = child
        .stdin
        .take()
        .expect("its standard input")
        .write_all(bytes);
    let output = child.wait_with_output().expect("the program ends");
    String::from_utf8_lossy(&output.stdout).into_owned()
}

fn hex(bytes: &[u8]) -> String {
    bytes.iter().map(|byte| format!("{:02X}", byte)).collect()
}

fn unhex(line: &str) -> Vec<u8> {
    let digits: Vec<u32> = line
        .trim()
        .chars()
        .map(|c| c.to_digit(16).expect("a hex digit"))
        .collect();
    assert!(
        digits.len() % 2 == 0,
        "a line of hex has an even number of digits"
    );
    digits
        .chunks(2)
        .map(|pair| (pair[0] * 16 + pair[1]) as u8)
        .collect()
}

fn main() {
    let words: Vec<String> = std::env::args().skip(1).collect();
    let words: Vec<&str> = words.iter().map(|word| word.as_str()).collect();
    let mut out = std::io::BufWriter::new(std::io::stdout().lock());
    match words[..] {
        ["answer"] => {
            let mut bytes = Vec::new();
            std::io::stdin()
                .read_to_end(&mut bytes)
                .expect("standard input");
            for line in answer(&bytes) {
                writeln!(out, "{}", line).unwrap();
            }
        }
        ["make", number, seed] => {
            for index in 0..number.parse().expect("a number of jobs") {
                let (_, bytes) = make::job(index, seed.parse().expect("a seed"));
                writeln!(out, "{}", hex(&bytes)).unwrap();
            }
        }
        ["kinds", number, seed] => {
            for index in 0..number.parse().expect("a number of jobs") {
                let (kind, _) = make::job(index, seed.parse().expect("a seed"));
                writeln!(out, "{}", kind).unwrap();
            }
        }
        ["table"] => {
            for line in std::io::stdin().lock().lines() {
                let line = line.expect("standard input");
                let bytes = unhex(&line);
                writeln!(out, "{}\t{}", line.trim(), answer(&bytes).join("|")).unwrap();
            }
        }
        ["bench", name] => {
            out.write_all(&make::bench(name)).unwrap();
        }
        ["check", program] => {
            let mut jobs = 0;
            let mut wrong = 0;
            for line in std::io::stdin().lock().lines() {
                let line = line.expect("standard input");
                let (job, wanted) = line.split_once('\t').expect("a tab");
                let got = put_to(program, &unhex(job));
                jobs += 1;
                if got != wanted.replace('|', "\n") + "\n" {
                    wrong += 1;
                    writeln!(
                        out,
                        "job    {}\nwanted {}\ngot    {}",
                        job,
                        wanted,
                        got.trim_end().replace('\n', "|")
                    )
                    .unwrap();
                }
            }
            writeln!(out, "{} jobs, {} wrong answers", jobs, wrong).unwrap();
            if wrong > 0 {
                drop(out);
                std::process::exit(1);
            }
        }
        _ => {
            eprintln!("usage: reference answer | make N SEED | table | kinds N SEED | bench NAME | check PROGRAM");
            std::process::exit(2);
        }
    }
}
