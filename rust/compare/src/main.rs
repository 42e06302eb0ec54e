//! The reader's answers beside those of the Rust reader, element by element with the AS numbers, at scale.
//!
//!     compare                      a slice of some seconds, for the gate
//!     compare LISTINGS [SEED]      every short text to its full length, and so many listings from the seed
//!
//! The Rust reader is the oracle's program, named by ORACLE or built from ../shared/oracle beside the repository. Where there is none,
//! nothing is compared, and a line says so. Where the Rust panics the oracle goes on behind the line (docs/DIFFERENCES.md, 1).

mod cases;
mod oracle;
mod ours;

use cases::{Case, Cases, Question};
use fernweeks::Asn;
use listings::Random;
use std::env;
use std::error::Error;
use std::path::Path;
use std::process::ExitCode;

#[derive(Default)]
struct Count {
    cases: usize,
    lines: usize,
    elements: usize,
    panics: usize,
    refused: usize,
    mismatches: usize,
}

impl Count {
    fn add(&mut self, other: &Count) {
        self.cases += other.cases;
        self.lines += other.lines;
        self.elements += other.elements;
        self.panics += other.panics;
        self.refused += other.refused;
        self.mismatches += other.mismatches;
    }

    fn print(&self, name: &str) {
        println!(
            "{name:<16} {:>9} cases, {:>9} lines, {:>9} elements, {:>7} refused or unreadable, {:>6} panics of the Rust, {} mismatches",
            self.cases, self.lines, self.elements, self.refused, self.panics, self.mismatches
        );
    }
}

/// The oracle's header answer as `ours::header` says it.
fn header_answer(answer: &str) -> String {
    let field = |name: &str| answer.split(' ').find_map(|word| word.strip_prefix(name)).unwrap_or("");
    if field("columns=") == "-" {
        return "no columns".to_string();
    }
    if answer == "error" {
        return "error".to_string();
    }
    let or = |text: &str, missing: &str| if text == "-" { missing.to_string() } else { text.to_string() };
    let (router, number) = (or(field("router="), "0.0.0.0"), or(field("as="), "0"));
    format!("router={router} as={number} columns={} consumed={}", field("columns="), field("consumed="))
}

/// The oracle's elements as `ours::elements` says them, without Display, and how many panics it met.
fn elements_answer(answer: &str) -> (String, usize) {
    let mut words = answer.split('\t');
    let head = words.next().unwrap_or("");
    let (head, panics) = head.split_once(" panics=").unwrap_or((head, "0"));
    let mut text = head.to_string();
    for element in words {
        let parts: Vec<&str> = element.split('#').collect();
        let [psv, _, numbers, origins] = parts[..] else {
            return (answer.to_string(), 0);
        };
        text.push_str(&format!("\t{psv}#{numbers}#{origins}"));
    }
    (text, panics.parse().unwrap_or(0))
}

fn mismatch(case: &Case, ours: &str, theirs: &str) {
    println!("mismatch: {:?} of \"{}\"", case.question, case.text.escape_ascii());
    let both = ours.split('\t').zip(theirs.split('\t')).enumerate().find(|(_, (a, b))| a != b);
    match both {
        Some((i, (a, b))) => println!("  first at answer {i}\n  ours   {a}\n  theirs {b}"),
        None => println!("  one has more elements\n  ours   {ours}\n  theirs {theirs}"),
    }
}

fn group(name: &str, program: &Path, cases: Cases) -> Result<Count, Box<dyn Error>> {
    let mut count = Count::default();
    let mut random = Random::new(0);
    let mut asns = vec![Asn(0); 16_384];
    oracle::ask(program, cases, |case, answer| {
        let (ours, theirs) = match case.question {
            Question::Detect => (ours::detection(&case.text), answer.to_string()),
            Question::Header => (ours::header(&case.text), header_answer(answer)),
            Question::Elements(seconds) => {
                let (theirs, panics) = elements_answer(answer);
                count.panics += panics;
                count.elements += theirs.matches('\t').count();
                (ours::elements(&case.text, seconds, &mut random, &mut asns), theirs)
            }
        };
        count.cases += 1;
        count.lines += case.text.split_inclusive(|byte| *byte == b'\n').count();
        count.refused += usize::from(theirs.starts_with("error") || theirs == "no columns" || theirs.contains(" utf8=no:"));
        if ours != theirs {
            count.mismatches += 1;
            if count.mismatches <= 5 {
                mismatch(&case, &ours, &theirs);
            }
        }
    })?;
    count.print(name);
    Ok(count)
}

fn main() -> Result<ExitCode, Box<dyn Error>> {
    let numbers: Vec<u64> = env::args().skip(1).map(|word| word.parse()).collect::<Result<_, _>>()?;
    let Some(program) = oracle::find()? else {
        println!("the comparison with the Rust reader was skipped: ORACLE is not set, and ../shared/oracle is not beside the repository");
        return Ok(ExitCode::SUCCESS);
    };
    let (less, listings) = numbers.first().map_or((2, 20_000), |n| (0, *n as usize));
    let seed = numbers.get(1).copied().unwrap_or(1);
    let groups: [(&str, Cases); 7] = [
        ("a line's front", cases::fronts(7 - less)),
        ("metric and on", cases::numbers(5 - less)),
        ("path", cases::paths(6 - less)),
        ("column lines", cases::column_lines(7 - less)),
        ("preambles", cases::preambles(6 - less)),
        ("detection", cases::detections(seed, listings)),
        ("from a seed", cases::random(seed, listings)),
    ];
    let mut all = Count::default();
    for (name, cases) in groups {
        all.add(&group(name, &program, cases)?);
    }
    all.print("in all");
    Ok(if all.mismatches == 0 { ExitCode::SUCCESS } else { ExitCode::FAILURE })
}
