//! How fast listings are read, beside the Rust reader on the same files, in one process.
//!
//!     bench [RUNS [MB..]]
//!
//! makes a listing of each size (1, 10 and 100 MB if none is given) in the folder for temporary files and reads it RUNS times
//! (9 if it is not given) in each way, the ways taking turns:
//!
//! - reading alone: open, then next until End over parts of 64 KiB, through the exported calls, and through the wrapper's types;
//!   beside `oracle parse`;
//! - from the listing to PSV lines, which are thrown away: the program table2psv, beside `oracle run`.
//!
//! Both programs are linked in when the bench is built, if they are at hand (build.rs); else a line says which is left out, and why.
//! Of the runs the fastest counts, by processor time (user and system). No buffer is cleared between calls. First the number of
//! elements, and a sum over all that is printed as PSV lines, are seen to be the same in each way.
//!
//!     bench make MB FILE       makes a listing
//!     bench read RUNS FILE     reads one through the exported calls and does nothing else, for a profiler

mod cpu;
mod lines;

#[cfg(oracle)]
extern crate oracle;

use fernweeks::{calls, Asn, Next, Parts, State, ELEMENT_LEN, HEADER_LINES, STATE_LEN};
use listings::{table, Random};
use std::env;
use std::error::Error;
use std::fs::{self, File};
use std::path::{Path, PathBuf};
use std::process;
use std::time::Duration;

type Answer<T> = Result<T, Box<dyn Error>>;

const PART: usize = 64 * 1024;

/// Elements of a listing, through the exported calls.
fn read_by_calls(file: &Path) -> Answer<u64> {
    let (mut state, mut element) = ([0; STATE_LEN], [0; ELEMENT_LEN]);
    let mut asns = vec![0; 16_384];
    let mut parts = Parts::new(File::open(file)?, PART);
    let mut part = parts.next(HEADER_LINES)?;
    let mut number = calls::open(part, 0.0, &mut state);
    let mut elements = 0;
    while number == 0 && !part.is_empty() {
        loop {
            number = calls::next(&mut state, part, &mut asns, &mut element);
            if number != 0 {
                break;
            }
            elements += 1;
        }
        if number != 255 {
            break;
        }
        number = calls::turn(&mut state);
        part = parts.next(1)?;
    }
    match number {
        0 => Ok(elements),
        n => Err(format!("{} was refused with {n}", file.display()).into()),
    }
}

/// Elements of a listing, through the wrapper's types.
fn read_by_types(file: &Path) -> Answer<u64> {
    let mut asns = vec![Asn(0); 16_384];
    let mut parts = Parts::new(File::open(file)?, PART);
    let mut part = parts.next(HEADER_LINES)?;
    let mut state = State::open(part, 0.0)?;
    let mut elements = 0;
    while !part.is_empty() {
        while let Next::Element(element) = state.next(part, &mut asns)? {
            elements += u64::from(element.announce);
        }
        state.turn();
        part = parts.next(1)?;
    }
    Ok(elements)
}

/// One way of doing the job: its name, and the job done once. The answer is the number of elements read or, if it is asked for, a sum
/// over all that is printed.
struct Way<'a> {
    name: &'a str,
    run: &'a dyn Fn(bool) -> Answer<u64>,
}

/// What every way answers.
fn agreed(ways: &[Way]) -> Answer<u64> {
    let answers = ways.iter().map(|way| (way.run)(true)).collect::<Answer<Vec<_>>>()?;
    match ways.iter().zip(&answers).find(|(_, answer)| **answer != answers[0]) {
        Some((way, _)) => Err(format!("{} and {} do not agree", ways[0].name, way.name).into()),
        None => Ok(answers.first().copied().unwrap_or(0)),
    }
}

/// Times each way, and prints MB/s and how each stands to the last.
fn race(title: &str, bytes: u64, runs: usize, ways: &[Way]) -> Answer<()> {
    let mut best = vec![Duration::MAX; ways.len()];
    for _ in 0..runs {
        for (way, best) in ways.iter().zip(&mut best) {
            let before = cpu::time();
            (way.run)(false)?;
            *best = (*best).min(cpu::time() - before);
        }
    }
    let Some(last) = best.last() else { return Ok(()) };
    for (way, best) in ways.iter().zip(&best) {
        let speed = bytes as f64 / 1e6 / best.as_secs_f64();
        let ratio = last.as_secs_f64() / best.as_secs_f64();
        println!("{title:<24} {:<20} {:>9.1} ms {speed:>9.1} MB/s {ratio:>7.2} x", way.name, best.as_secs_f64() * 1e3);
    }
    Ok(())
}

/// A listing's file, and one with a path line before it.
struct Files {
    listing: PathBuf,
    with_path: PathBuf,
}

fn bench(files: &Files, megabytes: usize, runs: usize) -> Answer<()> {
    let reading: &[Way] = &[
        Way { name: "exported calls", run: &|_| read_by_calls(&files.listing) },
        Way { name: "wrapper's types", run: &|_| read_by_types(&files.listing) },
        #[cfg(oracle)]
        Way { name: "oracle parse", run: &|_| Ok(oracle::parse(&files.listing)?) },
    ];
    let printing: &[Way] = &[
        #[cfg(table2psv)]
        Way { name: "table2psv", run: &|summed| Ok(lines::print(summed, |out| lines::table2psv::run(&files.with_path, out))?) },
        #[cfg(oracle)]
        Way { name: "oracle run", run: &|summed| Ok(lines::print(summed, |out| oracle::run(&files.with_path, out))?) },
    ];
    let bytes = fs::metadata(&files.listing)?.len();
    println!("{megabytes} MB: {bytes} bytes, {} elements", agreed(reading)?);
    agreed(printing)?;
    race("reading alone", bytes, runs, reading)?;
    race("listing to PSV lines", bytes, runs, printing)
}

fn listing(megabytes: usize) -> Vec<u8> {
    table(&mut Random::new(1), megabytes * 1_000_000)
}

fn bench_all(numbers: &[usize]) -> Answer<()> {
    let runs = numbers.first().copied().unwrap_or(9);
    let sizes = if numbers.len() > 1 { &numbers[1..] } else { &[1, 10, 100] };
    for (name, left_out) in [("the oracle", option_env!("ORACLE_LEFT_OUT")), ("table2psv", option_env!("TABLE2PSV_LEFT_OUT"))] {
        if let Some(why) = left_out {
            println!("{name} is left out: {why}");
        }
    }
    for &megabytes in sizes {
        let name = |what: &str| env::temp_dir().join(format!("fernweeks-bench-{}-{what}.txt", process::id()));
        let files = Files { listing: name("listing"), with_path: name("with-path") };
        let text = listing(megabytes);
        fs::write(&files.listing, &text)?;
        fs::write(&files.with_path, [b"oix-full-snapshot-2024-03-01-0000.txt\n", &text[..]].concat())?;
        drop(text);
        let done = bench(&files, megabytes, runs);
        fs::remove_file(&files.listing)?;
        fs::remove_file(&files.with_path)?;
        done?;
    }
    Ok(())
}

fn main() -> Answer<()> {
    let words: Vec<String> = env::args().skip(1).collect();
    match words.iter().map(String::as_str).collect::<Vec<_>>()[..] {
        ["make", megabytes, file] => Ok(fs::write(file, listing(megabytes.parse()?))?),
        ["read", runs, file] => {
            for _ in 0..runs.parse()? {
                println!("{}", read_by_calls(Path::new(file))?);
            }
            Ok(())
        }
        ref numbers => bench_all(&numbers.iter().map(|word| word.parse()).collect::<Result<Vec<_>, _>>()?),
    }
}

#[test]
fn all_ways_agree() -> Answer<()> {
    bench_all(&[1, 1])
}
