//! The Rust reader as a program that answers questions, one a line (the README of the oracle lists them).

use crate::cases::Case;
use std::env;
use std::error::Error;
use std::io::{BufRead, BufReader, BufWriter, Write};
use std::path::{Path, PathBuf};
use std::process::{Command, Stdio};
use std::sync::mpsc;
use std::thread;

/// The program that ORACLE names, else the one built from the sources beside the repository, if they are there.
pub fn find() -> Result<Option<PathBuf>, Box<dyn Error>> {
    if let Some(program) = env::var_os("ORACLE") {
        return Ok(Some(PathBuf::from(program)));
    }
    let sources = Path::new(env!("CARGO_MANIFEST_DIR")).join("../../../shared/oracle");
    if !sources.join("Cargo.toml").is_file() {
        return Ok(None);
    }
    let folder = Path::new(env!("CARGO_MANIFEST_DIR")).join("../target/oracle");
    let cargo = env::var_os("CARGO").unwrap_or_else(|| "cargo".into());
    let built = Command::new(cargo)
        .args(["build", "--quiet", "--release", "--offline", "--locked"])
        .arg("--manifest-path")
        .arg(sources.join("Cargo.toml"))
        .arg("--target-dir")
        .arg(&folder)
        .status()?;
    if !built.success() {
        return Err("the oracle in ../shared/oracle could not be built".into());
    }
    Ok(Some(folder.join("release/oracle")))
}

/// Asks about each case and gives it to `judge` with the oracle's answer. The questions are written in a thread of their own while
/// answers are read; the pipes hold the cases under way to some thousands.
pub fn ask(
    program: &Path,
    cases: impl Iterator<Item = Case> + Send,
    mut judge: impl FnMut(Case, &str),
) -> Result<(), Box<dyn Error>> {
    let mut child = Command::new(program).stdin(Stdio::piped()).stdout(Stdio::piped()).spawn()?;
    let mut questions = BufWriter::with_capacity(1 << 16, child.stdin.take().ok_or("no input")?);
    let answers = BufReader::with_capacity(1 << 16, child.stdout.take().ok_or("no output")?);
    let (sender, receiver) = mpsc::channel();
    thread::scope(|scope| -> Result<(), Box<dyn Error>> {
        let writer = scope.spawn(move || -> std::io::Result<()> {
            let mut line = Vec::new();
            for case in cases {
                case.question_into(&mut line);
                questions.write_all(&line)?;
                if sender.send(case).is_err() {
                    break;
                }
            }
            questions.flush()
        });
        // Owned here, so that on an error the pipe closes and the oracle and the writer end.
        let (mut answers, mut answer) = (answers, String::new());
        for case in receiver {
            answer.clear();
            if answers.read_line(&mut answer)? == 0 {
                return Err("the oracle ended before its last answer".into());
            }
            judge(case, answer.trim_end_matches('\n'));
        }
        writer.join().map_err(|_| "the questions could not be made")??;
        Ok(())
    })?;
    child.wait()?;
    Ok(())
}
