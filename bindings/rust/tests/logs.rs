//! The answers of the crate are those of the program `calls`: on its stored logs, and on random ones that it is given.

use epass::{Refusal, Run, Script, RUN_WORDS, SCRATCH_WORDS};
use std::fmt::Display;
use std::fs;
use std::io::Write;
use std::path::{Path, PathBuf};
use std::process::{Command, Stdio};

fn project() -> PathBuf {
    Path::new(env!("CARGO_MANIFEST_DIR")).join("../..")
}

/// The script of a log, and its lines.
fn parts(log: &[u8]) -> (&[u8], Vec<&str>) {
    let rule = log.windows(5).position(|w| w == b"\n---\n").map_or(0, |at| at + 1);
    let lines = std::str::from_utf8(&log[rule + 4..]).expect("calls are ASCII");
    (&log[..rule], lines.lines().collect())
}

/// An answer as a log has it.
fn said(answer: Result<impl Display, Refusal>) -> String {
    answer.map_or_else(|refusal| refusal.to_string(), |answer| answer.to_string())
}

/// The most that a log may lend.
const MOST_SCRATCH: usize = 16384;
const MOST_RUN: usize = 8192;

/// What is lent, and how much of it.
struct Lent {
    scratch: Vec<u32>,
    run: Vec<u32>,
    scratch_words: usize,
    run_words: usize,
}

impl Lent {
    fn new() -> Lent {
        Lent {
            scratch: vec![0; MOST_SCRATCH],
            run: vec![0; MOST_RUN],
            scratch_words: SCRATCH_WORDS,
            run_words: RUN_WORDS,
        }
    }

    /// The answer to one call, made by way of the crate.
    fn answer(&mut self, text: &[u8], call: &str) -> String {
        let (word, number) = call.rsplit_once(' ').map_or((call, 0), |(word, n)| (word, n.parse().expect("a number")));
        match word {
            "scratch" => self.scratch_words = number as usize,
            "run words" => self.run_words = number as usize,
            _ => return self.asked(text, word, number).unwrap_or_else(|refusal| refusal.to_string()),
        }
        "lent".into()
    }

    fn asked(&mut self, text: &[u8], word: &str, number: u32) -> Result<String, Refusal> {
        let mut script = Script::check(text, &mut self.scratch[..self.scratch_words])?;
        let words = &mut self.run[..self.run_words];
        if word == "start" {
            return Ok(said(Run::start(&mut script, number, words).map(|_| "started")));
        }
        let mut run = Run::resume(words);
        Ok(match word {
            "step" => said(run.step(&mut script, number)),
            "run" => said(run.run_on(&mut script, number)),
            "report" => said(run.report(&mut script).inspect(|report| assert!(report.numbers().is_sorted_by(|a, b| a < b), "{report}"))),
            "places" => said(run.places(&mut script)),
            "name" => said(script.exec_name(number).map(String::from_utf8_lossy)),
            _ => panic!("{word} is no call"),
        })
    }
}

/// The log as the crate answers it.
fn replayed(log: &[u8]) -> Vec<u8> {
    let (text, lines) = parts(log);
    let mut lent = Lent::new();
    let mut out = [text, b"---\n"].concat();
    for line in lines {
        let call = line.split(" -> ").next().expect("a line");
        out.extend(format!("{call} -> {}\n", lent.answer(text, call)).bytes());
    }
    out
}

#[test]
fn stored_logs() {
    let mut logs = 0;
    for entry in fs::read_dir(project().join("crates/calls/data")).expect("the logs are there") {
        let path = entry.expect("an entry").path();
        if path.extension().is_some_and(|e| e == "calls") {
            let log = fs::read(&path).expect("a log");
            assert!(replayed(&log) == log, "{}", path.display());
            logs += 1;
        }
    }
    assert!(logs > 20, "{logs} logs");
}

/// What the program prints for a log.
fn printed(log: &[u8]) -> Vec<u8> {
    let program = project().join("crates/calls/out/calls");
    let mut calls = Command::new(&program)
        .stdin(Stdio::piped())
        .stdout(Stdio::piped())
        .spawn()
        .unwrap_or_else(|e| panic!("{}: {e}; `rt run` in crates/calls builds it", program.display()));
    let mut input = calls.stdin.take().expect("it is piped");
    let log = log.to_vec();
    let writer = std::thread::spawn(move || input.write_all(&log));
    let output = calls.wait_with_output().expect("it ends");
    writer.join().expect("no panic").expect("the log is read");
    output.stdout
}

/// A linear congruential source: which calls come does not matter, only that they are many and the same each time.
struct Source(u64);

impl Source {
    fn below(&mut self, n: u64) -> u64 {
        self.0 = self.0.wrapping_mul(6364136223846793005).wrapping_add(1442695040888963407);
        (self.0 >> 33) % n
    }

    fn call(&mut self) -> String {
        match self.below(16) {
            0 => format!("start {}", self.below(3)),
            1 => "report".into(),
            2 => "places".into(),
            3 => format!("name {}", self.below(3)),
            4 => format!("scratch {}", [SCRATCH_WORDS - 1, SCRATCH_WORDS, MOST_SCRATCH][self.below(3) as usize]),
            5 => format!("run words {}", [RUN_WORDS - 1, RUN_WORDS, MOST_RUN][self.below(3) as usize]),
            6 | 7 => format!("run {}", self.below(40)),
            _ => format!("step {}", self.below(5)),
        }
    }
}

#[test]
fn random_logs() {
    let mut source = Source(2026);
    let mut scripts: Vec<PathBuf> = fs::read_dir(project().join("crates/cases/data")).expect("scripts").map(|e| e.expect("an entry").path()).collect();
    scripts.sort();
    assert!(scripts.len() > 160, "{} scripts", scripts.len());
    for path in scripts {
        // A script in a log ends its line.
        let mut log = fs::read(&path).expect("a script");
        log.extend(b"\n---\nstart 0\n");
        for _ in 0..40 {
            log.extend((source.call() + "\n").bytes());
        }
        let answered = replayed(&log);
        assert!(printed(&log) == answered, "{}:\n{}", path.display(), String::from_utf8_lossy(&answered));
        assert!(printed(&answered) == answered, "{}: the log does not replay", path.display());
    }
}
