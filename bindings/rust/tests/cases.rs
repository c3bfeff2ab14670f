//! The scripts that the program is tried on, run through the bindings: what they print must be what the program prints.

use epass::{End, Refusal, Run, Script, Seen, RUN_WORDS, SCRATCH_WORDS};
use std::fmt::Write;
use std::fs;
use std::path::{Path, PathBuf};

/// The program gives each exec line so many steps, and reads one byte more than a text may have.
const STEPS: u32 = 10_000;
const READ: usize = 8193;

fn folder() -> PathBuf {
    Path::new(env!("CARGO_MANIFEST_DIR")).join("../../crates/cases")
}

fn shows(out: &mut String, number: u32, what: &str) {
    writeln!(out, "#{number} -> {what}").unwrap();
}

fn print_seen(out: &mut String, seen: Seen<'_>) {
    match seen {
        Seen::Label { number, label } => shows(out, number, std::str::from_utf8(label).unwrap()),
        Seen::Close { number } => shows(out, number, "()"),
        Seen::Passed { number, passed, given_up } => {
            shows(out, number, &format!("#{passed}"));
            if given_up {
                shows(out, passed, "cancelled");
            }
        }
        Seen::Cancelled { number } => shows(out, number, "cancelled"),
    }
}

fn print_line(out: &mut String, script: &mut Script<'_, &mut [u32]>, line: u32) -> Result<(), Refusal> {
    let name = script.exec_name(line)?;
    writeln!(out, "Executing process {}:", std::str::from_utf8(name).unwrap()).unwrap();
    let mut run = Run::start(script, line, vec![0; RUN_WORDS])?;
    let mut taken = 0;
    loop {
        let ran = run.run_on(script, STEPS - taken)?;
        taken += ran.steps;
        let end = match ran.end {
            End::Shown(seen) => {
                print_seen(out, seen);
                continue;
            }
            End::Done => "done",
            End::Full => "full",
            End::Stopped => "stopped",
            End::Uncaught => "uncaught",
        };
        writeln!(out, "{end} after {taken} steps").unwrap();
        return Ok(());
    }
}

fn print_text(out: &mut String, text: &[u8]) {
    let mut scratch = vec![0; SCRATCH_WORDS];
    let mut script = match Script::check(text, &mut scratch[..]) {
        Ok(script) => script,
        Err(refusal) => {
            writeln!(out, "{refusal}").unwrap();
            return;
        }
    };
    for warning in script.warnings() {
        writeln!(out, "{warning}").unwrap();
    }
    let mut line = 0;
    while script.exec_name(line).is_ok() {
        print_line(out, &mut script, line).unwrap();
        line += 1;
    }
}

#[test]
fn what_the_program_prints() {
    let names = fs::read_to_string(folder().join("args")).unwrap();
    let mut out = String::new();
    for name in names.lines() {
        writeln!(out, "{name}").unwrap();
        let mut text = fs::read(folder().join("data").join(name)).unwrap();
        text.truncate(READ);
        print_text(&mut out, &text);
    }
    let wanted = fs::read_to_string(folder().join("stdout")).unwrap();
    for (number, (line, want)) in out.lines().zip(wanted.lines()).enumerate() {
        assert_eq!(line, want, "line {}", number + 1);
    }
    assert_eq!(out, wanted);
}
