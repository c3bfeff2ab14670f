//! Many scripts checked, a line each, for editors and for a cabinet of scripts.

use crate::explain::explain;
use crate::explain::spelling::counted;
use crate::progress::Progress;
use crate::source::{File, Source};
use epass::{position, Script, SCRATCH_WORDS};
use std::io::{self, Write};

/// What came of checking some files.
#[derive(Clone, Copy, Debug, Default, PartialEq, Eq)]
pub struct Outcome {
    pub refused: bool,
    pub unread: bool,
}

/// Checks each file. One that cannot be read is told on standard error, and the others are checked all the same.
pub fn check(files: &[File], out: &mut impl Write) -> io::Result<Outcome> {
    let mut outcome = Outcome::default();
    let mut progress = Progress::begin();
    for (number, file) in files.iter().enumerate() {
        progress.say(|| format!("checking {} of {}: {file}", number + 1, files.len()));
        let told = Source::read(file).map(|source| line(&source));
        progress.clear();
        match told {
            Ok((line, accepted)) => {
                outcome.refused |= !accepted;
                writeln!(out, "{line}")?;
            }
            Err(fault) => {
                outcome.unread = true;
                eprintln!("epass: {file}: {fault}");
            }
        }
    }
    Ok(outcome)
}

/// The line of a script, and whether it is accepted.
fn line(source: &Source) -> (String, bool) {
    let name = &source.name;
    match Script::check(&source.text, vec![0; SCRATCH_WORDS]) {
        Err(refusal) => {
            let place = position(&source.text, refusal.offset);
            let title = explain(&source.text, refusal).title;
            (format!("{name}:{}:{}: refused {}: {title}", place.line, place.column, refusal.number), false)
        }
        Ok(mut script) => match script.warnings().count() {
            0 => (format!("{name}: accepted"), true),
            n => (format!("{name}: accepted, {}", counted(n, "warning", "warnings")), true),
        },
    }
}
