//! A run, a line a step; or the list of its calls, which the program `calls` replays.

use crate::program::Program;
use crate::progress::Progress;
use crate::random::Chooser;
use crate::story::{Ending, Event, Next, Story};
use crate::telling::sightings;
use epass::{Refusal, TEXT_BYTES};
use std::io::{self, Write};

/// Traces every exec line.
pub fn trace(program: &Program<'_>, seed: Option<u64>, out: &mut impl Write) -> io::Result<()> {
    if let Some(seed) = seed {
        writeln!(out, "seed {seed}")?;
    }
    for (line, name) in (0..).zip(&program.execs) {
        writeln!(out, "exec {}", program.name(*name))?;
        let mut written = Ok(());
        let ended = run(program, line, seed, |event| {
            if written.is_ok() {
                written = writeln!(out, "{}", told(event));
            }
        });
        written?;
        let (ending, steps) = ended.map_err(io::Error::other)?;
        writeln!(out, "{} after {steps} steps", ending.word())?;
    }
    Ok(())
}

/// A line of the trace: the step's number, its place, what was done, and what was seen.
fn told(event: &Event<'_>) -> String {
    let line = format!("{:>5}  at {:<3} {event}", event.number, event.place);
    match event.seen() {
        Some(seen) => format!("{line}  [{}]", sightings(seen).join(", ")),
        None => line,
    }
}

/// The program `calls` reads so many bytes of a list.
const LONGEST_LIST: usize = 65_535;

/// A list of calls: the text, a line `---`, and a call a line with its answer.
pub struct Calls {
    pub list: Vec<u8>,
    /// How many calls had no room in it.
    pub cut: usize,
}

impl Calls {
    /// The calls of every exec line. The text's last line must end: there is none where that would make the text too long.
    pub fn new(program: &Program<'_>, seed: Option<u64>) -> Result<Option<Calls>, Refusal> {
        let mut list = program.text.to_vec();
        if !list.ends_with(b"\n") {
            list.push(b'\n');
        }
        if list.len() > TEXT_BYTES {
            return Ok(None);
        }
        list.extend(b"---\n");
        let mut calls = Calls { list, cut: 0 };
        for line in 0..program.execs.len() as u32 {
            calls.add(&format!("start {line} -> started\n"));
            run(program, line, seed, |event| calls.add(&format!("step {} -> {}\n", event.place, event.answer)))?;
        }
        Ok(Some(calls))
    }

    /// Once a call has no room, none after it has: the list is a beginning of the run.
    fn add(&mut self, call: &str) {
        if self.cut > 0 || self.list.len() + call.len() > LONGEST_LIST {
            self.cut += 1;
        } else {
            self.list.extend(call.as_bytes());
        }
    }
}

/// Carries out a run to its end, and hands on each of its steps. A seed begins anew with each exec line, so that each can be had again by itself.
pub fn run<'t>(program: &'t Program<'t>, line: u32, seed: Option<u64>, mut each: impl FnMut(&Event<'t>)) -> Result<(Ending, u32), Refusal> {
    let mut story = Story::start(program, line)?;
    let (mut chooser, mut progress) = (Chooser::new(seed), Progress::begin());
    loop {
        let open = match story.what_next()? {
            Next::Open(open) => open,
            Next::Ended(ending) => return Ok((ending, story.steps())),
        };
        let event = story.step(chooser.choose(&open))?;
        progress.clear();
        each(&event);
        progress.say(|| format!("step {}", event.number));
    }
}
