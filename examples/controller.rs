//! A controller for a machine whose script is read from a file: `controller SCRIPT SEED`.
//!
//! It asks which steps are open and has one of them carried out, over and over. A pseudo-random source stands for the relays, whose
//! order no controller knows: with another seed the steps come in another order. For every seed that
//! was tried each outside channel showed the same.
use epass::{Reason, Refusal, Run, Script, Step, RUN_WORDS, SCRATCH_WORDS};
use std::process::ExitCode;
use std::{env, fs};

const STEPS: u32 = 10_000;

/// The relays: xorshift with 32 bits.
struct Relays(u32);

impl Relays {
    fn next(&mut self, below: usize) -> usize {
        self.0 ^= self.0 << 13;
        self.0 ^= self.0 >> 17;
        self.0 ^= self.0 << 5;
        self.0 as usize % below
    }
}

/// Runs an exec line; whether there was one.
fn run_line(script: &mut Script<'_, &mut [u32]>, run: &mut [u32], line: u32, relays: &mut Relays) -> Result<bool, Refusal> {
    let name = match script.exec_name(line) {
        Err(refusal) if refusal.reason() == Some(Reason::NoLine) => return Ok(false),
        answer => answer?,
    };
    println!("exec {}", String::from_utf8_lossy(name));
    let mut run = Run::start(script, line, run)?;
    for number in 1..=STEPS {
        let places = run.places(script)?;
        let open: Vec<u32> = places.open().collect();
        if open.is_empty() {
            let end = if places.steps().is_empty() { "done" } else { "full" };
            println!("{end} after {} steps", number - 1);
            return Ok(true);
        }
        let place = open[relays.next(open.len())];
        match run.step(script, place)? {
            Step::Carried(Some(seen)) => println!("step {number} at {place}: {seen}"),
            Step::Carried(None) => println!("step {number} at {place}"),
            // Nobody catches the raise: the machine stops as it stands.
            Step::Uncaught => {
                println!("step {number} at {place}");
                println!("uncaught after {number} steps");
                return Ok(true);
            }
        }
    }
    println!("stopped after {STEPS} steps");
    Ok(true)
}

fn run_lines(text: &[u8], relays: &mut Relays) -> Result<(), Refusal> {
    let (mut scratch, mut run) = ([0; SCRATCH_WORDS], [0; RUN_WORDS]);
    let mut script = Script::check(text, &mut scratch[..])?;
    let mut line = 0;
    while run_line(&mut script, &mut run, line, relays)? {
        line += 1;
    }
    Ok(())
}

fn main() -> ExitCode {
    let words: Vec<String> = env::args().collect();
    let [_, path, seed] = &words[..] else {
        eprintln!("usage: controller SCRIPT SEED");
        return ExitCode::from(2);
    };
    let (Ok(text), Ok(seed)) = (fs::read(path), seed.parse::<u32>()) else {
        eprintln!("usage: controller SCRIPT SEED, with a file that can be read");
        return ExitCode::from(2);
    };
    println!("seed {seed}");
    // xorshift never leaves 0
    match run_lines(&text, &mut Relays(seed | 1)) {
        Ok(()) => ExitCode::SUCCESS,
        Err(refusal) => {
            println!("{refusal}: {}", refusal.sentence());
            ExitCode::FAILURE
        }
    }
}
