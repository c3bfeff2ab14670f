//! How long a call takes: `cargo bench --offline -- FILE ..`, microseconds of wall clock, the least of several rounds.
//!
//! For each script: the check of its text (a call that comes to nothing else), a start, and over the first steps of its first exec
//! line, chosen at the first open place, the mean and the worst of `step`, `report` and `places`.

use epass::{Run, Script, RUN_WORDS, SCRATCH_WORDS};
use std::time::Instant;

const ROUNDS: usize = 5;
const STEPS: usize = 300;

/// The microseconds of one call.
fn timed<A>(call: impl FnOnce() -> A) -> (f64, A) {
    let begun = Instant::now();
    let answer = call();
    (begun.elapsed().as_secs_f64() * 1e6, answer)
}

/// Mean and worst of a call's times, each the least of the rounds.
#[derive(Default)]
struct Times {
    rounds: Vec<(f64, f64)>,
}

impl Times {
    fn add(&mut self, times: &[f64]) {
        let mean = times.iter().sum::<f64>() / times.len().max(1) as f64;
        let worst = times.iter().copied().fold(0.0, f64::max);
        self.rounds.push((mean, worst));
    }

    fn least(&self) -> (f64, f64) {
        let least = |f: fn(&(f64, f64)) -> f64| self.rounds.iter().map(f).fold(f64::INFINITY, f64::min);
        (least(|t| t.0), least(|t| t.1))
    }
}

/// The times of each call in one round.
fn round(text: &[u8], times: &mut [Times; 5]) -> Result<(), epass::Refusal> {
    let mut script = Script::check(text, [0; SCRATCH_WORDS])?;
    let checks: Vec<f64> = (0..20).map(|_| timed(|| script.exec_name(u32::MAX)).0).collect();
    let (start, run) = timed(|| Run::start(&mut script, 0, [0; RUN_WORDS]));
    let mut run = run?;
    let (mut steps, mut reports, mut surveys) = (Vec::new(), Vec::new(), Vec::new());
    for _ in 0..STEPS {
        reports.push(timed(|| run.report(&mut script)).0);
        let (time, places) = timed(|| run.places(&mut script));
        surveys.push(time);
        let Some(place) = places?.open().next() else { break };
        steps.push(timed(|| run.step(&mut script, place)).0);
    }
    for (all, new) in times.iter_mut().zip([checks, vec![start], steps, reports, surveys]) {
        all.add(&new);
    }
    Ok(())
}

fn main() {
    let files: Vec<String> = std::env::args().skip(1).filter(|a| !a.starts_with("--")).collect();
    println!("{:<24} {:>8} {:>8} {:>16} {:>16} {:>16}", "script", "check", "start", "step", "report", "places");
    for file in files {
        let text = std::fs::read(&file).expect("the script can be read");
        let mut times = [(); 5].map(|()| Times::default());
        let refused = (0..ROUNDS).find_map(|_| round(&text, &mut times).err());
        let name = std::path::Path::new(&file).file_stem().map_or(file.clone(), |s| s.to_string_lossy().into_owned());
        if let Some(refusal) = refused {
            println!("{name:<24} {refusal}");
            continue;
        }
        let [check, start, step, report, places] = times.map(|t| t.least());
        let pair = |(mean, worst): (f64, f64)| format!("{mean:.1} ({worst:.1})");
        println!("{name:<24} {:>8.1} {:>8.1} {:>16} {:>16} {:>16}", check.0, start.0, pair(step), pair(report), pair(places));
    }
}
