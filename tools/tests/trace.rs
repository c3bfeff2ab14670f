//! Traces: what is seen and how each run ends is what the program prints, and what is told of a step is what it did.

mod common;

use common::{accepted, all_texts, root};
use epass::{Seen, Step};
use epass_tools::draw::Scene;
use epass_tools::program::Program;
use epass_tools::random::Chooser;
use epass_tools::state::State;
use epass_tools::story::{Deed, Event, Message, Next, Partner, Reception, Story};
use epass_tools::telling::sightings;
use epass_tools::trace::run;
use std::fs;

const SEEDS: [u64; 3] = [1, 2, 24];
/// Enough for most runs to end; those that go on are told so far.
const STEPS: usize = 400;

/// What the program prints for a text, but for its warnings.
fn printed(program: &Program<'_>) -> String {
    let mut out = String::new();
    for (line, name) in (0..).zip(&program.execs) {
        out += &format!("Executing process {}:\n", program.name(*name));
        let (ending, steps) = run(program, line, None, |event| {
            event.seen().into_iter().flat_map(sightings).for_each(|seen| out += &format!("{seen}\n"));
        })
        .unwrap();
        out += &format!("{} after {steps} steps\n", ending.word());
    }
    out
}

/// The stored output of each case, by its name: a line with the name, then what it prints.
fn stored() -> Vec<(String, String)> {
    let all = fs::read_to_string(root().join("crates/cases/stdout")).unwrap();
    let mut found: Vec<(String, String)> = Vec::new();
    for line in all.lines() {
        match found.last_mut() {
            _ if line.ends_with(".ep") => found.push((line.to_owned(), String::new())),
            Some((_, output)) if !line.starts_with("Warning: ") => *output += &format!("{line}\n"),
            _ => {}
        }
    }
    found
}

#[test]
fn what_is_seen_is_what_the_program_prints() {
    let stored = stored();
    let mut compared = 0;
    for (name, text) in common::texts("crates/cases/data") {
        let Some(program) = accepted(&text) else { continue };
        let (_, output) = stored.iter().find(|(other, _)| *other == name).unwrap_or_else(|| panic!("{name} has no stored output"));
        assert_eq!(printed(&program), *output, "{name}");
        compared += 1;
    }
    assert!(compared > 100, "{compared}");
}

/// A run told, with the configurations before and after each step.
fn told<'t>(program: &'t Program<'t>, line: u32, chooser: &mut Chooser, mut each: impl FnMut(&State, &Event<'t>, &State)) {
    let mut story = Story::start(program, line).unwrap();
    for _ in 0..STEPS {
        let Ok(Next::Open(open)) = story.what_next() else { return };
        let before = story.state();
        let event = story.step(chooser.choose(&open)).unwrap();
        assert_eq!(story.cast().count(), story.state().processes.len(), "{event}: the cast");
        each(&before, &event, &story.state());
    }
}

/// By how many the processes become more or fewer.
fn change(deed: &Deed<'_>) -> isize {
    match deed {
        Deed::Spawns { .. } | Deed::Tries { .. } => 1,
        Deed::Leaves { .. } => -1,
        _ => 0,
    }
}

/// Whether the step halts the run, by what is told of it.
fn halts(deed: &Deed<'_>) -> bool {
    let left_out = |reception: &Reception| *reception == Reception::LeftOut(None);
    match deed {
        Deed::Raises { handler } => handler.is_none(),
        Deed::Sends { reception, .. } | Deed::Receives { reception, .. } => left_out(reception),
        _ => false,
    }
}

/// Whether what was seen fits what is told.
fn seen_fits(event: &Event<'_>) -> bool {
    match (&event.deed, event.seen()) {
        (Deed::Sends { message, to: Partner::Outside(n), .. }, Some(seen)) => {
            seen.number() == *n
                && match (message, seen) {
                    (Message::Label(ours), Seen::Label { label, .. }) => ours.as_bytes() == label,
                    (Message::Close, Seen::Close { .. }) | (Message::Channel { .. }, Seen::Passed { .. }) => true,
                    _ => false,
                }
        }
        (Deed::Sends { to: Partner::Outside(_), .. }, None) => false,
        (Deed::GivesUp { partner: Partner::Outside(n), .. }, seen) => seen == Some(Seen::Cancelled { number: *n }),
        // A channel that is passed to nobody is given up.
        (Deed::Sends { message: Message::Channel { .. }, to: Partner::Nobody, .. }, seen) => matches!(seen, None | Some(Seen::Cancelled { .. })),
        // The outside uses what is provided: a fwd gives it up where the other end of what it uses was.
        (Deed::Forwards { partners: [Partner::Outside(n), Partner::Nobody], .. }, seen) => seen == Some(Seen::Cancelled { number: *n }),
        (_, seen) => seen.is_none(),
    }
}

#[test]
fn what_is_told_is_what_was_done() {
    let mut steps = 0;
    for (name, text) in all_texts() {
        let Some(program) = accepted(&text) else { continue };
        for line in 0..program.execs.len() as u32 {
            for mut chooser in [None].into_iter().chain(SEEDS.map(Some)).map(Chooser::new) {
                told(&program, line, &mut chooser, |before, event, after| {
                    let (was, is) = (before.processes.len() as isize, after.processes.len() as isize);
                    assert_eq!(is - was, change(&event.deed), "{name}: {event}");
                    assert_eq!(event.answer == Step::Uncaught, halts(&event.deed), "{name}: {event}");
                    assert_eq!(after.halted, halts(&event.deed), "{name}: {event}");
                    assert!(seen_fits(event), "{name}: {event}: {:?}", event.seen());
                    steps += 1;
                });
            }
        }
    }
    assert!(steps > 20_000, "{steps}");
}

/// A seed tells the order of each exec line by itself: a picture of the line is of the same run as its trace.
#[test]
fn a_seed_tells_each_line() {
    let text = fs::read(root().join("tools/tests/traced/steps.ep")).unwrap();
    let program = accepted(&text).unwrap();
    for line in 0..program.execs.len() as u32 {
        let mut traced = Vec::new();
        run(&program, line, Some(7), |event| traced.push(event.to_string())).unwrap();
        let scene = Scene::of(&program, line, None, Some(7)).unwrap();
        assert_eq!(scene.told.iter().map(Event::to_string).collect::<Vec<_>>(), traced);
    }
}

/// What a trace says, for a script in which every kind of step comes.
#[test]
fn a_trace() {
    let text = fs::read(root().join("tools/tests/traced/steps.ep")).unwrap();
    let program = accepted(&text).unwrap();
    for (seed, file) in [(None, "steps.txt"), (Some(7), "steps-7.txt")] {
        let mut out = Vec::new();
        epass_tools::trace::trace(&program, seed, &mut out).unwrap();
        let stored = fs::read_to_string(root().join("tools/tests/traced").join(file)).unwrap();
        assert_eq!(String::from_utf8(out).unwrap(), stored, "{file}");
    }
}
