//! Pictures of a run, as SVG: a configuration of it, and the messages.

pub mod cards;
pub mod configuration;
mod forest;
mod grid;
pub mod ground;
mod lanes;
pub mod lifelines;
pub mod messages;
mod phrases;
pub mod plan;
mod rows;
pub mod sheet;
pub mod strokes;
pub mod svg;

use crate::program::Program;
use crate::progress::Progress;
use crate::random::Chooser;
use crate::state::State;
use crate::story::{Ending, Event, Next, Story};
use epass::Refusal;

/// So many steps of messages are drawn, where the caller names no number.
pub const MOST_MESSAGES: usize = 200;

pub struct Pictures {
    pub configuration: String,
    pub messages: String,
    /// After so many the configuration is drawn.
    pub steps: u32,
}

/// A configuration with the names of its processes, by place.
#[derive(Clone, Debug)]
pub struct Snapshot {
    pub steps: u32,
    pub state: State,
    pub names: Vec<String>,
}

/// What is drawn of a run.
pub struct Scene<'t> {
    pub exec: &'t str,
    pub seed: Option<u64>,
    pub snapshot: Snapshot,
    pub told: Vec<Event<'t>>,
    /// The steps that were carried out, of which not all need be told.
    pub steps: u32,
    /// How the run ended, if it was carried out to its end.
    pub ending: Option<Ending>,
}

/// Draws a run of an exec line: the configuration after so many steps, or where the run ends before, and the messages up to there. Where no number is named: the first
/// configuration with the most processes, and the messages of the whole run, of which the first 200 steps are drawn.
pub fn draw<'t>(program: &'t Program<'t>, line: u32, steps: Option<u32>, seed: Option<u64>) -> Result<Pictures, Refusal> {
    Ok(Scene::of(program, line, steps, seed)?.pictures(program))
}

impl<'t> Scene<'t> {
    /// Carries out a run of an exec line: so many steps of it, or all.
    pub fn of(program: &'t Program<'t>, line: u32, steps: Option<u32>, seed: Option<u64>) -> Result<Scene<'t>, Refusal> {
        let mut story = Story::start(program, line)?;
        let exec = program.name(program.execs[line as usize]);
        let mut scene = Scene { exec, seed, snapshot: Snapshot::of(&story), told: Vec::new(), steps: 0, ending: None };
        let (mut chooser, mut progress) = (Chooser::new(seed), Progress::begin());
        scene.ending = loop {
            match story.what_next()? {
                Next::Ended(ending) => break Some(ending),
                Next::Open(_) if steps == Some(scene.steps) => break None,
                Next::Open(open) => {
                    let event = story.step(chooser.choose(&open))?;
                    scene.take(event, &story, steps.is_none());
                }
            }
            progress.say(|| format!("step {}", scene.steps));
        };
        if steps.is_some() {
            scene.snapshot = Snapshot::of(&story);
        }
        Ok(scene)
    }

    /// Takes in a step; of a whole run not all messages are kept, and of its configurations the first of the largest.
    fn take(&mut self, event: Event<'t>, story: &Story<'t>, whole: bool) {
        self.steps = event.number;
        if whole && story.cast().count() > self.snapshot.names.len() {
            self.snapshot = Snapshot::of(story);
        }
        if !whole || self.told.len() < MOST_MESSAGES {
            self.told.push(event);
        }
    }

    pub fn pictures(&self, program: &Program<'_>) -> Pictures {
        Pictures {
            configuration: configuration::picture(program, &self.snapshot, &self.legend()),
            messages: messages::picture(self),
            steps: self.snapshot.steps,
        }
    }

    /// What the configuration's picture is of.
    fn legend(&self) -> String {
        let halted = if self.snapshot.state.halted { ", halted" } else { "" };
        format!("exec {}, after {} steps{}{halted}", self.exec, self.snapshot.steps, self.seeded())
    }

    fn seeded(&self) -> String {
        self.seed.map_or(String::new(), |seed| format!(", seed {seed}"))
    }
}

impl Snapshot {
    pub fn of(story: &Story<'_>) -> Snapshot {
        let cast = story.cast();
        Snapshot {
            steps: story.steps(),
            state: story.state(),
            names: (0..cast.count()).map(|place| cast.at(place).name.clone()).collect(),
        }
    }
}
