//! The processes of a run over its steps: when each comes, what it does until when, and when it leaves.

use super::strokes::Who;
use super::Scene;
use crate::cast::Actor;
use crate::story::{Deed, Event, Partner, Reception};

#[derive(Clone, Copy, Debug, PartialEq, Eq)]
pub enum Phase {
    Runs,
    Waits,
    FoldsUp,
    Left,
}

/// A change that a step brings about, by the step's row.
#[derive(Clone, Copy, Debug, PartialEq, Eq)]
pub struct Change {
    pub row: usize,
    pub phase: Phase,
}

pub struct Lifeline {
    pub who: Who,
    /// The name that it comes with.
    pub name: String,
    /// The row in which it comes, if it does not stand at the top.
    pub born: Option<usize>,
    /// What it does at first, and the changes, in order.
    pub first: Phase,
    pub changes: Vec<Change>,
    /// The rows in which it calls, and its names from then on.
    names: Vec<(usize, String)>,
}

impl Lifeline {
    fn new(who: Who, name: &str, born: Option<usize>, first: Phase) -> Lifeline {
        Lifeline { who, name: name.to_owned(), born, first, changes: Vec::new(), names: Vec::new() }
    }

    /// Its name before a row's step, if it is there.
    pub fn name_before(&self, row: usize) -> Option<&str> {
        let left = self.changes.iter().any(|change| change.phase == Phase::Left && change.row < row);
        if left || self.born.is_some_and(|born| born >= row) {
            return None;
        }
        let called = self.names.iter().rev().find(|(at, _)| *at < row);
        Some(called.map_or(&self.name, |(_, name)| name))
    }
}

/// The lifelines from left to right: the outside, if it takes part, then the processes in the order in which they came.
pub fn lifelines(scene: &Scene<'_>) -> Vec<Lifeline> {
    let mut lines = vec![Lifeline::new(Who::Process(0), scene.exec, None, Phase::Runs)];
    for (row, told) in scene.told.iter().enumerate() {
        if let Some((new, first)) = comes(told) {
            lines.push(Lifeline::new(Who::Process(new.id), &new.name, Some(row), first));
        }
        for (actor, phase) in changes(told) {
            lines[actor.id].changes.push(Change { row, phase });
        }
        if told.name_after() != told.actor.name {
            lines[told.actor.id].names.push((row, told.name_after().to_owned()));
        }
    }
    let outside = scene.told.iter().any(|told| told.seen().is_some());
    let outside = outside.then(|| Lifeline::new(Who::Outside, "outside", None, Phase::Runs));
    outside.into_iter().chain(lines).collect()
}

/// Who comes in a step, and what it does at first.
fn comes<'e>(told: &'e Event<'_>) -> Option<(&'e Actor, Phase)> {
    match &told.deed {
        Deed::Spawns { new, .. } => Some((new, Phase::Runs)),
        Deed::Tries { handler } => Some((handler, Phase::Waits)),
        _ => None,
    }
}

/// Who does something else after a step.
fn changes<'e>(told: &'e Event<'_>) -> Vec<(&'e Actor, Phase)> {
    let actor = &told.actor;
    let woken = |handler: &'e Option<Actor>, phase: Phase| handler.iter().map(move |handler| (handler, phase));
    match &told.deed {
        Deed::Raises { handler } => woken(handler, Phase::Runs).collect(),
        Deed::Leaves { handler } => woken(handler, Phase::FoldsUp).chain([(actor, Phase::Left)]).collect(),
        Deed::Loses { handler, .. } => woken(handler, Phase::Runs).chain([(actor, Phase::FoldsUp)]).collect(),
        Deed::Sends { to: Partner::Process(receiver, _), reception: Reception::LeftOut(handler), .. } => left_out(receiver, handler),
        Deed::Receives { reception: Reception::LeftOut(handler), .. } => left_out(actor, handler),
        _ => Vec::new(),
    }
}

/// A receiver folds up whose handler starts; without one the run halts, and all stay as they are.
fn left_out<'e>(receiver: &'e Actor, handler: &'e Option<Actor>) -> Vec<(&'e Actor, Phase)> {
    handler.iter().flat_map(|handler| [(handler, Phase::Runs), (receiver, Phase::FoldsUp)]).collect()
}
