//! Where everything in the picture of the messages stands: a row a step, the lifelines as far apart as what is written between them asks for.

use super::lifelines::{lifelines, Lifeline, Phase};
use super::phrases::cut;
use super::strokes::{strokes, Stroke, Way, Who};
use super::svg::{width, Frame, Point};
use super::Scene;
use crate::story::Event;
use crate::telling::sightings;

pub const EDGE: i32 = 20;
/// Where the heads stand of those that are there from the start, and where the steps begin.
pub const HEADS: i32 = 92;
const STEPS: i32 = 112;
/// The height of a stroke's strip, and of its line in it.
const STRIP: i32 = 30;
const LINE: i32 = 19;
/// The steps' numbers stand before this, the names of those that take them after it.
pub const NUMBERS: i32 = EDGE + 34;
const MOST_OF_NAME: usize = 24;
const LEAST_APART: i32 = 50;
const AIR: i32 = 12;
/// Where there are no more lifelines than this, a text beside one of them hides no other, unless it is longer than that.
const FEW: usize = 10;
const LONG: i32 = 240;
/// Between a lifeline and a text beside it.
pub const BESIDE: i32 = 12;
/// After so many steps the names stand again, for who no longer sees the heads.
const AGAIN: usize = 25;
const STRIP_OF_NAMES: i32 = 24;

pub struct Row {
    pub number: u32,
    pub name: String,
    pub seen: String,
    pub title: String,
    pub strokes: Vec<Stroke>,
    pub top: i32,
}

impl Row {
    /// The height of a stroke's line.
    pub fn line(&self, stroke: usize) -> i32 {
        self.top + LINE + STRIP * stroke as i32
    }

    /// The height of a change: who starts is told so by the last stroke.
    pub fn change(&self, phase: Phase) -> i32 {
        self.line(if phase == Phase::Runs { self.strokes.len().saturating_sub(1) } else { 0 })
    }

    pub fn bottom(&self) -> i32 {
        self.top + STRIP * self.strokes.len().max(1) as i32
    }
}

/// The names of those that are there before a row's step, or at the end.
pub struct Names {
    pub row: usize,
    pub line: i32,
}

pub struct Sheet {
    pub lifelines: Vec<Lifeline>,
    /// Of the lifelines.
    pub xs: Vec<i32>,
    pub rows: Vec<Row>,
    pub names: Vec<Names>,
    /// What was seen stands before this.
    pub seen: i32,
    pub width: i32,
    /// Where the steps end.
    pub bottom: i32,
}

impl Sheet {
    pub fn of(scene: &Scene<'_>) -> Sheet {
        let (lifelines, (rows, names)) = (lifelines(scene), rows(scene));
        let widest = |text: fn(&Row) -> &str| rows.iter().map(|row| width(text(row))).max().unwrap_or(0);
        let seen = NUMBERS + BESIDE + widest(|row| &row.name) + 2 * BESIDE + widest(|row| &row.seen);
        let bottom = rows.last().map_or(STEPS, Row::bottom);
        let mut sheet = Sheet { lifelines, xs: Vec::new(), rows, names, seen, width: 0, bottom };
        let first = (seen + BESIDE).max(EDGE + sheet.lifelines.first().map_or(0, half));
        sheet.xs = apart(&sheet.distances(), sheet.lifelines.len(), first);
        sheet.width = sheet.right() + EDGE;
        sheet
    }

    pub fn x(&self, who: Who) -> i32 {
        self.xs[self.index(who)]
    }

    fn index(&self, who: Who) -> usize {
        self.lifelines.iter().position(|line| line.who == who).unwrap_or(0)
    }

    /// The box with the name of one that comes.
    pub fn head(&self, index: usize) -> Frame {
        let line = &self.lifelines[index];
        let y = line.born.map_or(HEADS, |row| self.rows[row].line(0));
        Frame { x: self.xs[index] - half(line), y: y - 10, width: 2 * half(line), height: 20 }
    }

    /// Where a stroke's arrow ends, if it goes anywhere.
    pub fn target(&self, stroke: &Stroke) -> Option<i32> {
        let from = self.x(stroke.from);
        match stroke.way {
            Way::Stays => None,
            Way::Lost => Some(from + BESIDE + width(&stroke.text) + AIR),
            Way::Makes(who) => Some(self.head(self.index(who)).x),
            Way::Message(who) | Way::Tells(who) => Some(self.x(who)),
        }
    }

    /// Where a stroke's text begins: beside its lifeline, on the way that it goes.
    pub fn text(&self, stroke: &Stroke, line: i32) -> Point {
        let from = self.x(stroke.from);
        match self.target(stroke) {
            None => (from + BESIDE, line + 4),
            Some(to) if to < from => (from - BESIDE - width(&stroke.text), line - 5),
            Some(_) => (from + BESIDE, line - 5),
        }
    }

    /// How far apart lifelines must be, by their indices from left to right.
    fn distances(&self) -> Vec<(usize, usize, i32)> {
        let mut found = Vec::new();
        for (index, line) in self.lifelines.iter().enumerate() {
            let before = if index == 1 && line.born.is_none() { half(&self.lifelines[0]) } else { 0 };
            found.push((index.saturating_sub(1), index, half(line) + AIR + before));
            found.push((index, index + 1, half(line) + AIR));
        }
        found.extend(self.rows.iter().flat_map(|row| &row.strokes).flat_map(|stroke| self.asked(stroke)));
        found
    }

    /// How far apart a stroke asks its lifelines to be, and, where they are few, the next one.
    fn asked(&self, stroke: &Stroke) -> Vec<(usize, usize, i32)> {
        let from = self.index(stroke.from);
        let to = stroke.way.target().map(|who| self.index(who));
        let text = width(&stroke.text) + BESIDE + AIR / 2;
        let next = if to.is_some_and(|to| to < from) { from - 1 } else { from + 1 };
        let cross = if stroke.way == Way::Lost { 2 * AIR } else { 0 };
        let beside = if self.lifelines.len() <= FEW { (text + cross).min(LONG) } else { 0 };
        let head = if matches!(stroke.way, Way::Makes(_)) { to.map_or(0, |to| half(&self.lifelines[to])) } else { 0 };
        let between = to.map(|to| (from.min(to), from.max(to), text + BESIDE + head));
        [(from.min(next), from.max(next), beside)].into_iter().chain(between).collect()
    }

    /// The texts of a strip of names, each in the middle of its lifeline and no longer than the next ones leave room for.
    pub fn named(&self, names: &Names) -> Vec<(i32, String)> {
        let there: Vec<(i32, &str)> = self.xs.iter().zip(&self.lifelines).filter_map(|(x, line)| Some((*x, line.name_before(names.row)?))).collect();
        if !self.lifelines.iter().any(|line| line.who != Who::Outside && line.name_before(names.row).is_some()) {
            return Vec::new();
        }
        let room = |i: usize| {
            let apart = |a: usize, b: usize| Some(there.get(b)?.0 - there.get(a)?.0);
            let before = i.checked_sub(1).and_then(|before| apart(before, i));
            before.into_iter().chain(apart(i, i + 1)).min().unwrap_or(LONG)
        };
        there.iter().enumerate().map(|(i, (x, name))| (*x, cut(name, (room(i) / 7) as usize))).collect()
    }

    fn right(&self) -> i32 {
        let heads = (0..self.lifelines.len()).map(|index| self.head(index).right());
        let strokes = self.rows.iter().flat_map(|row| &row.strokes);
        let texts = strokes.map(|stroke| (self.text(stroke, 0).0 + width(&stroke.text)).max(self.target(stroke).unwrap_or(0)) + AIR);
        heads.chain(texts).max().unwrap_or(0)
    }
}

/// Half as wide as a lifeline's head.
fn half(line: &Lifeline) -> i32 {
    width(&line.name) / 2 + BESIDE
}

/// The smallest positions from one on that keep the distances.
fn apart(distances: &[(usize, usize, i32)], count: usize, first: i32) -> Vec<i32> {
    let mut xs = vec![first; count];
    for right in 1..count {
        let asked = distances.iter().filter(|(left, other, _)| *other == right && *left < right);
        xs[right] = asked.map(|(left, _, distance)| xs[*left] + distance).fold(xs[right - 1] + LEAST_APART, i32::max);
    }
    xs
}

fn rows(scene: &Scene<'_>) -> (Vec<Row>, Vec<Names>) {
    let mut top = STEPS;
    let (mut rows, mut names) = (Vec::new(), Vec::new());
    for told in &scene.told {
        if !rows.is_empty() && rows.len() % AGAIN == 0 {
            names.push(Names { row: rows.len(), line: top + STRIP_OF_NAMES / 2 });
            top += STRIP_OF_NAMES;
        }
        let row = row(told, top);
        top = row.bottom();
        rows.push(row);
    }
    names.push(Names { row: rows.len(), line: top + STRIP_OF_NAMES / 2 });
    (rows, names)
}

fn row(told: &Event<'_>, top: i32) -> Row {
    let event = told;
    let seen = event.seen().map_or(String::new(), |seen| sightings(seen).join(", "));
    let shown = if seen.is_empty() { String::new() } else { format!("\n{seen}") };
    Row {
        number: event.number,
        name: cut(&event.actor.name, MOST_OF_NAME),
        title: format!("step {}, at place {}: {event}{shown}", event.number, event.place),
        seen,
        strokes: strokes(told),
        top,
    }
}

#[cfg(test)]
mod tests {
    use super::*;

    #[test]
    fn lifelines_stand_as_far_apart_as_they_are_asked_to() {
        assert_eq!(apart(&[(0, 2, 300), (1, 2, 90), (0, 1, 10)], 4, 20), [20, 70, 320, 370]);
    }
}
