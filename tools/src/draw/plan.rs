//! Where everything in the picture of a configuration stands.

use super::cards::{cards, Card, PortKind, PortPlace};
use super::grid::{Grid, AFTER, BEFORE};
use super::ground::{Ground, Joint, Loose, Tip};
use super::lanes::{lanes, Bend, Lane};
use super::svg::{width, Frame, Point};
use super::Snapshot;
use crate::program::Program;
use crate::state::Side;

pub const EDGE: i32 = 20;
/// Above the cards.
pub const TOP: i32 = 84;
/// A label's letters stand so much above their line, and are so high.
pub const LIFT: i32 = 5;
const LETTERS: i32 = 12;
const TIP_HEIGHT: i32 = 22;

/// A text on a line.
#[derive(Clone, Debug, PartialEq, Eq)]
pub struct Label {
    pub frame: Frame,
    pub text: String,
}

impl Label {
    /// It begins at a point of its line.
    fn at((x, y): Point, text: String) -> Label {
        Label { frame: Frame { x, y: y - LIFT - LETTERS, width: width(&text), height: LETTERS + LIFT - 1 }, text }
    }
}

/// A channel or a link.
#[derive(Clone, Debug, PartialEq, Eq)]
pub struct Line {
    /// From the user to the provider, or from a process to its handler.
    pub points: Vec<Point>,
    pub dashed: bool,
    pub labels: Vec<Label>,
    /// What stands at the end that is at no card.
    pub tip: Option<(Tip, Frame)>,
    /// Whether it comes to a card.
    pub arrives: bool,
    pub title: String,
}

pub struct Plan {
    pub cards: Vec<Card>,
    /// Of the cards, by place.
    pub frames: Vec<Frame>,
    pub lines: Vec<Line>,
    pub width: i32,
    pub height: i32,
}

impl Plan {
    pub fn of(program: &Program<'_>, snapshot: &Snapshot) -> Plan {
        let ground = Ground::of(cards(program, snapshot), TOP);
        let (joints, loose) = (turned(&ground), ground.loose());
        let grid = Grid::of(&ground, &joints, &loose, EDGE);
        let layout = Layout { ground: &ground, grid: &grid };
        let between = joints.iter().map(|(joint, lane)| layout.joint(*joint, *lane));
        let lines: Vec<Line> = between.chain(loose.iter().map(|line| layout.loose(line))).collect();
        let frames: Vec<Frame> = (0..ground.cards.len()).map(|place| layout.frame(place)).collect();
        let bottom = frames.iter().map(Frame::bottom).max().unwrap_or(TOP);
        let width = grid.right() + EDGE;
        Plan { cards: ground.cards, frames, lines, width, height: bottom + EDGE }
    }
}

/// The joints with the lanes on which they turn.
fn turned(ground: &Ground) -> Vec<(Joint, Lane)> {
    let joints = ground.joints();
    let bend = |joint: &Joint| Bend { gap: ground.column(joint.to), from: ground.height(joint.from), to: ground.height(joint.to) };
    let lanes = lanes(&joints.iter().map(bend).collect::<Vec<_>>());
    joints.into_iter().zip(lanes).collect()
}

struct Layout<'g> {
    ground: &'g Ground,
    grid: &'g Grid,
}

impl Layout<'_> {
    fn frame(&self, place: usize) -> Frame {
        let column = self.ground.forest.columns[place];
        Frame { x: self.grid.cards(column), y: self.ground.top(place), width: self.grid.card_width(column), height: self.ground.cards[place].height() }
    }

    /// The point of a port.
    fn point(&self, spot: PortPlace, side: Side) -> Point {
        let frame = self.frame(spot.place);
        let x = if side == Side::Used { frame.right() } else { frame.x };
        (x, self.ground.height(spot))
    }

    fn joint(&self, joint: Joint, lane: Lane) -> Line {
        let (from, to) = (self.point(joint.from, Side::Used), self.point(joint.to, Side::Provided));
        let turn = self.grid.lane(self.ground.column(joint.to), lane);
        let points = if from.1 == to.1 { vec![from, to] } else { vec![from, (turn, from.1), (turn, to.1), to] };
        let (user, provider) = (&self.ground.port(joint.from, Side::Used).kind, &self.ground.port(joint.to, Side::Provided).kind);
        Line {
            points,
            dashed: *user == PortKind::Link,
            labels: [self.label(joint.from, Side::Used), self.label(joint.to, Side::Provided)].into_iter().flatten().collect(),
            tip: None,
            arrives: true,
            title: match user {
                PortKind::Link => format!("{} waits for {}", self.name(joint.to), self.name(joint.from)),
                _ => format!("{} uses {}\n{} provides {}", self.name(joint.from), user.title(), self.name(joint.to), provider.title()),
            },
        }
    }

    /// The label of a port, if it has one.
    fn label(&self, spot: PortPlace, side: Side) -> Option<Label> {
        let (x, y) = self.point(spot, side);
        let text = self.ground.label(spot, side);
        let begins = if side == Side::Used { x + BEFORE } else { x - AFTER - width(&text) };
        (!text.is_empty()).then(|| Label::at((begins, y), text))
    }

    fn name(&self, spot: PortPlace) -> &str {
        &self.ground.cards[spot.place].name
    }

    fn loose(&self, line: &Loose) -> Line {
        let held = &self.ground.port(line.at, line.side).kind;
        let (x, y) = self.point(line.at, line.side);
        let reach = BEFORE + self.ground.reach(line.at.place, line.side) + AFTER;
        let tip_at = if line.side == Side::Used { x + reach } else { x - reach - line.tip.width() };
        let tip = Frame { x: tip_at, y: y - TIP_HEIGHT / 2, width: line.tip.width(), height: TIP_HEIGHT };
        let points = match line.side {
            Side::Used => vec![(x, y), (reached(&line.tip, tip, tip.x), y)],
            Side::Provided => vec![(reached(&line.tip, tip, tip.right()), y), (x, y)],
        };
        Line {
            points,
            dashed: *held == PortKind::Link,
            labels: self.label(line.at, line.side).into_iter().collect(),
            tip: Some((line.tip.clone(), tip)),
            arrives: line.side == Side::Provided,
            title: format!("{}: {}", self.name(line.at), held.title()),
        }
    }
}

/// A line goes to the middle of a cross, and to the border of any other tip.
fn reached(tip: &Tip, frame: Frame, border: i32) -> i32 {
    match tip {
        Tip::Cross => frame.x + frame.width / 2,
        _ => border,
    }
}
