//! What the picture of a configuration shows of each process: a card, with a port for each end that it holds.

use super::phrases::{cut, next, script_line};
use super::svg::width;
use super::Snapshot;
use crate::program::Program;
use crate::state::{Doing, End, Far, Side, State};

/// So many characters of a type are shown.
const MOST_OF_TYPE: usize = 30;

/// The heights of a card's head and of a port's row.
const HEAD: i32 = 46;
const ROW: i32 = 24;
const FOOT: i32 = 4;
pub const MARGIN: i32 = 10;
const LEAST_WIDTH: i32 = 150;

/// A port by its card's place and its row there.
#[derive(Clone, Copy, Debug, PartialEq, Eq)]
pub struct PortPlace {
    pub place: usize,
    pub row: usize,
}

/// Where the line at a port leads: from the right of a card to the left of another, or the other way.
#[derive(Clone, Copy, Debug, PartialEq, Eq)]
pub enum Goes {
    To(PortPlace),
    Outside(u32),
    Nobody,
}

#[derive(Clone, Debug, PartialEq, Eq)]
pub enum PortKind {
    /// A channel, by the holder's name for it, with its type.
    Channel { name: String, shown: String },
    /// The link to a handler; or, at the handler, from its process.
    Link,
}

impl PortKind {
    /// What stands beside the port in its card.
    pub fn name(&self) -> &str {
        match self {
            PortKind::Channel { name, .. } => name,
            PortKind::Link => "",
        }
    }

    /// What stands on the line.
    pub fn label(&self) -> String {
        match self {
            PortKind::Channel { name, shown } => format!("{name} : {}", cut(shown, MOST_OF_TYPE)),
            PortKind::Link => "handler".to_owned(),
        }
    }

    /// In full.
    pub fn title(&self) -> String {
        match self {
            PortKind::Channel { name, shown } => format!("{name} : {shown}"),
            PortKind::Link => "handler".to_owned(),
        }
    }
}

#[derive(Clone, Debug, PartialEq, Eq)]
pub struct Port {
    pub kind: PortKind,
    pub goes: Goes,
}

#[derive(Clone, Debug, PartialEq, Eq)]
pub struct Card {
    pub place: usize,
    pub name: String,
    pub doing: Doing,
    pub next: String,
    /// The line of the script that it has come to.
    pub line: Option<u32>,
    /// What it provides, oldest first; before that, a waiting handler's link.
    pub left: Vec<Port>,
    /// What it uses, oldest first, and its link.
    pub right: Vec<Port>,
}

impl Card {
    pub fn place_note(&self) -> String {
        format!("place {}", self.place)
    }

    pub fn line_note(&self) -> String {
        self.line.map_or(String::new(), |line| format!("line {line}"))
    }

    pub fn width(&self) -> i32 {
        let beside = |left: &str, right: &str| width(left) + width(right) + 2 * MARGIN;
        let widest = |ports: &[Port]| ports.iter().map(|port| width(port.kind.name())).max().unwrap_or(0);
        let rows = widest(&self.left) + widest(&self.right) + 2 * MARGIN;
        let head = beside(&self.name, &self.place_note()).max(beside(&self.next, &self.line_note()));
        (head.max(rows) + 2 * MARGIN).max(LEAST_WIDTH)
    }

    pub fn height(&self) -> i32 {
        HEAD + FOOT + ROW * self.left.len().max(self.right.len()) as i32
    }

    /// How far below the card's top the ports of a row are.
    pub fn depth(row: usize) -> i32 {
        HEAD + ROW * row as i32 + ROW / 2
    }
}

/// What a side of a card has.
#[derive(Clone, Copy, PartialEq, Eq)]
enum Slot {
    End(End),
    /// The link to the handler at a place.
    Handler(usize),
    /// At a handler, the link of the process at a place.
    Owner(usize),
}

/// The cards of a configuration, by place.
pub fn cards(program: &Program<'_>, snapshot: &Snapshot) -> Vec<Card> {
    let state = &snapshot.state;
    let ports = |slots: Vec<Slot>| slots.into_iter().map(|slot| port(program, state, slot)).collect();
    let card = |(place, name): (usize, &String)| {
        let doing = state.processes[place].doing;
        Card {
            place,
            name: name.clone(),
            doing,
            next: next(program, doing),
            line: script_line(program, doing),
            left: ports(left(state, place)),
            right: ports(right(state, place)),
        }
    };
    snapshot.names.iter().enumerate().map(card).collect()
}

fn left(state: &State, place: usize) -> Vec<Slot> {
    let owner = state.processes.iter().position(|process| process.link == Some(place));
    owner.map(Slot::Owner).into_iter().chain(ends(state, place, Side::Provided)).collect()
}

fn right(state: &State, place: usize) -> Vec<Slot> {
    let link = state.processes[place].link.map(Slot::Handler);
    ends(state, place, Side::Used).chain(link).collect()
}

fn ends(state: &State, place: usize, side: Side) -> impl Iterator<Item = Slot> + '_ {
    state.processes[place].held.iter().filter(move |end| end.side == side).map(|end| Slot::End(*end))
}

fn port(program: &Program<'_>, state: &State, slot: Slot) -> Port {
    let link = |place, row| Port { kind: PortKind::Link, goes: Goes::To(PortPlace { place, row }) };
    match slot {
        Slot::End(end) => Port {
            kind: PortKind::Channel { name: program.name(end.name).to_owned(), shown: program.shown(end.annotation) },
            goes: goes(state, end),
        },
        Slot::Handler(place) => link(place, 0),
        Slot::Owner(place) => link(place, right(state, place).len() - 1),
    }
}

fn goes(state: &State, end: End) -> Goes {
    match state.far(end) {
        Far::Outside(number) => Goes::Outside(number),
        Far::Nobody => Goes::Nobody,
        Far::Process(place, other) => {
            let slots = if other.side == Side::Provided { left(state, place) } else { right(state, place) };
            let row = slots.iter().position(|slot| *slot == Slot::End(other)).unwrap_or(0);
            Goes::To(PortPlace { place, row })
        }
    }
}
