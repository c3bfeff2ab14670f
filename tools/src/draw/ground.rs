//! The cards of a configuration where they stand, and the lines that they ask for.

use super::cards::{Card, Goes, Port, PortPlace};
use super::forest::Forest;
use super::rows::tops;
use super::svg::width;
use crate::state::Side;

/// A line between two cards of a tree: from the user's right to the provider's left, or from a process's to its handler's.
#[derive(Clone, Copy, Debug, PartialEq, Eq)]
pub struct Joint {
    pub from: PortPlace,
    pub to: PortPlace,
}

/// How a line ends that goes to no card of its tree.
#[derive(Clone, Debug, PartialEq, Eq)]
pub enum Tip {
    Outside(u32),
    /// The other end was given up.
    Cross,
    /// It goes on at a card of another tree.
    Flag(String),
}

impl Tip {
    pub fn width(&self) -> i32 {
        match self {
            Tip::Outside(_) => 22,
            Tip::Cross => 12,
            Tip::Flag(text) => width(text) + 12,
        }
    }
}

/// A line at one card alone: at its right for an end that is used, at its left for one that is provided.
#[derive(Clone, Debug, PartialEq, Eq)]
pub struct Loose {
    pub at: PortPlace,
    pub side: Side,
    pub tip: Tip,
}

pub struct Ground {
    pub cards: Vec<Card>,
    pub forest: Forest,
    tops: Vec<i32>,
}

impl Ground {
    /// The cards stand from a height on.
    pub fn of(cards: Vec<Card>, from: i32) -> Ground {
        let forest = Forest::of(&cards);
        let tops = tops(&cards, &forest, from);
        Ground { cards, forest, tops }
    }

    pub fn top(&self, place: usize) -> i32 {
        self.tops[place]
    }

    /// The height of a port.
    pub fn height(&self, spot: PortPlace) -> i32 {
        self.tops[spot.place] + Card::depth(spot.row)
    }

    pub fn column(&self, spot: PortPlace) -> usize {
        self.forest.columns[spot.place]
    }

    pub fn port(&self, spot: PortPlace, side: Side) -> &Port {
        let card = &self.cards[spot.place];
        match side {
            Side::Used => &card.right[spot.row],
            Side::Provided => &card.left[spot.row],
        }
    }

    pub fn joints(&self) -> Vec<Joint> {
        let joint = |(from, port): (PortPlace, &Port)| match port.goes {
            Goes::To(to) if self.forest.joins(from.place, to.place) => Some(Joint { from, to }),
            _ => None,
        };
        self.ports(Side::Used).filter_map(joint).collect()
    }

    pub fn loose(&self) -> Vec<Loose> {
        let both = [Side::Used, Side::Provided].into_iter();
        both.flat_map(|side| self.ports(side).filter_map(move |(at, port)| Some(Loose { at, side, tip: self.tip(at, port, side)? }))).collect()
    }

    fn tip(&self, at: PortPlace, port: &Port, side: Side) -> Option<Tip> {
        match port.goes {
            Goes::Outside(number) => Some(Tip::Outside(number)),
            Goes::Nobody => Some(Tip::Cross),
            Goes::To(other) if self.forest.joins(at.place, other.place) => None,
            Goes::To(other) => {
                let way = if side == Side::Used { "to" } else { "from" };
                Some(Tip::Flag(format!("{way} {}", self.cards[other.place].name)))
            }
        }
    }

    fn ports(&self, side: Side) -> impl Iterator<Item = (PortPlace, &Port)> {
        self.cards.iter().flat_map(move |card| {
            let ports = if side == Side::Used { &card.right } else { &card.left };
            ports.iter().enumerate().map(|(row, port)| (PortPlace { place: card.place, row }, port))
        })
    }

    /// What stands on the line of a port near its card: of a channel between two cards at its provider all, at its user the name, where it is another.
    pub fn label(&self, at: PortPlace, side: Side) -> String {
        let port = self.port(at, side);
        match port.goes {
            Goes::To(other) if side == Side::Used && self.forest.joins(at.place, other.place) => {
                let theirs = self.port(other, Side::Provided).kind.name();
                if port.kind.name() == theirs { String::new() } else { port.kind.name().to_owned() }
            }
            _ => port.kind.label(),
        }
    }

    /// How far the labels of a side reach: beyond them stand the tips.
    pub fn reach(&self, place: usize, side: Side) -> i32 {
        let here = self.ports(side).filter(|(at, _)| at.place == place);
        here.map(|(at, _)| width(&self.label(at, side))).max().unwrap_or(0)
    }
}
