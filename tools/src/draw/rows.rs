//! How far down each card stands: beside the port of the card that leads to it, below what that led to before. In one column no two meet.

use super::cards::{Card, Goes, Port};
use super::forest::Forest;

/// Between the cards of a column, and between trees.
const GAP: i32 = 18;
const TREE_GAP: i32 = 30;

/// A card that would share a line's height with another makes way by so much.
const WAY: i32 = 12;

struct Rows<'c> {
    cards: &'c [Card],
    forest: &'c Forest,
    tops: Vec<Option<i32>>,
    /// By column: where the next card may begin.
    free: Vec<i32>,
}

/// The tops of the cards, by place, from a height on.
pub fn tops(cards: &[Card], forest: &Forest, from: i32) -> Vec<i32> {
    let mut rows = Rows { cards, forest, tops: vec![None; cards.len()], free: vec![from; forest.last_column() + 1] };
    let mut next = from;
    for root in &forest.roots {
        next = rows.settle(*root, next) + TREE_GAP;
    }
    for row in &forest.alone {
        next = row.iter().map(|place| rows.settle(*place, next)).max().unwrap_or(next) + GAP;
    }
    rows.tops.into_iter().map(|top| top.unwrap_or(from)).collect()
}

impl Rows<'_> {
    /// Finds room for a card and all that hangs on it; gives the bottom of it all.
    fn settle(&mut self, place: usize, wanted: i32) -> i32 {
        let (cards, column) = (self.cards, self.forest.columns[place]);
        let card = &cards[place];
        let mut top = wanted.max(self.free[column]);
        while self.clashes(card, top) {
            top += WAY;
        }
        self.tops[place] = Some(top);
        let bottom = top + card.height();
        self.free[column] = bottom + GAP;
        let (mut next, mut lowest) = (top, bottom);
        for (depth, place, row) in joints(&card.right).chain(joints(&card.left)) {
            if self.tops[place].is_none() && self.forest.joins(card.place, place) {
                let below = self.settle(place, next.max(top + depth - Card::depth(row)));
                lowest = lowest.max(below);
                next = below + GAP;
            }
        }
        lowest
    }

    /// Whether a line of the card would run on one height with a line of another.
    fn clashes(&self, card: &Card, top: i32) -> bool {
        let column = self.forest.columns[card.place];
        let placed = self.cards.iter().filter_map(|other| self.tops[other.place].map(|top| (other, top)));
        placed.into_iter().any(|(other, other_top)| match self.forest.columns[other.place] {
            next if next == column + 1 => meet(card, top, other, other_top),
            before if before + 1 == column => meet(other, other_top, card, top),
            _ => false,
        })
    }
}

/// The joints at ports: how deep each is, and the place and the row that it leads to.
fn joints(ports: &[Port]) -> impl Iterator<Item = (i32, usize, usize)> + '_ {
    ports.iter().enumerate().filter_map(|(row, port)| match port.goes {
        Goes::To(spot) => Some((Card::depth(row), spot.place, spot.row)),
        _ => None,
    })
}

/// Whether a line from a card's right is as high as another line to a card's left.
fn meet(user: &Card, user_top: i32, provider: &Card, provider_top: i32) -> bool {
    let one = |place: usize, row: usize, depth: i32| place == provider.place && Card::depth(row) == depth;
    joints(&user.right).any(|(height, place, row)| {
        joints(&provider.left).any(|(depth, _, _)| user_top + height == provider_top + depth && !one(place, row, depth))
    })
}
