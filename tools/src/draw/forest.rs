//! Which card stands in which column: a provider right of its user, a handler right of its process. The joints close no circle, so that each column follows from
//! any other of its tree. What would go on past the last column goes on in a tree of its own, lower down; those that are joined to none stand side by side.

use super::cards::{Card, Goes, Port};

/// A tree has at most so many columns.
const MOST_COLUMNS: usize = 8;

/// Those that are joined to none stand in so many columns, if no tree has more.
const ALONE_COLUMNS: usize = 4;

pub struct Forest {
    /// By place.
    pub columns: Vec<usize>,
    /// A place of each tree, in a first column.
    pub roots: Vec<usize>,
    /// The places that are joined to none, as they stand side by side.
    pub alone: Vec<Vec<usize>>,
    tree: Vec<usize>,
}

/// A place with its column, counted from that of another.
type Level = (usize, isize);

impl Forest {
    pub fn of(cards: &[Card]) -> Forest {
        let whole = Forest::grown(cards, |_, _| true);
        let sheet = |place: usize| whole.columns[place] / MOST_COLUMNS;
        let mut forest = Forest::grown(cards, |place, other| sheet(place) == sheet(other));
        forest.set_apart();
        forest
    }

    /// Takes those that are joined to none from the trees.
    fn set_apart(&mut self) {
        let is_alone = |root: &usize| self.tree.iter().filter(|tree| **tree == self.tree[*root]).count() == 1;
        let (alone, roots): (Vec<usize>, Vec<usize>) = self.roots.iter().partition(|root| is_alone(root));
        let columns = if roots.is_empty() { ALONE_COLUMNS } else { ALONE_COLUMNS.max(self.last_column() + 1) };
        for row in alone.chunks(columns) {
            row.iter().enumerate().for_each(|(column, place)| self.columns[*place] = column);
        }
        self.alone = alone.chunks(columns).map(<[usize]>::to_vec).collect();
        self.roots = roots;
    }

    /// Whether two places are of one tree, so that a joint between them is drawn as a line.
    pub fn joins(&self, place: usize, other: usize) -> bool {
        self.tree[place] == self.tree[other]
    }

    pub fn last_column(&self) -> usize {
        self.columns.iter().copied().max().unwrap_or(0)
    }

    fn grown(cards: &[Card], joins: impl Fn(usize, usize) -> bool) -> Forest {
        let mut forest = Forest { columns: vec![0; cards.len()], roots: Vec::new(), alone: Vec::new(), tree: vec![usize::MAX; cards.len()] };
        for place in 0..cards.len() {
            if forest.tree[place] == usize::MAX {
                forest.add(&tree(cards, place, &joins));
            }
        }
        forest
    }

    fn add(&mut self, tree: &[Level]) {
        let Some((least, root)) = tree.iter().map(|(place, level)| (*level, *place)).min() else { return };
        for (place, level) in tree {
            self.columns[*place] = level.abs_diff(least);
            self.tree[*place] = self.roots.len();
        }
        self.roots.push(root);
    }
}

/// All that is joined to a place.
fn tree(cards: &[Card], first: usize, joins: impl Fn(usize, usize) -> bool) -> Vec<Level> {
    let mut found: Vec<Level> = vec![(first, 0)];
    let mut next = 0;
    while let Some(&(place, level)) = found.get(next) {
        for (other, step) in neighbours(&cards[place]) {
            if joins(place, other) && !found.iter().any(|(known, _)| *known == other) {
                found.push((other, level + step));
            }
        }
        next += 1;
    }
    found
}

fn neighbours(card: &Card) -> impl Iterator<Item = Level> + '_ {
    let along = |ports: &'_ [Port], step: isize| -> Vec<Level> { ports.iter().filter_map(|port| joined(port).map(|place| (place, step))).collect() };
    along(&card.right, 1).into_iter().chain(along(&card.left, -1))
}

/// The place at the other end of a port's line.
pub fn joined(port: &Port) -> Option<usize> {
    match port.goes {
        Goes::To(spot) => Some(spot.place),
        _ => None,
    }
}
