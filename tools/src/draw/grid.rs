//! Where the columns of cards lie, and what lies in the gap before each: labels of lines that leave a card to the right, the lanes on which lines turn, the tips of
//! lines that come from no card, and labels of lines that come to a card from the left.

use super::ground::{Ground, Joint, Loose};
use super::lanes::Lane;
use super::svg::width;
use crate::state::Side;

/// Before a label, and after it, where the head of an arrow may stand.
pub const BEFORE: i32 = 8;
pub const AFTER: i32 = 14;
const LANE: i32 = 10;

/// The widths of a column and of the parts of the gap before it.
#[derive(Clone, Copy, Debug, Default)]
struct Column {
    leaving: i32,
    lanes: i32,
    coming: i32,
    cards: i32,
}

pub struct Grid {
    columns: Vec<Column>,
    left: i32,
}

impl Grid {
    pub fn of(ground: &Ground, joints: &[(Joint, Lane)], loose: &[Loose], left: i32) -> Grid {
        let mut grid = Grid { columns: vec![Column::default(); ground.forest.last_column() + 2], left };
        grid.columns.iter_mut().skip(1).for_each(|column| column.lanes = LANE);
        for card in &ground.cards {
            let column = &mut grid.columns[ground.forest.columns[card.place]];
            column.cards = column.cards.max(card.width());
        }
        joints.iter().for_each(|(joint, lane)| grid.fit_joint(ground, *joint, *lane));
        loose.iter().for_each(|line| grid.fit_loose(ground, line));
        grid
    }

    fn fit_joint(&mut self, ground: &Ground, joint: Joint, lane: Lane) {
        let column = &mut self.columns[ground.column(joint.to)];
        column.leaving = column.leaving.max(BEFORE + width(&ground.label(joint.from, Side::Used)) + BEFORE);
        column.lanes = column.lanes.max(LANE * (lane as i32 + 2));
        column.coming = column.coming.max(width(&ground.label(joint.to, Side::Provided)) + AFTER);
    }

    fn fit_loose(&mut self, ground: &Ground, line: &Loose) {
        let needed = BEFORE + ground.reach(line.at.place, line.side) + AFTER + line.tip.width();
        let column = ground.column(line.at);
        let room = match line.side {
            Side::Used => &mut self.columns[column + 1].leaving,
            Side::Provided => &mut self.columns[column].coming,
        };
        *room = needed.max(*room);
    }

    /// Where the gap before a column begins.
    fn gap(&self, column: usize) -> i32 {
        self.columns[..column].iter().fold(self.left, |x, column| x + column.leaving + column.lanes + column.coming + column.cards)
    }

    /// A lane before a column.
    pub fn lane(&self, column: usize, lane: Lane) -> i32 {
        self.gap(column) + self.columns[column].leaving + LANE * (lane as i32 + 1)
    }

    pub fn cards(&self, column: usize) -> i32 {
        self.gap(column) + self.columns[column].leaving + self.columns[column].lanes + self.columns[column].coming
    }

    pub fn card_width(&self, column: usize) -> i32 {
        self.columns[column].cards
    }

    pub fn right(&self) -> i32 {
        self.gap(self.columns.len())
    }
}
