//! Lines that go from one height to another between two columns: each turns on a lane of its own wherever it would run along another.

/// Counted from the left.
pub type Lane = usize;

/// A line between columns: the gap that it crosses, and its heights there, from the user to the provider.
#[derive(Clone, Copy, Debug, PartialEq, Eq)]
pub struct Bend {
    pub gap: usize,
    pub from: i32,
    pub to: i32,
}

impl Bend {
    fn is_straight(&self) -> bool {
        self.from == self.to
    }

    fn meets(&self, other: &Bend) -> bool {
        let (top, bottom) = (self.from.min(self.to), self.from.max(self.to));
        self.gap == other.gap && top <= other.from.max(other.to) && other.from.min(other.to) <= bottom
    }
}

/// The lanes of the lines, counted in each gap from the left. Of lines that go down the lowest turns first, of those that go up the highest: so two from one
/// card do not cross.
pub fn lanes(bends: &[Bend]) -> Vec<Lane> {
    let mut order: Vec<usize> = (0..bends.len()).filter(|i| !bends[*i].is_straight()).collect();
    order.sort_by_key(|i| match bends[*i] {
        Bend { from, to, .. } if from < to => (0, -from),
        Bend { from, .. } => (1, from),
    });
    let mut lanes = vec![0; bends.len()];
    for (done, i) in order.iter().enumerate() {
        let before = order[..done].iter().filter(|other| bends[*i].meets(&bends[**other]));
        lanes[*i] = before.map(|other| lanes[*other] + 1).max().unwrap_or(0);
    }
    lanes
}

#[cfg(test)]
mod tests {
    use super::*;

    #[test]
    fn lines_that_go_down_together_turn_from_the_lowest_on() {
        let bend = |from, to| Bend { gap: 1, from, to };
        assert_eq!(lanes(&[bend(0, 100), bend(24, 200), bend(48, 300), bend(400, 500)]), [2, 1, 0, 0]);
        assert_eq!(lanes(&[bend(300, 0), bend(400, 24), bend(50, 50)]), [0, 1, 0]);
    }
}
