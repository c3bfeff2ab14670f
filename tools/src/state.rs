//! A run's configuration, as the words of its slice hold it; a test holds the numbers to those of the proved code.

use crate::program::{Body, Offset, TypeNumber};

const COUNT: usize = 0;
const OUTSIDE_COUNT: usize = 2;
const HALTED: usize = 3;
const OUTSIDES_AT: usize = 16;
const OUTSIDE_WORDS: usize = 2;
const PLACES_AT: usize = 80;
const PLACE_WORDS: usize = 40;
const LINK: usize = 1;
const HELD_COUNT: usize = 2;
const ENDS: usize = 3;
const END_WORDS: usize = 2;
const FOLDING: usize = 1;
const WAITING: usize = 2;
const KIND_RADIX: usize = 4;
const SIDE_RADIX: usize = 2;
const CHANNEL_RADIX: usize = 512;

#[derive(Clone, Copy, Debug, PartialEq, Eq)]
pub enum Side {
    Provided,
    Used,
}

impl Side {
    pub fn other(self) -> Side {
        match self {
            Side::Provided => Side::Used,
            Side::Used => Side::Provided,
        }
    }

    pub fn word(self) -> &'static str {
        match self {
            Side::Provided => "provided",
            Side::Used => "used",
        }
    }
}

/// An end that a process holds.
#[derive(Clone, Copy, Debug, PartialEq, Eq)]
pub struct End {
    pub name: Offset,
    pub side: Side,
    pub annotation: TypeNumber,
    pub channel: usize,
}

/// What a process does.
#[derive(Clone, Copy, Debug, PartialEq, Eq)]
pub enum Doing {
    Runs(Body),
    /// It gives up what it holds, oldest first, one channel a step.
    FoldsUp,
    /// It has folded up, or was a fwd, and leaves.
    Empty,
    /// As a handler, for its process.
    Waits(Body),
}

#[derive(Clone, Debug, PartialEq, Eq)]
pub struct Member {
    pub doing: Doing,
    /// Oldest first.
    pub held: Vec<End>,
    /// The place of its handler.
    pub link: Option<usize>,
}

/// A channel that the outside uses.
#[derive(Clone, Copy, Debug, PartialEq, Eq)]
pub struct Outside {
    pub number: u32,
    pub channel: usize,
}

/// Who holds the other end of a channel.
#[derive(Clone, Copy, Debug, PartialEq, Eq)]
pub enum Far {
    /// The process at a place, by this end.
    Process(usize, End),
    Outside(u32),
    /// It was given up.
    Nobody,
}

#[derive(Clone, Debug, PartialEq, Eq)]
pub struct State {
    pub processes: Vec<Member>,
    pub outside: Vec<Outside>,
    pub halted: bool,
}

impl State {
    pub fn of_words(words: &[u32]) -> State {
        let word = |at: usize| words[at] as usize;
        State {
            processes: (0..word(COUNT)).map(|i| member(&words[PLACES_AT + PLACE_WORDS * i..])).collect(),
            outside: (0..word(OUTSIDE_COUNT)).map(|i| outside(&words[OUTSIDES_AT + OUTSIDE_WORDS * i..])).collect(),
            halted: word(HALTED) != 0,
        }
    }

    /// The end that the process at a place holds by a name.
    pub fn end(&self, place: usize, is: impl Fn(Offset) -> bool) -> Option<End> {
        self.processes[place].held.iter().copied().find(|end| is(end.name))
    }

    pub fn far(&self, end: End) -> Far {
        let meets = |other: &&End| other.channel == end.channel && other.side == end.side.other();
        for (place, process) in self.processes.iter().enumerate() {
            if let Some(other) = process.held.iter().find(meets) {
                return Far::Process(place, *other);
            }
        }
        let out = self.outside.iter().find(|out| end.side == Side::Provided && out.channel == end.channel);
        out.map_or(Far::Nobody, |out| Far::Outside(out.number))
    }
}

fn member(row: &[u32]) -> Member {
    let body = crate::program::body(row[0] as usize / KIND_RADIX);
    Member {
        doing: match (row[0] as usize % KIND_RADIX, row[HELD_COUNT]) {
            (FOLDING, 0) => Doing::Empty,
            (FOLDING, _) => Doing::FoldsUp,
            (WAITING, _) => Doing::Waits(body),
            _ => Doing::Runs(body),
        },
        held: (0..row[HELD_COUNT] as usize).map(|i| end(&row[ENDS + END_WORDS * i..])).collect(),
        link: (row[LINK] as usize).checked_sub(1),
    }
}

fn end(row: &[u32]) -> End {
    let (name, rest) = (row[0] as usize, row[1] as usize);
    End {
        name: name / SIDE_RADIX,
        side: if name % SIDE_RADIX == 0 { Side::Provided } else { Side::Used },
        annotation: rest / CHANNEL_RADIX,
        channel: rest % CHANNEL_RADIX,
    }
}

fn outside(row: &[u32]) -> Outside {
    Outside {
        number: row[0],
        channel: row[1] as usize % CHANNEL_RADIX,
    }
}

#[cfg(test)]
mod tests {
    use super::*;
    use crate::constants::agrees;

    #[test]
    fn the_words_are_those_of_the_run() {
        let header = [("COUNT", COUNT), ("OUTSIDE_COUNT", OUTSIDE_COUNT), ("HALTED", HALTED)];
        let rows = [
            ("OUTSIDES_AT", OUTSIDES_AT),
            ("OUTSIDE_WORDS", OUTSIDE_WORDS),
            ("PLACES_AT", PLACES_AT),
            ("PLACE_WORDS", PLACE_WORDS),
            ("LINK", LINK),
            ("HELD_COUNT", HELD_COUNT),
            ("ENDS", ENDS),
            ("END_WORDS", END_WORDS),
        ];
        let values = [("FOLDING", FOLDING), ("WAITING", WAITING), ("PROVIDED", 0), ("KIND_RADIX", KIND_RADIX), ("SIDE_RADIX", SIDE_RADIX), ("CHANNEL_RADIX", CHANNEL_RADIX)];
        for words in [&header[..], &rows[..], &values[..]] {
            agrees("run_words/src/records.rt", words);
        }
    }
}
