//! What a call answers that is not refused. Each is displayed as in a log of calls.

use crate::ffi::Answer;
use crate::{OUTSIDE_NUMBERS, PROCESS_PLACES};
use core::fmt;

/// What came over a channel that the outside uses.
#[derive(Clone, Copy, Debug, PartialEq, Eq, Hash)]
pub enum Seen<'t> {
    /// A label, as it stands in the text, from its apostrophe on.
    Label {
        /// The channel's number.
        number: u32,
        /// The label's bytes.
        label: &'t [u8],
    },
    /// The channel was closed.
    Close {
        /// The channel's number.
        number: u32,
    },
    /// A channel was passed, which the outside uses from then on.
    Passed {
        /// The number of the channel that it came over.
        number: u32,
        /// The number that it has from then on.
        passed: u32,
        /// Whether it had been given up already: then it is cancelled at once.
        given_up: bool,
    },
    /// The channel was given up.
    Cancelled {
        /// The channel's number.
        number: u32,
    },
}

impl<'t> Seen<'t> {
    /// What the words of an answer tell from a place on, of a text.
    pub(crate) fn told(text: &'t [u8], words: &[u32]) -> Option<Seen<'t>> {
        let number = words[1];
        match words[0] {
            1 => {
                let at = words[2] as usize;
                let label = &text[at..at + words[3] as usize];
                Some(Seen::Label { number, label })
            }
            2 => Some(Seen::Close { number }),
            3 => Some(Seen::Passed {
                number,
                passed: words[2],
                given_up: words[3] != 0,
            }),
            4 => Some(Seen::Cancelled { number }),
            _ => None,
        }
    }

    /// The number of the channel that it came over.
    pub fn number(&self) -> u32 {
        match *self {
            Seen::Label { number, .. } | Seen::Close { number } | Seen::Passed { number, .. } | Seen::Cancelled { number } => number,
        }
    }
}

impl fmt::Display for Seen<'_> {
    fn fmt(&self, f: &mut fmt::Formatter<'_>) -> fmt::Result {
        write!(f, "#{} ", self.number())?;
        match *self {
            Seen::Label { label, .. } => put(f, label),
            Seen::Close { .. } => f.write_str("()"),
            Seen::Passed { passed, given_up, .. } => {
                write!(f, "#{passed}")?;
                if given_up {
                    write!(f, ", #{passed} cancelled")?;
                }
                Ok(())
            }
            Seen::Cancelled { .. } => f.write_str("cancelled"),
        }
    }
}

/// A recv leaves out a label of its type: where that comes, its process folds up and its handler starts; without a handler the run halts.
#[derive(Clone, Copy, Debug, PartialEq, Eq, Hash)]
pub struct Warning<'t> {
    /// The process's name.
    pub process: &'t [u8],
    /// The channel's name, as the recv has it.
    pub channel: &'t [u8],
    /// The label, as it stands in the type, from its apostrophe on.
    pub label: &'t [u8],
    /// Where the recv names its channel: its offset in the text.
    pub at: usize,
}

impl<'t> Warning<'t> {
    /// What an answer tells of a text, if there is such a warning.
    pub(crate) fn told(text: &'t [u8], answer: &Answer) -> Option<Warning<'t>> {
        if answer[..2] != [0, 1] {
            return None;
        }
        let part = |word: usize| &text[answer[word] as usize..][..answer[word + 1] as usize];
        Some(Warning {
            process: part(2),
            channel: part(4),
            label: part(6),
            at: answer[4] as usize,
        })
    }
}

/// As the program prints it.
impl fmt::Display for Warning<'_> {
    fn fmt(&self, f: &mut fmt::Formatter<'_>) -> fmt::Result {
        f.write_str("Warning: process ")?;
        put(f, self.process)?;
        f.write_str(", channel ")?;
        put(f, self.channel)?;
        f.write_str(", missing ")?;
        put(f, self.label)
    }
}

/// Names have letters, digits and underscores alone.
fn put(f: &mut fmt::Formatter<'_>, name: &[u8]) -> fmt::Result {
    name.iter().try_for_each(|&b| fmt::Write::write_char(f, b as char))
}

/// What a step did.
#[derive(Clone, Copy, Debug, PartialEq, Eq, Hash)]
pub enum Step<'t> {
    /// It was carried out, and showed this, if anything.
    Carried(Option<Seen<'t>>),
    /// Its raise, or the label that a recv leaves out, found no handler, and the run has halted.
    Uncaught,
}

impl<'t> Step<'t> {
    pub(crate) fn told(text: &'t [u8], answer: &Answer) -> Step<'t> {
        match answer[1] {
            5 => Step::Uncaught,
            _ => Step::Carried(Seen::told(text, &answer[1..])),
        }
    }
}

impl fmt::Display for Step<'_> {
    fn fmt(&self, f: &mut fmt::Formatter<'_>) -> fmt::Result {
        match self {
            Step::Carried(Some(seen)) => write!(f, "carried out, {seen}"),
            Step::Carried(None) => f.write_str("carried out"),
            Step::Uncaught => f.write_str("uncaught"),
        }
    }
}

/// How a run-on ended.
#[derive(Clone, Copy, Debug, PartialEq, Eq, Hash)]
pub enum End<'t> {
    /// A step showed something.
    Shown(Seen<'t>),
    /// No process is left.
    Done,
    /// Processes are left, and each open step lacks a free place or number.
    Full,
    /// The budget is spent, and the run could go on.
    Stopped,
    /// The run has halted: a raise found no handler.
    Uncaught,
}

/// What a run-on did.
#[derive(Clone, Copy, Debug, PartialEq, Eq, Hash)]
pub struct RanOn<'t> {
    /// The steps taken.
    pub steps: u32,
    /// How it ended.
    pub end: End<'t>,
}

impl<'t> RanOn<'t> {
    pub(crate) fn told(text: &'t [u8], answer: &Answer) -> RanOn<'t> {
        let end = match (answer[1], Seen::told(text, &answer[3..])) {
            (1, Some(seen)) => End::Shown(seen),
            (2, _) => End::Done,
            (3, _) => End::Full,
            (5, _) => End::Uncaught,
            _ => End::Stopped,
        };
        RanOn { steps: answer[2], end }
    }
}

impl fmt::Display for RanOn<'_> {
    fn fmt(&self, f: &mut fmt::Formatter<'_>) -> fmt::Result {
        write!(f, "{} steps, ", self.steps)?;
        match self.end {
            End::Shown(seen) => write!(f, "seen, {seen}"),
            End::Done => f.write_str("done"),
            End::Full => f.write_str("full"),
            End::Stopped => f.write_str("stopped"),
            End::Uncaught => f.write_str("uncaught"),
        }
    }
}

/// The numbers of the outside channels still open, rising.
#[derive(Clone, Copy, Debug, PartialEq, Eq)]
pub struct Report {
    count: usize,
    numbers: [u32; OUTSIDE_NUMBERS],
}

impl Report {
    pub(crate) fn told(answer: &Answer) -> Report {
        let mut numbers = [0; OUTSIDE_NUMBERS];
        numbers.copy_from_slice(&answer[2..2 + OUTSIDE_NUMBERS]);
        Report {
            count: (answer[1] as usize).min(OUTSIDE_NUMBERS),
            numbers,
        }
    }

    /// The numbers, each below the next.
    pub fn numbers(&self) -> &[u32] {
        &self.numbers[..self.count]
    }
}

impl fmt::Display for Report {
    fn fmt(&self, f: &mut fmt::Formatter<'_>) -> fmt::Result {
        f.write_str("open")?;
        self.numbers().iter().try_for_each(|n| write!(f, " {n}"))
    }
}

/// What the step of the process at a place is.
#[derive(Clone, Copy, Debug, PartialEq, Eq, Hash)]
pub enum Place {
    /// It is not open: the process waits.
    Waits,
    /// It can be carried out.
    Open,
    /// It is open, but lacks a free place or number.
    Lacks,
}

impl fmt::Display for Place {
    fn fmt(&self, f: &mut fmt::Formatter<'_>) -> fmt::Result {
        f.write_str(match self {
            Place::Waits => "waits",
            Place::Open => "open",
            Place::Lacks => "lacks",
        })
    }
}

/// What the step at each place is: who chooses the places asks this.
#[derive(Clone, Copy, Debug, PartialEq, Eq)]
pub struct Places {
    count: usize,
    steps: [Place; PROCESS_PLACES],
}

impl Places {
    pub(crate) fn told(answer: &Answer) -> Places {
        let mut steps = [Place::Waits; PROCESS_PLACES];
        for (step, word) in steps.iter_mut().zip(&answer[2..]) {
            *step = match word {
                1 => Place::Open,
                2 => Place::Lacks,
                _ => Place::Waits,
            };
        }
        Places {
            count: (answer[1] as usize).min(PROCESS_PLACES),
            steps,
        }
    }

    /// What the step at each place is, by place.
    pub fn steps(&self) -> &[Place] {
        &self.steps[..self.count]
    }

    /// The places whose step can be carried out.
    pub fn open(&self) -> impl Iterator<Item = u32> + '_ {
        (0..).zip(self.steps()).filter(|(_, step)| **step == Place::Open).map(|(place, _)| place)
    }
}

impl fmt::Display for Places {
    fn fmt(&self, f: &mut fmt::Formatter<'_>) -> fmt::Result {
        write!(f, "{} processes", self.count)?;
        self.steps().iter().try_for_each(|step| write!(f, " {step}"))
    }
}
