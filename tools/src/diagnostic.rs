//! What is said of a refusal.

use crate::program::Offset;
use epass::token;

/// A part of the text, and what is said of it.
#[derive(Clone, Debug)]
pub struct Mark {
    pub start: Offset,
    pub end: Offset,
    pub says: String,
}

/// A refusal explained.
#[derive(Clone, Debug)]
pub struct Diagnostic {
    /// What is wrong, in a line.
    pub title: String,
    /// The token at fault.
    pub fault: Mark,
    /// Other places that have to do with it.
    pub others: Vec<Mark>,
    pub notes: Vec<String>,
    /// How to mend it.
    pub help: String,
}

impl Mark {
    /// Under the token at an offset.
    pub fn token(text: &[u8], at: Offset, says: impl Into<String>) -> Mark {
        let start = token(text, at).start.max(at);
        let end = token(text, at).end;
        Mark { start, end, says: says.into() }
    }
}

impl Diagnostic {
    pub fn new(title: impl Into<String>, fault: Mark, help: impl Into<String>) -> Diagnostic {
        Diagnostic { title: title.into(), fault, others: Vec::new(), notes: Vec::new(), help: help.into() }
    }

    pub fn marked(mut self, mark: Mark) -> Diagnostic {
        self.others.push(mark);
        self
    }

    pub fn noted(mut self, note: impl Into<String>) -> Diagnostic {
        self.notes.push(note.into());
        self
    }
}
