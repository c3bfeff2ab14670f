//! What a text is made of, for those who show it to its writers: lines and columns, tokens, and its tables, though it may be refused.

use crate::ffi::{self, At};
use crate::refusal::Refusal;

/// A line and a column, both counted from 1. A line ends with its line feed, and every other byte is a column.
#[derive(Clone, Copy, Debug, PartialEq, Eq, Hash, PartialOrd, Ord)]
pub struct Position {
    /// The line.
    pub line: u32,
    /// The byte of the line.
    pub column: u32,
}

/// Line and column of an offset; past the end of the text, those of its end.
pub fn position(text: &[u8], offset: usize) -> Position {
    let answer = ffi::look(At::Position, text, offset);
    Position {
        line: answer[1],
        column: answer[2],
    }
}

/// What kind of token one is.
#[derive(Clone, Copy, Debug, PartialEq, Eq, Hash)]
pub enum TokenKind {
    /// A reserved word.
    Word,
    /// A mark.
    Mark,
    /// A name.
    Name,
    /// A label.
    Label,
    /// A byte that opens no token, or a name that is too long.
    Fault,
    /// The end of the text.
    End,
}

/// A token of a text.
#[derive(Clone, Copy, Debug, PartialEq, Eq, Hash)]
pub struct Token {
    /// The number of its kind: each reserved word and each mark has one of its own.
    pub number: u32,
    /// Where its first byte stands.
    pub start: usize,
    /// Where the byte after its last one stands.
    pub end: usize,
}

impl Token {
    /// What kind of token it is.
    pub fn kind(&self) -> TokenKind {
        match self.number {
            0..=10 => TokenKind::Word,
            11..=29 => TokenKind::Mark,
            30 => TokenKind::Name,
            31 => TokenKind::Label,
            32 => TokenKind::Fault,
            _ => TokenKind::End,
        }
    }
}

/// The token from an offset on, blanks passed over, as the reader takes it.
pub fn token(text: &[u8], from: usize) -> Token {
    let answer = ffi::look(At::Token, text, from);
    Token {
        number: answer[1],
        start: answer[2] as usize,
        end: answer[3] as usize,
    }
}

/// Reads a text into scratch, and checks no more of it: refused as [`crate::Script::check`] refuses, by 1 to 5 alone. What the words of the tables are is
/// no promise of this crate.
pub fn tables(text: &[u8], scratch: &mut [u32]) -> Result<(), Refusal> {
    Refusal::told(&ffi::tables(text, scratch))
}
