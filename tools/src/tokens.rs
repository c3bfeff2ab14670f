//! The tokens of a text, as the reader takes them; after a fault it goes on behind it.

use epass::{token, Token, TokenKind};
use std::io::{self, Write};

pub fn tokens(text: &[u8]) -> impl Iterator<Item = Token> + '_ {
    let mut at = 0;
    std::iter::from_fn(move || {
        let found = token(text, at);
        at = found.end;
        (found.kind() != TokenKind::End).then_some(found)
    })
}

/// A line for each: its start, its end and the number of its kind.
pub fn list(text: &[u8], out: &mut impl Write) -> io::Result<()> {
    tokens(text).try_for_each(|found| writeln!(out, "{} {} {}", found.start, found.end, found.number))
}
