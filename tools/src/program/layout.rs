//! The words of the tables, as crates/notation/specs/Tables.antt lays them out; a test holds the numbers to those of the reader's code.

use super::{Body, Choice, Declared, Entry, Infix, Kind, Offset, Process, Term, Type};
use crate::limits::PROCESS_TERMS;
use epass::{token, TokenKind};

pub const TYPES_AT: usize = 16;
pub const PROCESSES_AT: usize = 144;
pub const EXECS_AT: usize = 400;
pub const ENTRIES_AT: usize = 416;
pub const NODES_AT: usize = 928;
pub const ALTERNATIVES_AT: usize = 1440;
pub const TERMS_AT: usize = 1952;
pub const BRANCHES_AT: usize = 4000;
pub const OFFSET_RADIX: usize = 8192;
pub const TYPE_KIND_RADIX: usize = 8;
pub const TYPE_FIRST_RADIX: usize = 1024;
pub const TERM_KIND_RADIX: usize = 16;
pub const POINTER_RADIX: usize = 16384;
pub const PROVIDED_RADIX: usize = 1024;

pub struct Layout<'w> {
    pub text: &'w [u8],
    pub words: &'w [u32],
}

impl Layout<'_> {
    fn word(&self, at: usize) -> usize {
        self.words[at] as usize
    }

    pub fn types(&self) -> usize {
        self.word(0)
    }

    pub fn processes(&self) -> usize {
        self.word(1)
    }

    pub fn execs(&self) -> usize {
        self.word(2)
    }

    pub fn nodes(&self) -> usize {
        self.word(4)
    }

    pub fn terms(&self) -> usize {
        self.word(6)
    }

    pub fn declared(&self, i: usize) -> Declared {
        Declared {
            name: self.word(TYPES_AT + 2 * i),
            definition: self.word(TYPES_AT + 2 * i + 1),
        }
    }

    pub fn exec(&self, i: usize) -> Offset {
        self.word(EXECS_AT + i)
    }

    pub fn process(&self, i: usize) -> Process {
        let row = PROCESSES_AT + 4 * i;
        let (first, counts) = (self.word(row + 1), self.word(row + 2));
        let (provided, used) = (counts % PROVIDED_RADIX, counts / PROVIDED_RADIX);
        Process {
            name: self.word(row),
            provided: (first..first + provided).map(|e| self.entry(e)).collect(),
            used: (first + provided..first + provided + used).map(|e| self.entry(e)).collect(),
            body: pointer(self.word(row + 3)),
        }
    }

    fn entry(&self, i: usize) -> Entry {
        let (name, annotation) = self.pair(ENTRIES_AT + i);
        Entry { name, annotation }
    }

    /// A name or label with what belongs to it.
    fn pair(&self, at: usize) -> (Offset, usize) {
        (self.word(at) % OFFSET_RADIX, self.word(at) / OFFSET_RADIX)
    }

    /// A list that ends before a place, the first of it last.
    fn list(&self, table: usize, end: usize, count: usize) -> impl Iterator<Item = (Offset, usize)> + '_ {
        (1..=count).map(move |i| self.pair(table + end - i))
    }

    pub fn node(&self, i: usize) -> Type {
        let word = self.word(NODES_AT + i);
        let first = word / TYPE_KIND_RADIX % TYPE_FIRST_RADIX;
        let second = word / (TYPE_KIND_RADIX * TYPE_FIRST_RADIX);
        let choice = |mark| Type::Choice(mark, self.list(ALTERNATIVES_AT, first, second).collect());
        match word % TYPE_KIND_RADIX {
            0 => Type::One,
            1 => Type::Named(second),
            2 => Type::Infix(Infix::Tensor, first, second),
            3 => Type::Infix(Infix::Par, first, second),
            4 => Type::Infix(Infix::Lolli, first, second),
            5 => choice(Choice::Plus),
            _ => choice(Choice::With),
        }
    }

    pub fn term(&self, i: usize) -> Term {
        let (head, tail) = (self.word(TERMS_AT + 2 * i), self.word(TERMS_AT + 2 * i + 1));
        let at = head / TERM_KIND_RADIX % OFFSET_RADIX;
        let channel = head / (TERM_KIND_RADIX * OFFSET_RADIX);
        let (second, third) = (tail % POINTER_RADIX, tail / POINTER_RADIX);
        let rest = pointer(third);
        let kind = match head % TERM_KIND_RADIX {
            1 => Kind::SendUnit { channel, rest },
            2 => Kind::SendChannel { channel, passed: second, rest },
            3 => Kind::SendLabel { channel, label: second, rest },
            4 => Kind::Cancel { channel, rest },
            5 => Kind::Spawn { channel: at, annotation: channel, half: pointer(second), rest },
            6 => Kind::RecvUnit { channel, rest },
            7 => Kind::RecvChannel { channel, brought: second, rest },
            8 => Kind::RecvLabel { channel, branches: self.list(BRANCHES_AT, second, third).map(|(label, p)| (label, pointer(p))).collect() },
            9 => Kind::Fwd { provided: channel, used: second },
            10 => call(self.text, channel, second),
            11 => Kind::Raise { rest },
            _ => Kind::Try { main: pointer(second), handler: rest },
        };
        Term { at, kind }
    }
}

/// The tables keep where a call's lists begin; the names are read in the text.
fn call(text: &[u8], process: Offset, open: Offset) -> Kind {
    let (provided, end) = names_in_brackets(text, open);
    let (used, _) = names_in_brackets(text, end);
    Kind::Call { process, provided, used }
}

/// The names of the list whose bracket opens at or after an offset, and where the list ends.
fn names_in_brackets(text: &[u8], open: Offset) -> (Vec<Offset>, Offset) {
    let mut names = Vec::new();
    let mut at = token(text, open).end;
    loop {
        let next = token(text, at);
        at = next.end;
        match next.kind() {
            TokenKind::Name => names.push(next.start),
            TokenKind::Mark if text[next.start] == b',' => {}
            _ => return (names, at),
        }
    }
}

/// A pointer to a process of the text.
pub fn pointer(word: usize) -> Body {
    // From the limit of terms on it is an empty process's: its offset is added.
    match word.checked_sub(PROCESS_TERMS) {
        None => Body::Term(word),
        Some(at) => Body::Empty(at),
    }
}

#[cfg(test)]
mod tests {
    use super::*;
    use crate::constants::agrees;

    #[test]
    fn the_layout_is_the_readers() {
        let ours = [
            ("TYPES_AT", TYPES_AT),
            ("PROCESSES_AT", PROCESSES_AT),
            ("EXECS_AT", EXECS_AT),
            ("ENTRIES_AT", ENTRIES_AT),
            ("NODES_AT", NODES_AT),
            ("ALTERNATIVES_AT", ALTERNATIVES_AT),
            ("TERMS_AT", TERMS_AT),
            ("BRANCHES_AT", BRANCHES_AT),
            ("OFFSET_RADIX", OFFSET_RADIX),
            ("TYPE_KIND_RADIX", TYPE_KIND_RADIX),
            ("TYPE_FIRST_RADIX", TYPE_FIRST_RADIX),
            ("TERM_KIND_RADIX", TERM_KIND_RADIX),
            ("POINTER_RADIX", POINTER_RADIX),
            ("PROVIDED_RADIX", PROVIDED_RADIX),
        ];
        agrees("notation/src/tables.rt", &ours);
    }

    #[test]
    fn the_kinds_are_the_readers() {
        let types = [("UNIT", 0), ("NAMED", 1), ("TENSOR", 2), ("PAR", 3), ("LOLLI", 4), ("PLUS", 5), ("WITH", 6)];
        let sends = [("SEND_UNIT", 1), ("SEND_CHANNEL", 2), ("SEND_LABEL", 3), ("CANCEL", 4), ("SPAWN", 5)];
        let others = [("RECV_UNIT", 6), ("RECV_CHANNEL", 7), ("RECV_LABEL", 8), ("FWD", 9), ("CALL", 10), ("RAISE", 11), ("TRY", 12)];
        for kinds in [&types[..], &sends[..], &others[..]] {
            agrees("notation/src/kinds.rt", kinds);
        }
    }
}
