//! A script as the reader's tables hold it: declarations, types and terms, each name by the offset where it stands.

mod layout;

use epass::{token, Refusal, SCRATCH_WORDS};
use layout::Layout;

/// Where a name, a label or a term stands in the text.
pub type Offset = usize;

/// The number of a type in the tables.
pub type TypeNumber = usize;

/// A mark of a type that joins two others.
#[derive(Clone, Copy, Debug, PartialEq, Eq)]
pub enum Infix {
    /// `*`
    Tensor,
    /// `@`
    Par,
    /// `-o`
    Lolli,
}

/// Who chooses the label.
#[derive(Clone, Copy, Debug, PartialEq, Eq)]
pub enum Choice {
    /// `+`: the provider.
    Plus,
    /// `&`: the user.
    With,
}

#[derive(Clone, Debug, PartialEq, Eq)]
pub enum Type {
    One,
    Named(Offset),
    Infix(Infix, TypeNumber, TypeNumber),
    Choice(Choice, Vec<(Offset, TypeNumber)>),
}

/// A process of the text: a term by its number, or an empty one by the offset of the token that follows it.
#[derive(Clone, Copy, Debug, PartialEq, Eq)]
pub enum Body {
    Term(usize),
    Empty(Offset),
}

#[derive(Clone, Debug, PartialEq, Eq)]
pub struct Term {
    /// Where its first token stands.
    pub at: Offset,
    pub kind: Kind,
}

#[derive(Clone, Debug, PartialEq, Eq)]
pub enum Kind {
    SendUnit { channel: Offset, rest: Body },
    SendChannel { channel: Offset, passed: Offset, rest: Body },
    SendLabel { channel: Offset, label: Offset, rest: Body },
    Cancel { channel: Offset, rest: Body },
    Spawn { channel: Offset, annotation: TypeNumber, half: Body, rest: Body },
    RecvUnit { channel: Offset, rest: Body },
    RecvChannel { channel: Offset, brought: Offset, rest: Body },
    RecvLabel { channel: Offset, branches: Vec<(Offset, Body)> },
    Fwd { provided: Offset, used: Offset },
    Call { process: Offset, provided: Vec<Offset>, used: Vec<Offset> },
    Raise { rest: Body },
    Try { main: Body, handler: Body },
}

/// A type that is declared.
pub struct Declared {
    pub name: Offset,
    pub definition: TypeNumber,
}

/// A channel of a signature.
#[derive(Clone, Copy, Debug)]
pub struct Entry {
    pub name: Offset,
    pub annotation: TypeNumber,
}

/// A process that is declared.
pub struct Process {
    pub name: Offset,
    pub provided: Vec<Entry>,
    pub used: Vec<Entry>,
    pub body: Body,
}

pub struct Program<'t> {
    pub text: &'t [u8],
    pub types: Vec<Declared>,
    pub processes: Vec<Process>,
    /// Where the execs name their processes.
    pub execs: Vec<Offset>,
    nodes: Vec<Type>,
    terms: Vec<Term>,
}

impl<'t> Program<'t> {
    /// Reads a text, whether the check would accept it or not.
    pub fn read(text: &'t [u8]) -> Result<Program<'t>, Refusal> {
        let mut words = vec![0; SCRATCH_WORDS];
        epass::tables(text, &mut words)?;
        Ok(Program::of_tables(text, &words))
    }

    fn of_tables(text: &'t [u8], words: &[u32]) -> Program<'t> {
        let layout = Layout { text, words };
        Program {
            text,
            types: (0..layout.types()).map(|i| layout.declared(i)).collect(),
            processes: (0..layout.processes()).map(|i| layout.process(i)).collect(),
            execs: (0..layout.execs()).map(|i| layout.exec(i)).collect(),
            nodes: (0..layout.nodes()).map(|i| layout.node(i)).collect(),
            terms: (0..layout.terms()).map(|i| layout.term(i)).collect(),
        }
    }

    pub fn node(&self, number: TypeNumber) -> &Type {
        &self.nodes[number]
    }

    pub fn term(&self, number: usize) -> &Term {
        &self.terms[number]
    }

    /// The name or label at an offset.
    pub fn name(&self, at: Offset) -> &'t str {
        spelling(self.text, at)
    }

    /// The declared process of a name.
    pub fn process(&self, name: &str) -> Option<&Process> {
        self.processes.iter().find(|process| self.name(process.name) == name)
    }

    /// The declared type of a name.
    pub fn declared(&self, name: &str) -> Option<&Declared> {
        self.types.iter().find(|declared| self.name(declared.name) == name)
    }
}

/// A process of the text, by the word that points to it.
pub fn body(word: usize) -> Body {
    layout::pointer(word)
}

/// The bytes of the token at an offset; names and labels are ASCII.
pub fn spelling(text: &[u8], at: Offset) -> &str {
    std::str::from_utf8(&text[at..token(text, at).end]).unwrap_or("")
}
