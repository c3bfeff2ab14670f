//! How what is said of a text is laid out: file, line and column, the lines of the text with marks under the tokens, and notes.

use crate::diagnostic::{Diagnostic, Mark};
use crate::program::Offset;
use epass::position;

/// No line of the text is shown beyond so many bytes around its mark.
const WIDEST: usize = 110;

/// Whether a page is coloured, as on a terminal.
#[derive(Clone, Copy, Debug, PartialEq, Eq)]
pub enum Style {
    Plain,
    Coloured,
}

impl Style {
    /// A part of a page in a colour, by its number among those of terminals.
    fn paint(self, colour: &str, part: &str) -> String {
        match self {
            Style::Plain => part.to_owned(),
            Style::Coloured => format!("\x1b[{colour}m{part}\x1b[0m"),
        }
    }

    fn fault(self, part: &str) -> String {
        self.paint("1;31", part)
    }

    fn other(self, part: &str) -> String {
        self.paint("1;34", part)
    }

    fn title(self, part: &str) -> String {
        self.paint("1", part)
    }
}

/// The page of a text that has a name.
#[derive(Clone, Copy)]
pub struct Page<'t> {
    pub name: &'t str,
    pub text: &'t [u8],
    pub style: Style,
}

impl Page<'_> {
    /// Lays out what is said; `kind` is the refusal's number or a warning, `verdict` the last line, if there is one.
    pub fn lay_out(&self, told: &Diagnostic, kind: &str, verdict: &str) -> String {
        let place = position(self.text, told.fault.start);
        let mut out = format!("{}:{}:{}: {}: {}\n", self.name, place.line, place.column, self.style.fault(kind), self.style.title(&told.title));
        let marks: Vec<&Mark> = std::iter::once(&told.fault).chain(&told.others).collect();
        let gutter = marks.iter().map(|mark| position(self.text, mark.start).line.to_string().len()).max().unwrap_or(1);
        out += &self.marked(&marks, gutter);
        let notes = told.notes.iter().cloned().chain([format!("to mend it: {}", told.help), verdict.to_owned()]);
        for note in notes.filter(|note| !note.is_empty()) {
            out += &format!("{:gutter$} {} {note}\n", "", self.style.other("="));
        }
        out
    }

    /// The lines of some marks, the first that of the fault; marks of one line stand below it together.
    fn marked(&self, marks: &[&Mark], gutter: usize) -> String {
        let bar = self.style.other("|");
        let mut out = String::new();
        let mut shown: Option<Excerpt> = None;
        for (i, mark) in marks.iter().enumerate() {
            let excerpt = shown.take().filter(|excerpt| excerpt.has(self.text, mark)).unwrap_or_else(|| {
                let excerpt = Excerpt::around(self.text, mark);
                let line = self.style.other(&format!("{:>gutter$}", excerpt.line));
                out += &format!("{:gutter$} {bar}\n{line} {bar} {}\n", "", excerpt.shown(self.text));
                excerpt
            });
            let says = format!("{} {}", excerpt.signs(mark, if i == 0 { '^' } else { '-' }), mark.says);
            let says = if i == 0 { self.style.fault(says.trim_end()) } else { self.style.other(says.trim_end()) };
            out += &format!("{:gutter$} {bar} {}{says}\n", "", " ".repeat(excerpt.indent(mark)));
            shown = Some(excerpt);
        }
        out
    }
}

/// A line of the text, as much of it as is shown.
struct Excerpt {
    line: u32,
    /// The bytes of the whole line, its end left out.
    whole: (Offset, Offset),
    /// Those of them that are shown.
    part: (Offset, Offset),
}

/// Where a line goes on that is not shown.
const MORE: &str = "..";

impl Excerpt {
    fn around(text: &[u8], mark: &Mark) -> Excerpt {
        let place = position(text, mark.start);
        let start = mark.start.min(text.len()) + 1 - place.column as usize;
        let length = text[start..].iter().position(|b| *b == b'\n').unwrap_or(text.len() - start);
        let length = text[start..start + length].strip_suffix(b"\r").map_or(length, <[u8]>::len);
        let (from, to) = window(length, mark.start.min(start + length) - start);
        Excerpt { line: place.line, whole: (start, start + length), part: (start + from, start + to) }
    }

    /// Whether a mark is in what is shown.
    fn has(&self, text: &[u8], mark: &Mark) -> bool {
        position(text, mark.start).line == self.line && (self.part.0..=self.part.1).contains(&mark.start)
    }

    fn lead(&self) -> &'static str {
        if self.part.0 > self.whole.0 { MORE } else { "" }
    }

    fn shown(&self, text: &[u8]) -> String {
        let bytes: String = text[self.part.0..self.part.1].iter().map(|b| printable(*b)).collect();
        let trail = if self.part.1 < self.whole.1 { MORE } else { "" };
        format!("{}{}", self.lead(), bytes.trim_end()) + trail
    }

    /// How far to the right a mark stands.
    fn indent(&self, mark: &Mark) -> usize {
        self.lead().len() + mark.start - self.part.0
    }

    /// Signs under the bytes of a mark, at least one.
    fn signs(&self, mark: &Mark, sign: char) -> String {
        sign.to_string().repeat(mark.end.min(self.part.1).saturating_sub(mark.start).max(1))
    }
}

/// The part of a line that is shown around a column.
fn window(length: usize, column: usize) -> (usize, usize) {
    if length <= WIDEST {
        return (0, length);
    }
    let from = column.saturating_sub(WIDEST / 2).min(length - WIDEST);
    (from, from + WIDEST)
}

/// A byte as one character: the columns under it stay in line.
fn printable(b: u8) -> char {
    match b {
        b'\t' => ' ',
        b' '..=b'~' => b as char,
        _ => '?',
    }
}
