//! Refusals 2 to 5: the text is no script, or passes a limit.

use super::spelling::listed;
use crate::diagnostic::{Diagnostic, Mark};
use crate::limits;
use crate::program::Offset;
use crate::tokens::tokens;
use epass::{token, Script, Token, TokenKind, SCRATCH_WORDS, TEXT_BYTES};

pub fn too_long(text: &[u8]) -> Diagnostic {
    let fault = Mark { start: TEXT_BYTES, end: TEXT_BYTES + 1, says: "the first byte too many".to_owned() };
    let title = format!("the text has {} bytes, and a script may have {TEXT_BYTES}", text.len());
    Diagnostic::new(title, fault, "leave out blanks, shorten names, or make two scripts of it")
}

pub fn no_token(text: &[u8], at: Offset) -> Diagnostic {
    let found = token(text, at);
    let name = found.end - at - usize::from(text[at] == b'\'');
    if name > limits::NAME {
        let fault = Mark::token(text, at, format!("{name} bytes"));
        return Diagnostic::new(format!("a name has {name} bytes, and may have {}", limits::NAME), fault, "give it a shorter name");
    }
    let byte = text[at];
    let shown = if byte.is_ascii_graphic() { format!("`{}`", byte as char) } else { format!("the byte {byte}") };
    let help = match byte {
        b'\'' => "a label is an apostrophe and a name: a letter follows the apostrophe",
        b'-' => "the mark is `-o`; a name has letters, digits and `_`",
        b'<' => "the mark is `<-`",
        b'0' | b'2'..=b'9' => "of the digits `1` alone is a type; a name begins with a letter",
        b'_' => "a name begins with a letter",
        b'#' | b'/' | b'"' => "leave it out: there are no comments and no strings in a script",
        128.. => "a script is ASCII: names have letters a to z and A to Z, digits and `_`",
        _ => "leave it out, or write the mark that was meant: ( ) [ ] { } : , ; = | 1 * @ + & -o <- =>",
    };
    Diagnostic::new(format!("{shown} begins no token"), Mark::token(text, at, "no word, name, label or mark begins so"), help)
}

/// What may stand in a script: every reserved word and mark, a name and a label.
const PIECES: [&str; 32] = [
    "type", "proc", "exec", "send", "recv", "fwd", "call", "cancel", "raise", "try", "catch", "x", "'l", "(", ")", "[", "]", "{", "}", ":", ",", ";", "=", "|", "1", "*", "@", "+", "&", "-o",
    "<-", "=>",
];

/// Pieces that are told by one word where all of them may stand.
const GROUPS: [(&str, &[&str]); 4] = [
    ("a declaration", &["type", "proc", "exec"]),
    ("a term", &["send", "recv", "fwd", "call", "cancel", "raise", "try", "x"]),
    ("a type", &["1", "x", "(", "+", "&"]),
    ("`*`, `@` or `-o`", &["*", "@", "-o"]),
];

pub fn no_script(text: &[u8], at: Offset) -> Diagnostic {
    let found = token(text, at);
    let stands = if found.kind() == TokenKind::End { "the text ends".to_owned() } else { format!("{} stands", quoted(text, found)) };
    let wanted = wanted(text, at).map_or_else(|| "something else".to_owned(), |pieces| listed(&pieces, "or"));
    let title = format!("{stands} where {wanted} is wanted");
    let fault = Mark { start: found.start, end: found.end.max(found.start + 1), says: format!("wanted here: {wanted}") };
    let help = match &text[found.start..found.end] {
        b";" => "a `;` stands after a send, a cancel or a spawn alone: what follows a raise stands directly after it, and nothing follows a recv, fwd, call or try",
        _ => "write what is wanted there; docs/GUIDE.md has the forms of types and terms",
    };
    let told = Diagnostic::new(title, fault, help);
    match open_bracket(text, at) {
        Some(open) => told.marked(Mark::token(text, open, "this bracket is still open")),
        None => told,
    }
}

fn quoted(text: &[u8], found: Token) -> String {
    format!("`{}`", String::from_utf8_lossy(&text[found.start..found.end]))
}

/// What could follow the tokens before an offset: the check itself is asked, piece by piece. Not known where a text with one more piece is too long for it.
fn wanted(text: &[u8], at: Offset) -> Option<Vec<String>> {
    let before = so_far(text, at);
    let answers: Option<Vec<bool>> = PIECES.iter().map(|piece| continues(&before, piece)).collect();
    let mut fits: Vec<&str> = PIECES.iter().zip(answers?).filter(|(_, fits)| *fits).map(|(piece, _)| *piece).collect();
    let mut told = Vec::new();
    for (word, members) in GROUPS {
        if members.iter().all(|member| fits.contains(member)) {
            fits.retain(|piece| !members.contains(piece));
            told.push(word.to_owned());
        }
    }
    told.extend(fits.iter().map(|piece| match *piece {
        "x" => "a name".to_owned(),
        "'l" => "a label".to_owned(),
        piece => format!("`{piece}`"),
    }));
    if continues(&before, "")? {
        told.push("the end of the text".to_owned());
    }
    Some(told)
}

/// The declaration that an offset stands in, up to there: those before it are left out, so that no limit of theirs is met, and of blanks between tokens one is kept.
fn so_far(text: &[u8], at: Offset) -> Vec<u8> {
    let before: Vec<Token> = tokens(text).take_while(|found| found.start < at).collect();
    let first = before.iter().rposition(|found| DECLARATIONS.contains(&&text[found.start..found.end])).unwrap_or(0);
    let mut kept = Vec::new();
    let mut end = before.get(first).map_or(0, |found| found.start);
    for found in &before[first.min(before.len())..] {
        if found.start > end {
            kept.push(b' ');
        }
        kept.extend(&text[found.start..found.end]);
        end = found.end;
    }
    kept
}

const DECLARATIONS: [&[u8]; 3] = [b"type", b"proc", b"exec"];

/// Whether some script begins with a text and a piece after it: refusal 4 names the first token with which none does. Not known where they are too long for a script.
fn continues(before: &[u8], piece: &str) -> Option<bool> {
    let longer = [before, b" ", piece.as_bytes()].concat();
    let end = if piece.is_empty() { longer.len() } else { before.len() + 1 };
    match Script::check(&longer, vec![0; SCRATCH_WORDS]) {
        Err(refusal) if refusal.number == 2 => None,
        Err(refusal) => Some((refusal.number, refusal.offset) != (4, end)),
        Ok(_) => Some(true),
    }
}

/// The innermost bracket that is open before an offset.
fn open_bracket(text: &[u8], at: Offset) -> Option<Offset> {
    let mut open = Vec::new();
    for found in tokens(text).take_while(|found| found.start < at) {
        match text[found.start] {
            b'(' | b'[' | b'{' => open.push(found.start),
            b')' | b']' | b'}' => {
                open.pop();
            }
            _ => {}
        }
    }
    open.pop()
}

pub fn past_limit(text: &[u8], at: Offset) -> Option<Diagnostic> {
    let found = token(text, at);
    let (limit, what, help) = match (found.kind(), &text[found.start..found.end]) {
        (TokenKind::Word, b"type") => (limits::TYPES, "declared types", "make two scripts of it, or write a type out where it is used"),
        (TokenKind::Word, b"proc") => (limits::PROCESSES, "declared processes", "make two scripts of it, or leave out processes that nobody calls"),
        (TokenKind::Word, b"exec") => (limits::EXECS, "execs", "make two scripts of it"),
        (TokenKind::Mark, b"(" | b"[" | b"{") => (limits::BRACKETS, "open brackets", "name a part of it by a type or a process of its own"),
        (TokenKind::Label, _) => (limits::LABELS, "labels in one list", "choose twice: let one label lead to a choice of its own"),
        (TokenKind::Mark, _) => TYPE_TERMS,
        // A name begins a spawn where no type may stand.
        (TokenKind::Name, _) if continues(&so_far(text, at), "1")? => TYPE_TERMS,
        (TokenKind::Name | TokenKind::Word, _) => (limits::PROCESS_TERMS, "terms of processes", "make two scripts of it, or a process of what comes twice"),
        _ => return None,
    };
    let fault = Mark::token(text, at, format!("number {}", limit + 1));
    let title = format!("a script may have {limit} {what}, and {} is one more", quoted(text, found));
    let told = Diagnostic::new(title, fault, help);
    Some(match open_bracket(text, at) {
        Some(open) if limit == limits::BRACKETS => told.marked(Mark::token(text, open, format!("the bracket around it, number {limit}"))),
        _ => told,
    })
}

/// A `1`, a name, an infix mark, a `+` or a `&` in a type is one.
const TYPE_TERMS: (usize, &str, &str) = (limits::TYPE_TERMS, "terms of types", "name a type that is written out more than once");
