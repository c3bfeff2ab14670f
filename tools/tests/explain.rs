//! Refusals explained: each has its cause, what is said to be held is what the check holds, and some explanations are as they were read over.

mod common;

use common::{all_texts, damaged, root};
use epass::{position, Refusal, Script, SCRATCH_WORDS};
use epass_tools::contexts::{Held, Point, Spot};
use epass_tools::explain::{cause, report};
use epass_tools::page::{Page, Style};
use epass_tools::program::Program;
use epass_tools::random::Random;
use epass_tools::state::Side;
use epass_tools::tokens::tokens;
use std::collections::BTreeSet;
use std::fs;

const DAMAGES: usize = 60;

fn refusal(text: &[u8]) -> Option<Refusal> {
    Script::check(text, vec![0; SCRATCH_WORDS]).err()
}

/// The refused among all texts and among damaged ones of each.
fn refused() -> Vec<(String, Vec<u8>, Refusal)> {
    let mut source = Random::new(24);
    let mut found = Vec::new();
    for (name, text) in all_texts() {
        let damages: Vec<Vec<u8>> = (0..DAMAGES).map(|_| damaged(&text, &mut source)).collect();
        for text in std::iter::once(text).chain(damages) {
            if let Some(refusal) = refusal(&text) {
                found.push((name.clone(), text, refusal));
            }
        }
    }
    found
}

fn page<'t>(name: &'t str, text: &'t [u8]) -> Page<'t> {
    Page { name, text, style: Style::Plain }
}

fn shown(text: &[u8]) -> String {
    String::from_utf8_lossy(text).into_owned()
}

#[test]
fn every_refusal_has_its_cause() {
    let mut numbers = BTreeSet::new();
    for (name, text, refusal) in refused() {
        let told = cause(&text, refusal).unwrap_or_else(|| panic!("{name}: {refusal} without a cause: {}", shown(&text)));
        assert_eq!(told.fault.start, refusal.offset, "{name}: {refusal}: the mark is elsewhere");
        let (whole, accepted) = report(page(&name, &text));
        let place = position(&text, refusal.offset);
        assert!(!accepted && whole.starts_with(&format!("{name}:{}:{}: refused {}: ", place.line, place.column, refusal.number)), "{whole}");
        assert!(whole.ends_with(&format!("= {refusal}\n")), "{whole}");
        numbers.insert(refusal.number);
    }
    assert_eq!(numbers.into_iter().collect::<Vec<_>>(), [2, 3, 4, 5, 6, 7, 8, 9, 10, 11, 12, 13, 15], "not every refusal was met");
}

/// Bytes that turn a text into another: blanks, ends of lines, what opens no token, and what opens one.
const BYTES: [u8; 9] = [b' ', b'\n', b'\r', b'\t', 0, 200, b'(', b'\'', b'z'];

/// Whatever bytes a text has, it is explained: bytes are changed, put in and left out, texts cut off.
#[test]
fn any_bytes_are_explained() {
    let mut source = Random::new(7);
    let mut numbers = BTreeSet::new();
    for (name, mut text) in all_texts() {
        for _ in 0..DAMAGES {
            let (at, byte) = (source.below(text.len() + 1), BYTES[source.below(BYTES.len())]);
            match (source.below(8), text.get_mut(at)) {
                (0, _) => text.truncate(at),
                (1, Some(_)) => drop(text.remove(at)),
                (2..=4, Some(there)) => *there = byte,
                _ => text.insert(at, byte),
            }
            let (whole, accepted) = report(page(&name, &text));
            assert!(accepted || whole.lines().count() > 4, "{whole}");
            numbers.extend(refusal(&text).map(|refusal| refusal.number));
        }
    }
    assert!(numbers.len() > 8, "{numbers:?}");
}

/// The sign under a line stands where the refusal's byte does.
#[test]
fn the_mark_is_under_the_token() {
    for (name, text, refusal) in refused() {
        let (whole, _) = report(page(&name, &text));
        let lines: Vec<&str> = whole.lines().collect();
        let (line, marked) = (lines[2], lines[3]);
        let at = marked.find('^').unwrap_or_else(|| panic!("{whole}"));
        let byte = text.get(refusal.offset).copied().unwrap_or(b'\n');
        let under = line.as_bytes().get(at).copied();
        let expected = match byte {
            b'!'..=b'~' => Some(byte),
            b' ' | b'\t' | b'\n' | b'\r' => under,
            _ => Some(b'?'),
        };
        assert_eq!(under, expected, "{whole}");
    }
}

/// Terms that the check accepts where a channel is held with this side and type, and nowhere else: it is forwarded to, or from, a new one of that type. Its name is
/// then bound anew, so that what follows mentions the new one.
fn probe(program: &Program<'_>, held: &Held) -> String {
    let (name, annotation) = (program.name(held.name), program.shown(held.annotation));
    let forwarded = match held.side {
        Side::Used => format!("zz : {annotation} <- (fwd zz {name})"),
        Side::Provided => format!("zz : 1 <- (yy : {annotation} <- (cancel yy); cancel zz; fwd {name} yy)"),
    };
    format!("{forwarded}; cancel zz; {name} : 1 <- (cancel {name}); cancel {name}; ")
}

/// The text with a probe before the point at an offset, and where the probe ends.
fn probed(text: &[u8], spot: &Spot<'_>, at: usize, probe: &str) -> (Vec<u8>, usize) {
    let before = tokens(text).take_while(|token| token.start < at).last();
    let joins = before.is_some_and(|token| !matches!(&text[token.start..token.end], b";" | b"(" | b"=>" | b"=" | b"raise"));
    let lead = if matches!(spot.point, Point::Empty) && joins { " ; " } else { " " };
    let start = [&text[..at], lead.as_bytes(), probe.as_bytes()].concat();
    (([&start[..], &text[at..]]).concat(), start.len())
}

/// Of each channel that is said to be held where a term is refused, the check itself confirms side and type.
#[test]
fn the_check_confirms_what_is_held() {
    let mut confirmed = 0;
    for (name, text, refusal) in refused() {
        let Ok(program) = Program::read(&text) else { continue };
        let Some(spot) = (refusal.number >= 10).then(|| program.spot(refusal.offset)).flatten() else { continue };
        for held in &spot.context.held {
            let (text, end) = probed(&text, &spot, refusal.offset, &probe(&program, held));
            match self::refusal(&text) {
                // A probe may pass a limit.
                Some(Refusal { number: 2 | 5 | 15, .. }) => continue,
                Some(other) if other.offset < end => panic!("{name}: {refusal}: {held:?} is not held: {other}: {}", shown(&text)),
                _ => confirmed += 1,
            }
        }
    }
    assert!(confirmed > 1000, "{confirmed}");
}

/// Where the process of the text ends that goes on at an offset: at the bracket that closes around it, the next branch or the next declaration.
fn end_of_process(text: &[u8], at: usize) -> usize {
    let mut depth = 0;
    for token in tokens(text).filter(|token| token.start >= at) {
        match &text[token.start..token.end] {
            b")" | b"|" | b"type" | b"proc" | b"exec" if depth == 0 => return token.start,
            b"(" | b"[" | b"{" => depth += 1,
            b")" | b"]" | b"}" => depth -= 1,
            _ => {}
        }
    }
    text.len()
}

/// Neither more nor less is held where a term is refused than is said: given up, all of it, a process may end there.
#[test]
fn the_check_confirms_that_no_more_is_held() {
    let mut confirmed = 0;
    for (name, text, refusal) in refused() {
        let Ok(program) = Program::read(&text) else { continue };
        let Some(spot) = (refusal.number >= 10).then(|| program.spot(refusal.offset)).flatten() else { continue };
        let given_up: String = spot.context.held.iter().map(|held| format!("cancel {}; ", program.name(held.name))).collect();
        let (start, end) = probed(&text[..refusal.offset], &spot, refusal.offset, &given_up);
        let text = [&start[..], b" ", &text[end_of_process(&text, refusal.offset)..]].concat();
        match self::refusal(&text) {
            Some(Refusal { number: 2, .. }) => continue,
            Some(other) if other.offset <= end + 1 => panic!("{name}: {refusal}: {:?} is not all: {other}: {}", spot.context.held, shown(&text)),
            _ => confirmed += 1,
        }
    }
    assert!(confirmed > 500, "{confirmed}");
}

/// Explanations that were read over: of a case, or of a script that stands beside.
#[test]
fn explanations() {
    let folder = root().join("tools/tests/explained");
    let scripts: Vec<(String, Vec<u8>)> = ["crates/cases/data", "tools/tests/explained"].iter().flat_map(|folder| common::texts(folder)).collect();
    let mut compared = 0;
    for (name, text) in scripts {
        let Ok(stored) = fs::read_to_string(folder.join(name.replace(".ep", ".txt"))) else { continue };
        assert_eq!(report(page(&name, &text)).0, stored, "{name}");
        compared += 1;
    }
    assert_eq!(compared, fs::read_dir(folder).unwrap().filter(|entry| entry.as_ref().unwrap().path().extension().unwrap() == "txt").count());
}

/// Colours are put around parts, and change no letter.
#[test]
fn colours() {
    let text = b"type a = 1\ntype a = 1\n";
    let (plain, coloured) = (report(page("a.ep", text)).0, report(Page { style: Style::Coloured, ..page("a.ep", text) }).0);
    let mut stripped = String::new();
    for (i, part) in coloured.split("\x1b[").enumerate() {
        stripped += if i == 0 { part } else { part.split_once('m').unwrap().1 };
    }
    assert_eq!(stripped, plain);
    assert!(coloured.contains("\x1b[1;31mrefused 6\x1b[0m"), "{coloured}");
}
