//! Lines and columns, tokens, and the tables of a text that is refused.

use epass::{position, tables, token, Position, Script, TokenKind, SCRATCH_WORDS};
use std::fs;
use std::path::Path;

fn texts() -> Vec<Vec<u8>> {
    let folder = Path::new(env!("CARGO_MANIFEST_DIR")).join("../../crates/cases/data");
    let mut paths: Vec<_> = fs::read_dir(folder).unwrap().map(|entry| entry.unwrap().path()).collect();
    paths.sort();
    paths.iter().filter(|path| path.extension().is_some_and(|e| e == "ep")).map(|path| fs::read(path).unwrap()).collect()
}

/// Line and column as another would count them: the line feeds before an offset, and the bytes after the last of them.
fn counted(text: &[u8], offset: usize) -> Position {
    let before = &text[..offset.min(text.len())];
    let last = before.iter().rposition(|b| *b == b'\n').map_or(0, |at| at + 1);
    Position {
        line: 1 + before.iter().filter(|b| **b == b'\n').count() as u32,
        column: 1 + (before.len() - last) as u32,
    }
}

#[test]
fn positions() {
    let odd: [&[u8]; 5] = [b"", b"\n", b"\r\n\r\n", b"a\tb\n\nc", b"\xc3\xa9\n"];
    for text in odd.iter().map(|text| text.to_vec()).chain(texts()) {
        for offset in (0..text.len() + 3).step_by(1 + text.len() / 500).chain([usize::MAX]) {
            assert_eq!(position(&text, offset), counted(&text, offset), "{offset}");
        }
    }
}

/// Between two tokens stand blanks alone, and what no token has is a fault of the text: the tokens tell every byte.
#[test]
fn tokens_tell_every_byte() {
    for text in texts() {
        let mut at = 0;
        loop {
            let found = token(&text, at);
            assert!(text[at..found.start].iter().all(|b| b" \t\n\r".contains(b)));
            if found.kind() == TokenKind::End {
                assert_eq!((found.start, found.end), (text.len(), text.len()));
                break;
            }
            assert!(found.start < found.end);
            at = found.end;
        }
    }
}

/// The tables of a text are there exactly where no refusal up to 5 is, and are those that a check leaves where it accepts.
#[test]
fn tables_of_refused_texts() {
    let mut numbers = Vec::new();
    for text in texts() {
        let mut words = vec![0; SCRATCH_WORDS];
        let read = tables(&text, &mut words);
        match Script::check(&text, vec![0; SCRATCH_WORDS]) {
            Ok(script) => assert!(read.is_ok() && script.tables() == words),
            Err(refusal) if refusal.number <= 5 => assert_eq!(read, Err(refusal)),
            Err(refusal) => {
                assert!(read.is_ok());
                numbers.push(refusal.number);
            }
        }
    }
    assert!([6, 7, 8, 9, 10, 11, 12, 13, 15].iter().all(|n| numbers.contains(n)), "{numbers:?}");
}
