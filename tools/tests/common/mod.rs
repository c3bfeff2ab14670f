//! The scripts that the tools are tried on.
#![allow(dead_code)]

use epass::token;
use epass_tools::program::Program;
use epass_tools::random::Random;
use epass_tools::tokens::tokens;
use std::fs;
use std::path::{Path, PathBuf};

pub fn root() -> PathBuf {
    Path::new(env!("CARGO_MANIFEST_DIR")).join("..")
}

/// The texts of a folder, by their names.
pub fn texts(folder: &str) -> Vec<(String, Vec<u8>)> {
    let path = root().join(folder);
    let mut found: Vec<(String, Vec<u8>)> = fs::read_dir(&path)
        .unwrap_or_else(|fault| panic!("{}: {fault}", path.display()))
        .map(|entry| entry.unwrap().path())
        .filter(|path| path.extension().is_some_and(|extension| extension == "ep"))
        .map(|path| (path.file_name().unwrap().to_string_lossy().into_owned(), fs::read(&path).unwrap()))
        .collect();
    found.sort();
    assert!(!found.is_empty(), "{folder} has no texts");
    found
}

/// Every script that the gate has, but for those of documents.
pub fn all_texts() -> Vec<(String, Vec<u8>)> {
    ["crates/cases/data", "bench", "examples"].iter().flat_map(|folder| texts(folder)).collect()
}

/// The program of a text that the check accepts.
pub fn accepted(text: &[u8]) -> Option<Program<'_>> {
    epass::Script::check(text, vec![0; epass::SCRATCH_WORDS]).ok()?;
    Program::read(text).ok()
}

/// The text with a few of its tokens left out, said twice, or changed for another of the text: mostly for one of the same kind, so that it can still be read.
pub fn damaged(text: &[u8], source: &mut Random) -> Vec<u8> {
    let all: Vec<&[u8]> = tokens(text).map(|found| &text[found.start..found.end]).collect();
    let mut pieces = all.clone();
    for _ in 0..=source.below(2) {
        if pieces.is_empty() {
            break;
        }
        let here = source.below(pieces.len());
        let kind = token(pieces[here], 0).kind();
        let alike: Vec<&[u8]> = all.iter().copied().filter(|piece| token(piece, 0).kind() == kind).collect();
        match source.below(12) {
            0 => drop(pieces.remove(here)),
            1 => pieces.insert(here, all[source.below(all.len())]),
            2 => pieces[here] = all[source.below(all.len())],
            _ => pieces[here] = alike[source.below(alike.len())],
        }
    }
    pieces.join(&b' ')
}
