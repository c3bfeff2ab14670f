//! Tests hold the numbers that this crate takes over from the proved code to that code.

use std::fs;
use std::path::Path;

/// Each constant has this value in a file of crates/.
pub fn agrees(file: &str, ours: &[(&str, usize)]) {
    let path = Path::new(env!("CARGO_MANIFEST_DIR")).join("../crates").join(file);
    let code = fs::read_to_string(&path).unwrap_or_else(|fault| panic!("{}: {fault}", path.display()));
    for (name, value) in ours {
        assert_eq!(constant(&code, name), Some(*value), "{name} of {file}");
    }
}

fn constant(code: &str, name: &str) -> Option<usize> {
    let line = code.lines().find(|line| line.trim().starts_with(&format!("pub const {name}: ")))?;
    line.split('=').nth(1)?.trim().trim_end_matches(';').parse().ok()
}
