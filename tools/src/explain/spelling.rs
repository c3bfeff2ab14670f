//! Names that were meant, perhaps.

/// One letter in so many may be wrong: in a short name every other one is near.
const LETTERS_A_SLIP: usize = 3;

/// The name that is spelled most like one that was not found, if any is.
pub fn meant<'n>(name: &str, among: impl Iterator<Item = &'n str>) -> Option<&'n str> {
    let near = among.map(|other| (distance(name.as_bytes(), other.as_bytes()), other));
    let (wrong, other) = near.min_by_key(|(wrong, _)| *wrong)?;
    (wrong * LETTERS_A_SLIP <= name.len()).then_some(other)
}

/// How many letters must be put in, left out or changed to make one name of the other.
fn distance(a: &[u8], b: &[u8]) -> usize {
    let mut row: Vec<usize> = (0..=b.len()).collect();
    for (i, x) in a.iter().enumerate() {
        let mut corner = row[0];
        row[0] = i + 1;
        for (j, y) in b.iter().enumerate() {
            let changed = corner + usize::from(x != y);
            corner = row[j + 1];
            row[j + 1] = changed.min(corner + 1).min(row[j] + 1);
        }
    }
    row[b.len()]
}

/// So many of them, the word in its number.
pub fn counted(n: usize, one: &str, more: &str) -> String {
    format!("{n} {}", if n == 1 { one } else { more })
}

/// Words in a row: `a`, `a and b`, `a, b and c`.
pub fn listed<S: AsRef<str>>(words: &[S], joint: &str) -> String {
    let words: Vec<&str> = words.iter().map(AsRef::as_ref).collect();
    match words.split_last() {
        None => String::new(),
        Some((last, [])) => (*last).to_owned(),
        Some((last, others)) => format!("{} {joint} {last}", others.join(", ")),
    }
}

#[cfg(test)]
mod tests {
    use super::*;

    #[test]
    fn distances() {
        for (a, b, wrong) in [("", "", 0), ("lamp", "lamp", 0), ("lamp", "lmp", 1), ("lamp", "clamp", 1), ("lamp", "lump", 1), ("carriage", "carige", 2), ("a", "xyz", 3)] {
            assert_eq!(distance(a.as_bytes(), b.as_bytes()), wrong, "{a} {b}");
        }
        assert_eq!(meant("selectro", ["feeder", "selector"].into_iter()), Some("selector"));
        assert_eq!(meant("y", ["x"].into_iter()), None);
    }
}
