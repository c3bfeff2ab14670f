//! The limits of the notation; a test holds them to those of the proved code.

pub const NAME: usize = 32;
pub const TYPES: usize = 64;
pub const PROCESSES: usize = 64;
pub const EXECS: usize = 16;
pub const TYPE_TERMS: usize = 512;
pub const PROCESS_TERMS: usize = 1024;
pub const BRACKETS: usize = 24;
pub const LABELS: usize = 16;
pub const HELD: usize = 16;

#[cfg(test)]
mod tests {
    use super::*;
    use crate::constants::agrees;

    #[test]
    fn the_limits_are_the_notations() {
        let declarations = [("TYPES", TYPES), ("PROCESSES", PROCESSES), ("EXECS", EXECS), ("NAME", NAME)];
        let terms = [("TYPE_TERMS", TYPE_TERMS), ("PROCESS_TERMS", PROCESS_TERMS), ("BRACKETS", BRACKETS), ("LABELS", LABELS), ("HELD", HELD)];
        for limits in [&declarations[..], &terms[..]] {
            agrees("notation/src/script.rt", limits);
        }
    }
}
