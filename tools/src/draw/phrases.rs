//! What a process does next, in a few words of its script.

use crate::program::{Body, Kind, Offset, Program};
use crate::state::Doing;

/// So many characters of a term are shown.
const MOST_OF_TERM: usize = 34;

/// A text of at most so many characters.
pub fn cut(text: &str, most: usize) -> String {
    if text.len() <= most {
        return text.to_owned();
    }
    let kept: String = text.chars().take(most.saturating_sub(2)).collect();
    format!("{}..", kept.trim_end())
}

pub fn next(program: &Program<'_>, doing: Doing) -> String {
    match doing {
        Doing::FoldsUp => "folds up".to_owned(),
        Doing::Empty => "empty".to_owned(),
        Doing::Waits(_) => "waits as a handler".to_owned(),
        Doing::Runs(Body::Empty(_)) => "empty".to_owned(),
        Doing::Runs(Body::Term(number)) => cut(&term(program, &program.term(number).kind), MOST_OF_TERM),
    }
}

/// The line of the script that a process has come to, or that it will start with.
pub fn script_line(program: &Program<'_>, doing: Doing) -> Option<u32> {
    let at = match doing {
        Doing::FoldsUp | Doing::Empty => return None,
        Doing::Runs(Body::Term(number)) | Doing::Waits(Body::Term(number)) => program.term(number).at,
        Doing::Runs(Body::Empty(at)) | Doing::Waits(Body::Empty(at)) => at,
    };
    Some(epass::position(program.text, at).line)
}

/// A term, without the processes in it and after it.
fn term(program: &Program<'_>, kind: &Kind) -> String {
    let name = |at: &Offset| program.name(*at);
    let list = |names: &[Offset]| names.iter().map(name).collect::<Vec<_>>().join(", ");
    match kind {
        Kind::SendUnit { channel, .. } => format!("send {} ()", name(channel)),
        Kind::SendChannel { channel, passed: sent, .. } | Kind::SendLabel { channel, label: sent, .. } => format!("send {} {}", name(channel), name(sent)),
        Kind::Cancel { channel, .. } => format!("cancel {}", name(channel)),
        Kind::Spawn { channel, annotation, .. } => format!("{} : {} <- (..)", name(channel), program.shown(*annotation)),
        Kind::RecvUnit { channel, .. } => format!("recv {} (() => ..)", name(channel)),
        Kind::RecvChannel { channel, brought, .. } => format!("recv {} ({} => ..)", name(channel), name(brought)),
        Kind::RecvLabel { channel, branches } => match &branches[..] {
            [(label, _)] => format!("recv {} ({} => ..)", name(channel), name(label)),
            _ => format!("recv {} (..)", name(channel)),
        },
        Kind::Fwd { provided, used } => format!("fwd {} {}", name(provided), name(used)),
        Kind::Call { process, provided, used } => format!("call {} ({}) [{}]", name(process), list(provided), list(used)),
        Kind::Raise { .. } => "raise ..".to_owned(),
        Kind::Try { .. } => "try (..) catch (..)".to_owned(),
    }
}

#[cfg(test)]
mod tests {
    use super::*;

    #[test]
    fn a_text_is_cut_where_it_is_too_long() {
        assert_eq!(cut("a * b", 5), "a * b");
        assert_eq!(cut("a * bc", 5), "a *..");
    }
}
