//! Why a text is refused. The number and the offset are the check's own; what is said of them is read off the text's tokens and tables.

mod declarations;
mod reading;
pub mod spelling;
mod typing;

use crate::diagnostic::{Diagnostic, Mark};
use crate::page::Page;
use epass::{Refusal, Script, Warning, SCRATCH_WORDS};

/// A refusal explained; where its cause is not found, which no test has met, by the refusal's own sentence.
pub fn explain(text: &[u8], refusal: Refusal) -> Diagnostic {
    cause(text, refusal).unwrap_or_else(|| {
        let fault = Mark::token(text, refusal.offset, "");
        Diagnostic::new(refusal.sentence(), fault, "docs/GUIDE.md has a script that is refused so, and how it is mended")
    })
}

/// The cause of a refusal of a text, as far as it is found.
pub fn cause(text: &[u8], refusal: Refusal) -> Option<Diagnostic> {
    let at = refusal.offset;
    match refusal.number {
        2 => Some(reading::too_long(text)),
        3 => Some(reading::no_token(text, at)),
        4 => Some(reading::no_script(text, at)),
        5 => reading::past_limit(text, at),
        6..=9 => declarations::cause(text, refusal),
        10..=15 => typing::cause(text, refusal),
        _ => None,
    }
}

/// A text's verdict in full: its refusal explained, or that it is accepted, with its warnings. Whether it is accepted is told beside.
pub fn report(page: Page<'_>) -> (String, bool) {
    let Page { name, text, .. } = page;
    match Script::check(text, vec![0; SCRATCH_WORDS]) {
        Err(refusal) => (page.lay_out(&explain(text, refusal), &format!("refused {}", refusal.number), &refusal.to_string()), false),
        Ok(mut script) => {
            let warnings: Vec<Warning<'_>> = script.warnings().collect();
            let told: String = warnings.chunk_by(|one, other| one.at == other.at).map(|recv| warned(page, recv)).collect();
            (format!("{told}{name}: accepted\n"), true)
        }
    }
}

/// The warnings of one recv.
fn warned(page: Page<'_>, recv: &[Warning<'_>]) -> String {
    let word = |bytes| String::from_utf8_lossy(bytes).into_owned();
    let labels: Vec<String> = recv.iter().map(|warning| word(warning.label)).collect();
    let (process, channel, labels) = (word(recv[0].process), word(recv[0].channel), spelling::listed(&labels, "or"));
    let title = format!("the recv on {channel} in {process} has no branch for {labels}");
    let mark = Mark::token(page.text, recv[0].at, format!("{labels} may come here"));
    let help = "add a branch, or leave it: where such a label comes, the handler starts, or, without one, the run halts";
    page.lay_out(&Diagnostic::new(title, mark, help), "warning", "")
}
