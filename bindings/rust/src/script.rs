//! A script that was checked.

use crate::answers::Warning;
use crate::ffi::{self, OfText};
use crate::refusal::{Reason, Refusal};

/// A text that the typing rules accept, with the scratch words that its calls need: an array, or a lent slice.
#[derive(Clone, Debug)]
pub struct Script<'t, S> {
    text: &'t [u8],
    scratch: S,
}

impl<'t, S: AsMut<[u32]>> Script<'t, S> {
    /// Checks a text. It is refused by the first fault in it, or by scratch with under [`crate::SCRATCH_WORDS`] words.
    pub fn check(text: &'t [u8], mut scratch: S) -> Result<Script<'t, S>, Refusal> {
        let answer = ffi::ask(OfText::ExecName, text, scratch.as_mut(), 0);
        match Refusal::told(&answer) {
            // A script without execs is one, too.
            Err(refusal) if refusal.reason() != Some(Reason::NoLine) => Err(refusal),
            _ => Ok(Script { text, scratch }),
        }
    }

    /// The text.
    pub fn text(&self) -> &'t [u8] {
        self.text
    }

    /// The name of the process of an exec line, as the part of the text that holds it; lines are numbered from 0.
    pub fn exec_name(&mut self, line: u32) -> Result<&'t [u8], Refusal> {
        let answer = ffi::ask(OfText::ExecName, self.text, self.scratch.as_mut(), line);
        Refusal::told(&answer)?;
        let at = answer[1] as usize;
        Ok(&self.text[at..at + answer[2] as usize])
    }

    /// The warning of a number, from 0.
    pub fn warning(&mut self, number: u32) -> Option<Warning<'t>> {
        Warning::told(self.text, &ffi::ask(OfText::Warning, self.text, self.scratch.as_mut(), number))
    }

    /// The labels that the script's recvs leave out: the recvs in text order, a recv before those inside it, the labels of each in the order of its type.
    pub fn warnings(&mut self) -> impl Iterator<Item = Warning<'t>> + '_ {
        (0..).map_while(|number| self.warning(number))
    }

    /// The words of scratch, which hold the text's tables; what each is, is no promise of this crate.
    pub fn tables(&self) -> &[u32]
    where
        S: AsRef<[u32]>,
    {
        self.scratch.as_ref()
    }

    /// What every call of a run lends of a script.
    pub(crate) fn lent(&mut self) -> (&'t [u8], &mut [u32]) {
        (self.text, self.scratch.as_mut())
    }
}
