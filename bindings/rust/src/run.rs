//! A run of a script's exec line.

use crate::answers::{Places, RanOn, Report, Step};
use crate::ffi::{self, Numbered, Reading};
use crate::refusal::Refusal;
use crate::script::Script;

/// The state of a run, in its words: an array, or a lent slice. Every call is given the script that it was started with; with
/// another one it is refused, unless the words happen to be a well-typed configuration of that one, too.
#[derive(Clone, Debug)]
pub struct Run<W> {
    words: W,
}

impl<W: AsMut<[u32]> + AsRef<[u32]>> Run<W> {
    /// Begins the run of an exec line; lines are numbered from 0. What the words hold does not matter.
    pub fn start<S: AsMut<[u32]>>(script: &mut Script<'_, S>, line: u32, words: W) -> Result<Run<W>, Refusal> {
        let mut run = Run { words };
        run.restart(script, line)?;
        Ok(run)
    }

    /// Takes up a run whose first [`crate::RUN_WORDS`] words were kept. They are tested by each call, not here.
    pub fn resume(words: W) -> Run<W> {
        Run { words }
    }

    /// The words, to be kept or looked at.
    pub fn words(&self) -> &[u32] {
        self.words.as_ref()
    }

    /// Begins anew, with another exec line or the same. Refused, it leaves the run that goes on.
    pub fn restart<S: AsMut<[u32]>>(&mut self, script: &mut Script<'_, S>, line: u32) -> Result<(), Refusal> {
        let (text, scratch) = script.lent();
        Refusal::told(&ffi::change(Numbered::Start, text, scratch, self.words.as_mut(), line))
    }

    /// Carries out the step of the process at a place; places are numbered from 0. A raise without a handler halts the run and leaves
    /// all else as it is: from then on a step is refused ([`crate::Reason::Halted`]), run-on answers [`crate::End::Uncaught`] and no
    /// step is open, until the run is begun anew.
    pub fn step<'t, S: AsMut<[u32]>>(&mut self, script: &mut Script<'t, S>, place: u32) -> Result<Step<'t>, Refusal> {
        let (text, scratch) = script.lent();
        let answer = ffi::change(Numbered::Step, text, scratch, self.words.as_mut(), place);
        Refusal::told(&answer)?;
        Ok(Step::told(text, &answer))
    }

    /// Carries out steps, each at the first place where one can be, until the run has halted, one shows something, no process is
    /// left, none can be carried out, or the budget is spent.
    pub fn run_on<'t, S: AsMut<[u32]>>(&mut self, script: &mut Script<'t, S>, budget: u32) -> Result<RanOn<'t>, Refusal> {
        let (text, scratch) = script.lent();
        let answer = ffi::change(Numbered::RunOn, text, scratch, self.words.as_mut(), budget);
        Refusal::told(&answer)?;
        Ok(RanOn::told(text, &answer))
    }

    /// The numbers of the outside channels still open, rising.
    pub fn report<S: AsMut<[u32]>>(&self, script: &mut Script<'_, S>) -> Result<Report, Refusal> {
        let (text, scratch) = script.lent();
        let answer = ffi::read(Reading::Report, text, scratch, self.words.as_ref());
        Refusal::told(&answer)?;
        Ok(Report::told(&answer))
    }

    /// What the step at each place is.
    pub fn places<S: AsMut<[u32]>>(&self, script: &mut Script<'_, S>) -> Result<Places, Refusal> {
        let (text, scratch) = script.lent();
        let answer = ffi::read(Reading::Places, text, scratch, self.words.as_ref());
        Refusal::told(&answer)?;
        Ok(Places::told(&answer))
    }
}
