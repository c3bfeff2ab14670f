//! The functions of the library, each behind a safe one that lends slices as they are. All `unsafe` is here.

#[cfg(test)]
mod tests;

/// How many words an answer has.
pub const ANSWER_WORDS: usize = 130;

/// The words of an answer.
pub type Answer = [u32; ANSWER_WORDS];

extern "C" {
    fn epass_start(
        text: *const u8,
        text_length: usize,
        scratch: *mut u32,
        scratch_length: usize,
        run: *mut u32,
        run_length: usize,
        line: u32,
        answer: *mut u32,
        answer_length: usize,
    ) -> u32;
    fn epass_step(
        text: *const u8,
        text_length: usize,
        scratch: *mut u32,
        scratch_length: usize,
        run: *mut u32,
        run_length: usize,
        place: u32,
        answer: *mut u32,
        answer_length: usize,
    ) -> u32;
    fn epass_run_on(
        text: *const u8,
        text_length: usize,
        scratch: *mut u32,
        scratch_length: usize,
        run: *mut u32,
        run_length: usize,
        budget: u32,
        answer: *mut u32,
        answer_length: usize,
    ) -> u32;
    fn epass_report(
        text: *const u8,
        text_length: usize,
        scratch: *mut u32,
        scratch_length: usize,
        run: *const u32,
        run_length: usize,
        answer: *mut u32,
        answer_length: usize,
    ) -> u32;
    fn epass_places(
        text: *const u8,
        text_length: usize,
        scratch: *mut u32,
        scratch_length: usize,
        run: *const u32,
        run_length: usize,
        answer: *mut u32,
        answer_length: usize,
    ) -> u32;
    fn epass_exec_name(
        text: *const u8,
        text_length: usize,
        scratch: *mut u32,
        scratch_length: usize,
        line: u32,
        answer: *mut u32,
        answer_length: usize,
    ) -> u32;
    fn epass_warning(
        text: *const u8,
        text_length: usize,
        scratch: *mut u32,
        scratch_length: usize,
        number: u32,
        answer: *mut u32,
        answer_length: usize,
    ) -> u32;
    fn epass_position(text: *const u8, text_length: usize, at: usize, answer: *mut u32, answer_length: usize) -> u32;
    fn epass_token(text: *const u8, text_length: usize, at: usize, answer: *mut u32, answer_length: usize) -> u32;
    fn epass_tables(
        text: *const u8,
        text_length: usize,
        scratch: *mut u32,
        scratch_length: usize,
        answer: *mut u32,
        answer_length: usize,
    ) -> u32;
}

/// An entry that is lent a run and takes a number.
#[derive(Clone, Copy)]
pub enum Numbered {
    Start,
    Step,
    RunOn,
}

/// A function that is lent no run and takes a number.
#[derive(Clone, Copy)]
pub enum OfText {
    ExecName,
    Warning,
}

/// A function of an offset of a text.
#[derive(Clone, Copy)]
pub enum At {
    Position,
    Token,
}

/// An entry that only reads a run.
#[derive(Clone, Copy)]
pub enum Reading {
    Report,
    Places,
}

/// Calls an entry that may change a run, and has its answer written to the lent words.
fn change_into(entry: Numbered, text: &[u8], scratch: &mut [u32], run: &mut [u32], number: u32, answer: &mut [u32]) -> u32 {
    let call = match entry {
        Numbered::Start => epass_start,
        Numbered::Step => epass_step,
        Numbered::RunOn => epass_run_on,
    };
    // SAFETY: each pointer is lent with the length of its slice, and the borrows keep the slices apart.
    unsafe {
        call(
            text.as_ptr(),
            text.len(),
            scratch.as_mut_ptr(),
            scratch.len(),
            run.as_mut_ptr(),
            run.len(),
            number,
            answer.as_mut_ptr(),
            answer.len(),
        )
    }
}

/// Calls an entry that reads a run, likewise.
fn read_into(entry: Reading, text: &[u8], scratch: &mut [u32], run: &[u32], answer: &mut [u32]) -> u32 {
    let call = match entry {
        Reading::Report => epass_report,
        Reading::Places => epass_places,
    };
    // SAFETY: as above; the run is only read.
    unsafe {
        call(
            text.as_ptr(),
            text.len(),
            scratch.as_mut_ptr(),
            scratch.len(),
            run.as_ptr(),
            run.len(),
            answer.as_mut_ptr(),
            answer.len(),
        )
    }
}

/// Asks a text for the name of an exec line or a warning, likewise.
fn ask_into(what: OfText, text: &[u8], scratch: &mut [u32], number: u32, answer: &mut [u32]) -> u32 {
    let call = match what {
        OfText::ExecName => epass_exec_name,
        OfText::Warning => epass_warning,
    };
    // SAFETY: as above; no run is lent.
    unsafe {
        call(
            text.as_ptr(),
            text.len(),
            scratch.as_mut_ptr(),
            scratch.len(),
            number,
            answer.as_mut_ptr(),
            answer.len(),
        )
    }
}

/// Asks for what stands at an offset of a text, likewise.
fn look_into(what: At, text: &[u8], at: usize, answer: &mut [u32]) -> u32 {
    let call = match what {
        At::Position => epass_position,
        At::Token => epass_token,
    };
    // SAFETY: as above; no words but the answer's are lent.
    unsafe { call(text.as_ptr(), text.len(), at, answer.as_mut_ptr(), answer.len()) }
}

/// Reads a text into its tables, likewise.
fn tables_into(text: &[u8], scratch: &mut [u32], answer: &mut [u32]) -> u32 {
    // SAFETY: as above; no run is lent.
    unsafe { epass_tables(text.as_ptr(), text.len(), scratch.as_mut_ptr(), scratch.len(), answer.as_mut_ptr(), answer.len()) }
}

/// The answer of an entry that may change a run.
pub fn change(entry: Numbered, text: &[u8], scratch: &mut [u32], run: &mut [u32], number: u32) -> Answer {
    let mut answer = [0; ANSWER_WORDS];
    change_into(entry, text, scratch, run, number, &mut answer);
    answer
}

/// The answer of an entry that reads a run.
pub fn read(entry: Reading, text: &[u8], scratch: &mut [u32], run: &[u32]) -> Answer {
    let mut answer = [0; ANSWER_WORDS];
    read_into(entry, text, scratch, run, &mut answer);
    answer
}

/// The answer of a function that is lent no run.
pub fn ask(what: OfText, text: &[u8], scratch: &mut [u32], number: u32) -> Answer {
    let mut answer = [0; ANSWER_WORDS];
    ask_into(what, text, scratch, number, &mut answer);
    answer
}

/// What stands at an offset of a text.
pub fn look(what: At, text: &[u8], at: usize) -> Answer {
    let mut answer = [0; ANSWER_WORDS];
    look_into(what, text, at, &mut answer);
    answer
}

/// The answer of the reading of a text into its tables.
pub fn tables(text: &[u8], scratch: &mut [u32]) -> Answer {
    let mut answer = [0; ANSWER_WORDS];
    tables_into(text, scratch, &mut answer);
    answer
}
