//! What is refused, and how an answer is told.

use epass::{End, Reason, Run, Script, Step, RUN_WORDS, SCRATCH_WORDS};

const TEXT: &[u8] = b"proc m (x : 1) [] = try (send x ()) catch ()\nexec m\n";

fn scratch() -> Vec<u32> {
    vec![0; SCRATCH_WORDS]
}

#[test]
fn short_slices() {
    let refusal = Script::check(TEXT, vec![0; SCRATCH_WORDS - 1]).unwrap_err();
    assert_eq!((refusal.reason(), refusal.to_string().as_str()), (Some(Reason::ScratchShort), "refused 1"));
    let mut script = Script::check(TEXT, scratch()).unwrap();
    let refusal = Run::start(&mut script, 0, vec![0; RUN_WORDS - 1]).unwrap_err();
    assert_eq!(refusal.reason(), Some(Reason::RunShort));
}

#[test]
fn a_text_at_fault() {
    let refusal = Script::check(b"type a = 1 *", scratch()).unwrap_err();
    assert_eq!(refusal.to_string(), "refused 4 at 12");
    assert_eq!(refusal.sentence(), "the tokens so far continue to no script");
}

/// Offsets have sixteen bits inside the reading: each is told as it is, up to the end of a full text, and a text whose length has more is refused.
#[test]
fn offsets_of_a_text() {
    let said = |text: &[u8]| Script::check(text, scratch()).unwrap_err().to_string();
    for n in [1, 255, 256, 257, 4096, 8190, 8191, 8192] {
        let mut text = vec![b' '; n];
        text[n - 1] = b'$';
        assert_eq!(said(&text), format!("refused 3 at {}", n - 1));
        text[n - 1] = b'1';
        assert_eq!(said(&text), format!("refused 4 at {}", n - 1));
    }
    for n in [4, 252, 256, 8191, 8192] {
        let mut text = vec![b' '; n];
        text[n - 4..].copy_from_slice(b"exec");
        assert_eq!(said(&text), format!("refused 4 at {n}"));
    }
    for n in [8193, 65_535, 65_536, 65_537, 65_536 + 8192, 2 * 65_536] {
        assert_eq!(said(&vec![b' '; n]), "refused 2 at 8192");
    }
}

#[test]
fn lines_and_places() {
    let mut script = Script::check(TEXT, scratch()).unwrap();
    assert_eq!(script.exec_name(0).unwrap(), b"m");
    assert_eq!(script.exec_name(1).unwrap_err().reason(), Some(Reason::NoLine));
    let mut run = Run::start(&mut script, 0, vec![0; RUN_WORDS]).unwrap();
    assert_eq!(run.places(&mut script).unwrap().to_string(), "1 processes open");
    assert_eq!(run.step(&mut script, 1).unwrap_err().reason(), Some(Reason::NoProcess));
    run.step(&mut script, 0).unwrap();
    assert_eq!(run.places(&mut script).unwrap().to_string(), "2 processes open waits");
    assert_eq!(run.step(&mut script, 1).unwrap_err().reason(), Some(Reason::NotOpen));
    assert_eq!(run.report(&mut script).unwrap().to_string(), "open 0");
}

#[test]
fn a_run_that_is_full() {
    let text = b"proc m (x : 1) [] = c : 1 <- (call m (c) []); recv c (() => send x ())\nexec m\n";
    let mut script = Script::check(text, scratch()).unwrap();
    let mut run = Run::start(&mut script, 0, vec![0; RUN_WORDS]).unwrap();
    assert_eq!(run.run_on(&mut script, 10_000).unwrap().to_string(), "254 steps, full");
    assert_eq!(run.step(&mut script, 127).unwrap_err().reason(), Some(Reason::Lacking));
}

/// A raise without a handler: the step is taken, and the run has halted until it is begun anew.
#[test]
fn a_run_that_has_halted() {
    let mut script = Script::check(b"proc m (x : 1) [] = raise send x ()\nexec m\n", scratch()).unwrap();
    let mut run = Run::start(&mut script, 0, vec![0; RUN_WORDS]).unwrap();
    assert_eq!(run.step(&mut script, 0), Ok(Step::Uncaught));
    let ran = run.run_on(&mut script, 9).unwrap();
    assert_eq!((ran.steps, ran.end, ran.to_string().as_str()), (0, End::Uncaught, "0 steps, uncaught"));
    for place in [0, 9] {
        let refusal = run.step(&mut script, place).unwrap_err();
        assert_eq!((refusal.reason(), refusal.to_string().as_str()), (Some(Reason::Halted), "refused 22"));
    }
    assert_eq!(run.report(&mut script).unwrap().numbers(), [0]);
    assert_eq!(run.places(&mut script).unwrap().to_string(), "1 processes waits");
    run.restart(&mut script, 0).unwrap();
    assert_eq!(run.run_on(&mut script, 9).unwrap().to_string(), "1 steps, uncaught");
}

/// Words that say that a run has halted, though no step of it would halt it, are no run.
#[test]
fn a_run_that_would_not_halt() {
    // where a run says whether it has halted
    const HALTED: usize = 3;
    let mut script = Script::check(TEXT, scratch()).unwrap();
    let mut words = Run::start(&mut script, 0, vec![0; RUN_WORDS]).unwrap().words().to_vec();
    words[HALTED] = 1;
    let mut run = Run::resume(words);
    assert_eq!(run.step(&mut script, 0).unwrap_err().reason(), Some(Reason::NoRun));
    assert_eq!(run.run_on(&mut script, 9).unwrap_err().reason(), Some(Reason::NoRun));
}

#[test]
fn a_run_that_is_none() {
    let mut script = Script::check(TEXT, scratch()).unwrap();
    let mut zeros = Run::resume(vec![0; RUN_WORDS]);
    assert_eq!(zeros.step(&mut script, 0).unwrap_err().reason(), Some(Reason::NoProcess));
    assert_eq!(zeros.run_on(&mut script, 9).unwrap().to_string(), "0 steps, done");
    let mut words = vec![0; RUN_WORDS];
    words[0] = 129;
    let stranger = Run::resume(words);
    assert_eq!(stranger.places(&mut script).unwrap_err().reason(), Some(Reason::NoRun));
}

/// A report rises, since words that have the outside's channels in another order, or two of one number, are no run.
#[test]
fn a_run_out_of_order() {
    // where the outside's channels stand in a run, two words each: its number first
    const OUTSIDE: usize = 16;
    let mut script = Script::check(b"proc m (x : 1, y : 1) [] = send x (); send y ()\nexec m\n", scratch()).unwrap();
    let words = Run::start(&mut script, 0, vec![0; RUN_WORDS]).unwrap().words().to_vec();
    assert_eq!(Run::resume(words.clone()).report(&mut script).unwrap().numbers(), [0, 1]);
    let mut exchanged = words.clone();
    exchanged[OUTSIDE..OUTSIDE + 4].rotate_left(2);
    let mut twice = words;
    twice[OUTSIDE + 2] = 0;
    for words in [exchanged, twice] {
        assert_eq!(Run::resume(words).report(&mut script).unwrap_err().reason(), Some(Reason::NoRun));
    }
}

/// Words that no run left: a channel of the outside whose provided end nobody holds. It is a channel given up, of which no step tells: each end is held at most once, so the words are a run,
/// the number stays open until a start, and what else there is goes on.
#[test]
fn a_channel_without_a_provider() {
    // where a run has the number of its processes, that of the outside's channels, and these, two words each
    const PROCESSES: usize = 0;
    const CHANNELS: usize = 2;
    const OUTSIDE: usize = 16;
    let mut script = Script::check(b"proc m (x : 1, y : 1) [] = send x (); send y ()\nexec m\n", scratch()).unwrap();
    let started = Run::start(&mut script, 0, vec![0; RUN_WORDS]).unwrap().words().to_vec();
    let mut deserted = started.clone();
    deserted[PROCESSES] = 0;
    let mut run = Run::resume(deserted);
    assert_eq!(run.places(&mut script).unwrap().to_string(), "0 processes");
    assert_eq!(run.step(&mut script, 0).unwrap_err().reason(), Some(Reason::NoProcess));
    assert_eq!(run.run_on(&mut script, 9).unwrap().to_string(), "0 steps, done");
    assert_eq!(run.report(&mut script).unwrap().numbers(), [0, 1]);
    let mut words = {
        let mut run = Run::resume(started.clone());
        assert_eq!(run.run_on(&mut script, 9).unwrap().to_string(), "1 steps, seen, #0 ()");
        run.words().to_vec()
    };
    words[CHANNELS] = started[CHANNELS];
    words[OUTSIDE..OUTSIDE + 4].copy_from_slice(&started[OUTSIDE..OUTSIDE + 4]);
    let mut run = Run::resume(words);
    assert_eq!(run.report(&mut script).unwrap().numbers(), [0, 1]);
    assert_eq!(run.run_on(&mut script, 9).unwrap().to_string(), "1 steps, seen, #1 ()");
    assert_eq!(run.run_on(&mut script, 9).unwrap().to_string(), "1 steps, done");
    assert_eq!(run.report(&mut script).unwrap().numbers(), [0]);
    run.restart(&mut script, 0).unwrap();
    assert_eq!(run.report(&mut script).unwrap().numbers(), [0, 1]);
}

#[test]
fn a_run_that_is_kept() {
    let mut script = Script::check(TEXT, scratch()).unwrap();
    let mut run = Run::start(&mut script, 0, vec![0; RUN_WORDS]).unwrap();
    run.step(&mut script, 0).unwrap();
    let kept = run.words().to_vec();
    let mut again = Run::resume(kept);
    assert_eq!(again.run_on(&mut script, 9).unwrap().to_string(), run.run_on(&mut script, 9).unwrap().to_string());
}
