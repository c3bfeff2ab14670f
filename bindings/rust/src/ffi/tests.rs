//! Random calls of the functions themselves, with slices longer and shorter than they must be, on good and damaged texts and runs.

use super::*;
use crate::{RUN_WORDS as RUN, SCRATCH_WORDS as SCRATCH};
use std::collections::BTreeSet;
use std::fs;
use std::path::Path;
use std::vec;
use std::vec::Vec;

const PAST: usize = 9;
const MARK: u32 = 0xdead_beef;

/// xorshift64*
struct Source(u64);

impl Source {
    fn next(&mut self) -> u64 {
        self.0 ^= self.0 >> 12;
        self.0 ^= self.0 << 25;
        self.0 ^= self.0 >> 27;
        self.0.wrapping_mul(0x2545_f491_4f6c_dd1d) >> 16
    }

    fn below(&mut self, n: u64) -> u64 {
        self.next() % n
    }

    fn chance(&mut self, n: u64) -> bool {
        self.below(n) == 0
    }
}

#[derive(Clone, Copy, Debug, PartialEq)]
enum Call {
    Start(u32),
    Step(u32),
    RunOn(u32),
    Report,
    Places,
    ExecName(u32),
    Warning(u32),
}

/// What a caller lends. Each slice is longer than it must be, unless it is lent short, and what lies past is marked.
#[derive(Clone, PartialEq)]
struct Lent {
    scratch: Vec<u32>,
    run: Vec<u32>,
    answer: Vec<u32>,
}

impl Lent {
    fn new() -> Lent {
        Lent {
            scratch: vec![MARK; SCRATCH + PAST],
            run: vec![0; RUN + PAST],
            answer: vec![MARK; ANSWER_WORDS + PAST],
        }
    }

    /// Calls, with so many words of each slice.
    fn call(&mut self, text: &[u8], call: Call, scratch: usize, run: usize, answer: usize) -> u32 {
        let (s, r, a) = (&mut self.scratch[..scratch], &mut self.run[..run], &mut self.answer[..answer]);
        match call {
            Call::Start(line) => change_into(Numbered::Start, text, s, r, line, a),
            Call::Step(place) => change_into(Numbered::Step, text, s, r, place, a),
            Call::RunOn(budget) => change_into(Numbered::RunOn, text, s, r, budget, a),
            Call::Report => read_into(Reading::Report, text, s, r, a),
            Call::Places => read_into(Reading::Places, text, s, r, a),
            Call::ExecName(line) => ask_into(OfText::ExecName, text, s, line, a),
            Call::Warning(number) => ask_into(OfText::Warning, text, s, number, a),
        }
    }

    fn whole(&mut self, text: &[u8], call: Call) -> u32 {
        let (s, r, a) = (self.scratch.len(), self.run.len(), self.answer.len());
        self.call(text, call, s, r, a)
    }
}

/// What every call keeps to.
fn keeps(before: &Lent, after: &Lent, call: Call, refusal: u32) {
    assert_eq!(before.scratch[SCRATCH..], after.scratch[SCRATCH..], "{call:?}: scratch past its words");
    assert_eq!(before.run[RUN..], after.run[RUN..], "{call:?}: the run past its words");
    assert_eq!(before.answer[ANSWER_WORDS..], after.answer[ANSWER_WORDS..], "{call:?}: the answer past its words");
    assert_eq!(after.answer[0], refusal, "{call:?}");
    if (2..=15).contains(&refusal) {
        assert!(after.scratch[..SCRATCH].iter().all(|&w| w == 0), "{call:?}: scratch after {refusal}");
    }
    if refusal != 0 || !matches!(call, Call::Start(_) | Call::Step(_) | Call::RunOn(_)) {
        assert!(before.run == after.run, "{call:?}: the run was changed, {refusal}");
    }
    let told = match (call, refusal) {
        (_, 1..) => 2,
        (Call::Start(_), _) => 1,
        (Call::Step(_), _) => 5,
        (Call::RunOn(_), _) => 7,
        (Call::Report | Call::Places, _) => 2 + after.answer[1] as usize,
        (Call::ExecName(_), _) => 3,
        (Call::Warning(_), _) => 8,
    };
    assert!(after.answer[told..ANSWER_WORDS].iter().all(|&w| w == 0), "{call:?}: {:?}", &after.answer[..told]);
}

/// Slices under their lengths: 255 and 1 touch none, 16 leaves the run.
fn short(lent: &Lent, text: &[u8], call: Call, source: &mut Source) {
    let (mut a, mut s, mut r) = (lent.clone(), lent.clone(), lent.clone());
    assert_eq!(a.call(text, call, SCRATCH, RUN, source.below(ANSWER_WORDS as u64) as usize), 255);
    assert!(a == *lent, "{call:?}: touched with a short answer");
    assert_eq!(s.call(text, call, source.below(SCRATCH as u64) as usize, RUN, ANSWER_WORDS), 1);
    assert!(s.scratch == lent.scratch && s.run == lent.run, "{call:?}: touched with short scratch");
    let refusal = r.call(text, call, SCRATCH, source.below(RUN as u64) as usize, ANSWER_WORDS);
    assert!(matches!(call, Call::ExecName(_) | Call::Warning(_)) || refusal == 16 || (2..=15).contains(&refusal), "{call:?}: {refusal}");
    assert!(r.run == lent.run, "{call:?}: touched with a short run");
}

/// Whether the run has halted: run-on says so, whatever its budget, and with none it takes no step.
fn halted(lent: &Lent, text: &[u8]) -> bool {
    let mut lent = lent.clone();
    lent.whole(text, Call::RunOn(0)) == 0 && lent.answer[1] == 5
}

/// A step is taken exactly where places say that it is open; in a halted run none is.
fn step_as_told(lent: &mut Lent, text: &[u8], place: u32) -> u32 {
    let halted = halted(lent, text);
    let surveyed = lent.whole(text, Call::Places);
    let (count, steps) = (lent.answer[1], lent.answer[2..ANSWER_WORDS].to_vec());
    let refusal = lent.whole(text, Call::Step(place));
    let told = match steps.get(place as usize) {
        _ if surveyed != 0 => surveyed,
        _ if halted => 22,
        Some(step) if place < count => [20, 0, 21][*step as usize],
        _ => 19,
    };
    assert_eq!(refusal, told, "step at {place} of {count}");
    assert!(!halted || steps.iter().all(|&step| step == 0), "an open step in a halted run");
    refusal
}

fn some_call(source: &mut Source) -> Call {
    match source.below(13) {
        0 => Call::Start(source.below(3) as u32),
        1..=5 => Call::Step(source.below(8) as u32),
        6 => Call::Step(source.below(130) as u32),
        7 => Call::Step(source.next() as u32),
        8 => Call::RunOn([9, 40, 400][source.below(3) as usize]),
        9 => Call::Report,
        10 => Call::Places,
        11 => Call::ExecName(source.below(3) as u32),
        _ => Call::Warning([source.below(4) as u32, source.next() as u32][source.below(2) as usize]),
    }
}

fn texts() -> Vec<Vec<u8>> {
    let root = Path::new(env!("CARGO_MANIFEST_DIR")).join("../..");
    let cases = root.join("crates/cases/data");
    let names = ["thesis-zip.ep", "thesis-trie.ep", "s-nested-handlers.ep", "s-pass-already-given-up.ep", "s-spawn-forever.ep", "s-numbers-run-out.ep", "2.3-callee-inherits.ep", "2.3-handler-raises.ep", "2.7-handler-starts.ep", "2.7-two-in-one-process.ep", "doc-yes.ep"];
    let mut texts: Vec<Vec<u8>> = names.iter().map(|name| fs::read(cases.join(name)).unwrap()).collect();
    texts.push(fs::read(root.join("examples/knitting.ep")).unwrap());
    texts
}

/// Some calls on one text, from a start on; now and then a word of the run or a byte of the text is another. The numbers returned are gathered.
fn some_calls(text: &[u8], source: &mut Source, calls: u32, returned: &mut BTreeSet<u32>) {
    let mut lent = Lent::new();
    lent.run[RUN..].fill(MARK);
    lent.whole(text, Call::Start(0));
    // Some runs begin far on, where places and numbers may have run out.
    for _ in 0..source.below(50) {
        lent.whole(text, Call::RunOn(400));
    }
    for _ in 0..calls {
        let mut text = text.to_vec();
        if source.chance(40) {
            let at = source.below(text.len() as u64) as usize;
            text[at] = source.next() as u8;
        }
        if source.chance(40) {
            let at = source.below(200) as usize;
            lent.run[at] = source.below(600) as u32;
        }
        let call = some_call(source);
        if source.chance(10) {
            short(&lent, &text, call, source);
        }
        let before = lent.clone();
        let refusal = match call {
            Call::Step(place) => step_as_told(&mut lent, &text, place),
            _ => lent.whole(&text, call),
        };
        keeps(&before, &lent, call, refusal);
        returned.insert(refusal);
        if refusal == 18 {
            lent.whole(&text, Call::Start(0));
        }
    }
}

#[test]
fn random_calls() {
    let (mut source, mut returned) = (Source(0x5eed_0001), BTreeSet::new());
    for text in texts() {
        for _ in 0..4 {
            some_calls(&text, &mut source, 300, &mut returned);
        }
    }
    // The calls met each end that they may meet, and some faults of a text.
    assert!([0, 17, 18, 19, 20, 21, 22].iter().all(|n| returned.contains(n)), "{returned:?}");
    assert!(returned.range(2..=15).count() > 4, "{returned:?}");
}

/// With a word of scratch too few each call is refused by 1 and touches nothing. With enough it is answered as with more, and no word past them is written.
#[test]
fn scratch_at_its_limit() {
    let refused: &[u8] = b"type a = 1 *";
    for text in texts().iter().map(Vec::as_slice).chain([refused]) {
        for call in [Call::Start(0), Call::Step(0), Call::RunOn(9), Call::Report, Call::Places, Call::ExecName(0)] {
            let before = Lent::new();
            let (mut short, mut enough, mut more) = (before.clone(), before.clone(), before.clone());
            assert_eq!(short.call(text, call, SCRATCH - 1, RUN, ANSWER_WORDS), 1, "{call:?}");
            assert!(short.scratch == before.scratch && short.run == before.run, "{call:?}: touched with short scratch");
            let refusal = enough.call(text, call, SCRATCH, RUN, ANSWER_WORDS);
            assert_ne!(refusal, 1, "{call:?}");
            keeps(&before, &enough, call, refusal);
            assert_eq!(more.call(text, call, SCRATCH + PAST, RUN, ANSWER_WORDS), refusal, "{call:?}");
            assert!(more == enough, "{call:?}: more scratch, another answer");
        }
    }
}

/// A label is told with its length, the apostrophe counted; a name with its place.
#[test]
fn labels_and_names() {
    let text = b"type t = +{'hello : 1}\nproc p (x : t) [] = send x 'hello; send x ()\nexec p\n";
    let mut lent = Lent::new();
    assert_eq!(lent.whole(text, Call::ExecName(0)), 0);
    assert_eq!(lent.answer[..4], [0, 73, 1, 0]);
    assert_eq!(lent.whole(text, Call::Start(0)), 0);
    assert_eq!(lent.whole(text, Call::Step(0)), 0);
    assert_eq!(lent.answer[..6], [0, 1, 0, 50, 6, 0]);
}

/// The functions that tell what a text is made of touch nothing where the answer is short, and write no word past it otherwise.
#[test]
fn what_a_text_is_made_of() {
    let text = b"type t = 1\nexec p\n";
    for answer in [0, ANSWER_WORDS - 1, ANSWER_WORDS] {
        let before = Lent::new();
        let (mut position, mut token, mut tables) = (before.clone(), before.clone(), before.clone());
        let returned = [
            look_into(At::Position, text, 16, &mut position.answer[..answer]),
            look_into(At::Token, text, 16, &mut token.answer[..answer]),
            tables_into(text, &mut tables.scratch, &mut tables.answer[..answer]),
        ];
        if answer < ANSWER_WORDS {
            assert_eq!(returned, [255; 3]);
            assert!(position == before && token == before && tables == before);
            continue;
        }
        assert_eq!(returned, [0; 3]);
        assert_eq!(position.answer[..4], [0, 2, 6, 0]);
        assert_eq!(token.answer[..5], [0, 30, 16, 17, 0]);
        assert!(tables.answer[..ANSWER_WORDS].iter().all(|w| *w == 0) && tables.scratch[..3] == [1, 0, 1]);
        for lent in [position, token, tables] {
            assert_eq!(lent.answer[ANSWER_WORDS..], before.answer[ANSWER_WORDS..]);
            assert_eq!(lent.scratch[SCRATCH..], before.scratch[SCRATCH..]);
        }
    }
}
