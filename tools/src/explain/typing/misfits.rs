//! Refusal 11: side, type, sent label, list length or a repeated name breaks the rule.

use crate::contexts::{Context, Held};
use crate::diagnostic::{Diagnostic, Mark};
use crate::explain::spelling::{counted, listed, meant};
use crate::program::{Choice, Entry, Infix, Kind, Offset, Program, Term, Type, TypeNumber};
use crate::state::Side;

/// What a channel's type and side let its process do next.
pub fn next(program: &Program<'_>, held: &Held) -> String {
    let name = program.name(held.name);
    let provided = held.side == Side::Provided;
    match program.node(program.unfolded(held.annotation)) {
        Type::One if provided => format!("close {name}: send {name} ()"),
        Type::One => format!("wait for the close of {name}: recv {name} (() => ..)"),
        Type::Infix(mark, before, _) => {
            let (part, side) = (program.shown(*before), passed_side(*mark));
            match sends(*mark, held.side) {
                true => format!("send on {name} a channel of type {part} that is {}: send {name} a", side.word()),
                false => format!("receive a channel of type {part} on {name}: recv {name} (a => ..)"),
            }
        }
        Type::Choice(mark, alternatives) => {
            let labels = program.labels(alternatives);
            match (*mark == Choice::Plus) == provided {
                true => format!("send {} on {name}: send {name} {}", listed(&labels, "or"), labels[0]),
                false => format!("receive {} on {name}: recv {name} ({} => ..)", listed(&labels, "or"), labels[0]),
            }
        }
        Type::Named(_) => format!("declare the type of {name}"),
    }
}

/// A type in a few words: a note tells all of it.
fn short(program: &Program<'_>, number: TypeNumber) -> String {
    const WIDEST: usize = 60;
    let mut shown = program.shown(number);
    if shown.len() > WIDEST {
        shown.truncate(WIDEST);
        shown += "..";
    }
    shown
}

/// Whether a side of an infix type sends the channel.
fn sends(mark: Infix, side: Side) -> bool {
    (mark == Infix::Tensor) == (side == Side::Provided)
}

/// On which side its sender holds the channel that is passed.
fn passed_side(mark: Infix) -> Side {
    match mark {
        Infix::Par => Side::Provided,
        Infix::Tensor | Infix::Lolli => Side::Used,
    }
}

pub fn cause(program: &Program<'_>, context: &Context, term: &Term) -> Option<Diagnostic> {
    match &term.kind {
        Kind::SendChannel { channel, passed, .. } => passes(program, context, term, *channel, *passed),
        Kind::SendLabel { channel, label, .. } => chooses(program, context, term, *channel, *label),
        Kind::SendUnit { channel, .. } | Kind::RecvUnit { channel, .. } | Kind::RecvChannel { channel, .. } | Kind::RecvLabel { channel, .. } => {
            Some(not_now(program, term, &program.held(context, *channel)?))
        }
        Kind::Fwd { provided, used } => joins(program, context, term, *provided, *used),
        Kind::Call { process, provided, used } => Calling { program, context, term, process: *process }.cause(provided, used),
        _ => None,
    }
}

/// The term is none of those that the channel's type allows next on this side.
fn not_now(program: &Program<'_>, term: &Term, held: &Held) -> Diagnostic {
    let name = program.name(held.name);
    let title = format!("the type of {name} does not allow this here");
    let fault = Mark::token(program.text, term.at, format!("{name} is {}, with the type {}", held.side.word(), program.shown_unfolded(held.annotation)));
    Diagnostic::new(title, fault, next(program, held)).marked(Mark::token(program.text, held.name, format!("{name} comes in here")))
}

fn chooses(program: &Program<'_>, context: &Context, term: &Term, channel: Offset, label: Offset) -> Option<Diagnostic> {
    let held = program.held(context, channel)?;
    let alternatives = match program.node(program.unfolded(held.annotation)) {
        Type::Choice(mark, alternatives) if (*mark == Choice::Plus) == (held.side == Side::Provided) => alternatives,
        _ => return Some(not_now(program, term, &held)),
    };
    let (word, name, labels) = (program.name(label), program.name(channel), program.labels(alternatives));
    let title = format!("{word} is none of the labels of {name}");
    let fault = Mark::token(program.text, term.at, format!("{name} : {}", program.shown_unfolded(held.annotation)));
    let help = meant(word, labels.iter().copied()).map_or_else(|| next(program, &held), |near| format!("write {near}, if that was meant"));
    Some(Diagnostic::new(title, fault, help).marked(Mark::token(program.text, label, "not among them")))
}

fn passes(program: &Program<'_>, context: &Context, term: &Term, channel: Offset, passed: Offset) -> Option<Diagnostic> {
    let held = program.held(context, channel)?;
    let (name, other) = (program.name(channel), program.held(context, passed)?);
    if program.name(passed) == name {
        let fault = Mark::token(program.text, term.at, "a channel cannot be sent over itself");
        return Some(Diagnostic::new(format!("{name} is sent over {name}"), fault, next(program, &held)));
    }
    match program.node(program.unfolded(held.annotation)) {
        Type::Infix(mark, before, _) if sends(*mark, held.side) => {
            let wanted = Wanted { side: passed_side(*mark), annotation: *before, to: format!("{name} : {}, over which it is sent", short(program, held.annotation)) };
            wanted.missed_by(program, term.at, passed, &other)
        }
        _ => Some(not_now(program, term, &held)),
    }
}

fn joins(program: &Program<'_>, context: &Context, term: &Term, provided: Offset, used: Offset) -> Option<Diagnostic> {
    let (left, right) = (program.held(context, provided)?, program.held(context, used)?);
    let first = Wanted { side: Side::Provided, annotation: left.annotation, to: "the fwd, whose first channel is provided".to_owned() };
    let second = Wanted { side: Side::Used, annotation: left.annotation, to: format!("{} : {}, with which the fwd joins it", program.name(provided), short(program, left.annotation)) };
    first.missed_by(program, term.at, provided, &left).or_else(|| second.missed_by(program, term.at, used, &right))
}

/// What a channel must be where it is handed over.
struct Wanted {
    side: Side,
    annotation: TypeNumber,
    /// What it must fit.
    to: String,
}

impl Wanted {
    /// In what a held channel that is given somewhere in a term is another: its side, or its type and where the two part.
    fn missed_by(&self, program: &Program<'_>, term: Offset, given: Offset, held: &Held) -> Option<Diagnostic> {
        let name = program.name(held.name);
        let fault = Mark::token(program.text, term, "");
        let given = Mark::token(program.text, given, format!("must fit {}", self.to));
        let comes_in = Mark::token(program.text, held.name, format!("{name} comes in here"));
        if held.side != self.side {
            let help = format!("hand over a channel that is {} here", self.side.word());
            let title = format!("{name} is {} here, and must be {}", held.side.word(), self.side.word());
            return Some(Diagnostic::new(title, fault, help).marked(given).marked(comes_in));
        }
        let parts = program.difference(self.annotation, held.annotation)?;
        let title = format!("{name} has the type {}, and must have {}", short(program, held.annotation), short(program, self.annotation));
        let way = if parts.way.is_empty() { String::new() } else { format!("{}: ", shortened(&parts.way)) };
        let note = format!("the types part here: {way}{} and {}", program.shown_unfolded(parts.right), program.shown_unfolded(parts.left));
        Some(Diagnostic::new(title, fault, "make the two types unfold alike, or hand over another channel").marked(given).marked(comes_in).noted(note))
    }
}

/// A way through types, of which a long middle is left out.
fn shortened(way: &[String]) -> String {
    const ENDS: usize = 4;
    match way.len() {
        n if n > 2 * ENDS + 1 => format!("{}, {} more, {}", way[..ENDS].join(", "), n - 2 * ENDS, way[n - ENDS..].join(", ")),
        _ => way.join(", "),
    }
}

/// A call, whose lists must fit the signature of its process.
struct Calling<'c, 't> {
    program: &'c Program<'t>,
    context: &'c Context,
    term: &'c Term,
    process: Offset,
}

impl Calling<'_, '_> {
    fn cause(&self, provided: &[Offset], used: &[Offset]) -> Option<Diagnostic> {
        let process = self.program.process(self.program.name(self.process))?;
        self.length("provides", "round", provided, &process.provided)
            .or_else(|| self.length("uses", "square", used, &process.used))
            .or_else(|| self.fit(Side::Provided, provided, &process.provided))
            .or_else(|| self.fit(Side::Used, used, &process.used))
            .or_else(|| self.repeated(&[provided, used].concat()))
    }

    fn length(&self, side: &str, brackets: &str, list: &[Offset], entries: &[Entry]) -> Option<Diagnostic> {
        let program = self.program;
        let process = program.name(self.process);
        let title = format!("{process} {side} {}, and the call gives {}", counted(entries.len(), "channel", "channels"), list.len());
        let fault = Mark::token(program.text, self.term.at, format!("in the {brackets} brackets"));
        let wanted: Vec<String> = entries.iter().map(|entry| format!("{} : {}", program.name(entry.name), program.shown(entry.annotation))).collect();
        let help = match wanted.is_empty() {
            true => format!("leave the {brackets} brackets empty"),
            false => format!("give for each of these one: {}", wanted.join(", ")),
        };
        let head = Mark::token(program.text, program.process(process)?.name, "declared here");
        (list.len() != entries.len()).then(|| Diagnostic::new(title, fault, help).marked(head))
    }

    fn fit(&self, side: Side, list: &[Offset], entries: &[Entry]) -> Option<Diagnostic> {
        list.iter().zip(entries).find_map(|(given, entry)| {
            let to = format!("{} : {} of {}", self.program.name(entry.name), short(self.program, entry.annotation), self.program.name(self.process));
            let wanted = Wanted { side, annotation: entry.annotation, to };
            wanted.missed_by(self.program, self.term.at, *given, &self.program.held(self.context, *given)?)
        })
    }

    fn repeated(&self, names: &[Offset]) -> Option<Diagnostic> {
        let program = self.program;
        let again = |i: &usize| names[..*i].iter().any(|other| program.name(*other) == program.name(names[*i]));
        let second = names[(0..names.len()).find(again)?];
        let title = format!("{} is given twice", program.name(second));
        let fault = Mark::token(program.text, self.term.at, "a call takes each channel once");
        Some(Diagnostic::new(title, fault, "give another channel in one of the two places").marked(Mark::token(program.text, second, "here again")))
    }
}
