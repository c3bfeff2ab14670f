//! Refusals 10 to 15: a term does not fit what its process holds.

mod misfits;

use super::spelling::listed;
use crate::contexts::{signature, Context, Held, Mention, Point, Spot};
use crate::diagnostic::{Diagnostic, Mark};
use crate::limits::HELD;
use crate::program::{Body, Kind, Offset, Program, Term, Type};
use epass::Refusal;

pub fn cause(text: &[u8], refusal: Refusal) -> Option<Diagnostic> {
    let program = Program::read(text).ok()?;
    let Some(spot) = program.spot(refusal.offset) else {
        return (refusal.number == 15).then(|| signature_full(&program, refusal.offset)).flatten();
    };
    let told = match (refusal.number, spot.point) {
        (10, Point::Term(term)) => not_held(&program, &spot, term),
        (11, Point::Term(term)) => misfits::cause(&program, &spot.context, term),
        (12, Point::Term(term)) => no_such_label(&program, &spot.context, term),
        (13, Point::Term(term)) => left_by(&program, &spot.context, term),
        (13, Point::Empty) => Some(left_at_end(&program, &spot, refusal.offset)),
        (15, Point::Term(term)) => no_room(&program, &spot.context, term),
        _ => None,
    }?;
    Some(told.noted(holds(&program, &spot.context)))
}

/// A held channel, in words.
fn told(program: &Program<'_>, held: &Held) -> String {
    format!("{} : {} ({})", program.name(held.name), program.shown(held.annotation), held.side.word())
}

fn holds(program: &Program<'_>, context: &Context) -> String {
    let held: Vec<String> = context.held.iter().map(|held| told(program, held)).collect();
    match held.is_empty() {
        true => "held here: no channel".to_owned(),
        false => format!("held here: {}", listed(&held, "and")),
    }
}

/// 10: what became of the channel, if it was ever there.
fn not_held(program: &Program<'_>, spot: &Spot<'_>, term: &Term) -> Option<Diagnostic> {
    let at = term.kind.names().into_iter().find(|name| program.held(&spot.context, *name).is_none())?;
    let name = program.name(at);
    let title = format!("{name} is not held here");
    let fault = Mark::token(program.text, term.at, "");
    let here = Mark::token(program.text, at, format!("{name} is none of the channels that are held"));
    let gone = spot.context.gone.iter().rfind(|gone| program.name(gone.name) == name);
    let near = super::spelling::meant(name, spot.context.held.iter().map(|held| program.name(held.name)));
    let help = match (gone, near) {
        (Some(_), _) => format!("act on {name} before that, or not at all"),
        (None, Some(near)) => format!("write {near}, if that was meant, or list {name} in the head of {}", program.name(spot.process.name)),
        (None, None) => format!("list {name} in the head of {}, or spawn it", program.name(spot.process.name)),
    };
    let told = Diagnostic::new(title, fault, help).marked(here);
    Some(match gone {
        Some(gone) => told.marked(Mark::token(program.text, gone.term, format!("{name} is {} here", gone.how))),
        None => told,
    })
}

/// 12: the labels that are missing, and those too many.
fn no_such_label(program: &Program<'_>, context: &Context, term: &Term) -> Option<Diagnostic> {
    let Kind::RecvLabel { channel, branches } = &term.kind else { return None };
    let held = program.held(context, *channel)?;
    let Type::Choice(_, alternatives) = program.node(program.unfolded(held.annotation)) else { return None };
    let (labels, ours) = (program.labels(alternatives), branches.iter().map(|(label, _)| (program.name(*label), *label)));
    let too_many: Vec<(&str, Offset)> = ours.clone().filter(|(label, _)| !labels.contains(label)).collect();
    let missing: Vec<&str> = labels.iter().copied().filter(|label| !ours.clone().any(|(other, _)| other == *label)).collect();
    let names: Vec<&str> = too_many.iter().map(|(label, _)| *label).collect();
    let (channel, verb) = (program.name(*channel), if names.len() == 1 { "is" } else { "are" });
    let title = format!("{} {verb} none of the labels that may come over {channel}", listed(&names, "and"));
    let fault = Mark::token(program.text, term.at, format!("{channel} : {}", program.shown_unfolded(held.annotation)));
    let near = super::spelling::meant(names.first()?, missing.iter().copied());
    let help = near.map_or_else(|| "leave the branch out, or add its label to the type".to_owned(), |near| format!("write {near}, if that was meant"));
    let told = too_many.iter().fold(Diagnostic::new(title, fault, help), |told, (_, at)| told.marked(Mark::token(program.text, *at, "never comes")));
    Some(match missing.is_empty() {
        true => told,
        false => told.noted(format!("labels of the type without a branch: {}", listed(&missing, "and"))),
    })
}

/// 13 where a process ends.
fn left_at_end(program: &Program<'_>, spot: &Spot<'_>, at: Offset) -> Diagnostic {
    let fault = Mark { says: "the process ends here".to_owned(), ..Mark::token(program.text, at, "") };
    let names: Vec<&str> = spot.context.held.iter().map(|held| program.name(held.name)).collect();
    let title = format!("the process ends and still holds {}", listed(&names, "and"));
    let help: Vec<String> = spot.context.held.iter().map(|held| misfits::next(program, held)).collect();
    let help = format!("{}; or give up what is not wanted: cancel {}", help.join("; "), names.join("; cancel "));
    brought_in(program, Diagnostic::new(title, fault, help), &spot.context.held)
}

/// Marks where each of some held channels came in.
fn brought_in(program: &Program<'_>, told: Diagnostic, held: &[Held]) -> Diagnostic {
    held.iter().fold(told, |told, held| {
        let says = format!("{} comes in here", program.name(held.name));
        told.marked(Mark::token(program.text, held.name, says))
    })
}

/// 13 at a term: it ends its process and leaves channels over, or its halves do not share them out.
fn left_by(program: &Program<'_>, context: &Context, term: &Term) -> Option<Diagnostic> {
    match &term.kind {
        Kind::Fwd { .. } | Kind::Call { .. } => ends_and_leaves(program, context, term),
        Kind::Spawn { channel, half, rest, .. } => in_both(program, context, term, (*half, *rest), Some(program.name(*channel))),
        Kind::Try { main, handler } => in_both(program, context, term, (*main, *handler), None).or_else(|| in_neither(program, context, term, (*main, *handler))),
        _ => None,
    }
}

fn ends_and_leaves(program: &Program<'_>, context: &Context, term: &Term) -> Option<Diagnostic> {
    let named: Vec<&str> = term.kind.names().iter().map(|at| program.name(*at)).collect();
    let left: Vec<Held> = context.held.iter().copied().filter(|held| !named.contains(&program.name(held.name))).collect();
    let names: Vec<&str> = left.iter().map(|held| program.name(held.name)).collect();
    let word = program.name(term.at);
    let title = format!("the {word} ends its process, which also holds {}", listed(&names, "and"));
    let fault = Mark::token(program.text, term.at, format!("nothing goes on after a {word}"));
    let next: Vec<String> = left.iter().map(|held| misfits::next(program, held)).collect();
    let help = format!("before it {}; or give up what is not wanted: cancel {}", next.join("; "), names.join("; cancel "));
    (!left.is_empty()).then(|| brought_in(program, Diagnostic::new(title, fault, help), &left))
}

/// What a held channel is mentioned by in a half.
fn mention<'m, 't>(mentions: &'m [Mention<'t>], name: &str) -> Option<&'m Mention<'t>> {
    mentions.iter().find(|(other, _)| *other == name)
}

fn in_both(program: &Program<'_>, context: &Context, term: &Term, (first, second): (Body, Body), brought: Option<&str>) -> Option<Diagnostic> {
    let (first, second) = (program.mentions(first), program.mentions(second));
    let (name, one, other) = context.held.iter().map(|held| program.name(held.name)).filter(|name| Some(*name) != brought).find_map(|name| {
        let (one, other) = (mention(&first, name)?, mention(&second, name)?);
        Some((name, one.1, other.1))
    })?;
    let (halves, help) = match brought {
        Some(channel) => (["the process that is spawned", "what follows it"], format!("let one of them alone use {name}; the other may be told over {channel}")),
        None => (["what is tried", "its handler"], format!("let one of them alone use {name}")),
    };
    let title = format!("{name} is mentioned by {} and by {}", halves[0], halves[1]);
    let fault = Mark::token(program.text, term.at, format!("{name} can be with one of the two"));
    let told = Diagnostic::new(title, fault, help);
    Some(told.marked(Mark::token(program.text, one, halves[0])).marked(Mark::token(program.text, other, halves[1])))
}

fn in_neither(program: &Program<'_>, context: &Context, term: &Term, (main, handler): (Body, Body)) -> Option<Diagnostic> {
    let (main, handler) = (program.mentions(main), program.mentions(handler));
    let left = |held: &&Held| mention(&main, program.name(held.name)).is_none() && mention(&handler, program.name(held.name)).is_none();
    let left: Vec<Held> = context.held.iter().filter(left).copied().collect();
    let names: Vec<&str> = left.iter().map(|held| program.name(held.name)).collect();
    let title = format!("neither what is tried nor its handler mentions {}", listed(&names, "or"));
    let fault = Mark::token(program.text, term.at, "each channel that is held is for exactly one of the two");
    let help = format!("let one of them act on it, or give it up there: cancel {}", names.first()?);
    Some(brought_in(program, Diagnostic::new(title, fault, help), &left))
}

/// 15 at a term: the name that it brings in is held already, or a 17th channel would be held.
fn no_room(program: &Program<'_>, context: &Context, term: &Term) -> Option<Diagnostic> {
    let at = term.kind.brought()?;
    let name = program.name(at);
    if let Some(held) = program.held(context, at) {
        let fault = Mark::token(program.text, term.at, format!("brings in {name} again"));
        let help = format!("give the new channel another name, or be done with the old {name} before");
        let told = Diagnostic::new(format!("{name} is held already"), fault, help);
        return Some(told.marked(Mark::token(program.text, held.name, format!("this {name} is still held"))));
    }
    let title = format!("a process may hold {HELD} channels, and {name} would be one more");
    let fault = Mark::token(program.text, term.at, format!("brings in {name}"));
    Some(Diagnostic::new(title, fault, "be done with a channel before, or hand some to a process that is spawned"))
}

/// 15 in a signature.
fn signature_full(program: &Program<'_>, at: Offset) -> Option<Diagnostic> {
    let process = program.processes.iter().rfind(|process| process.name < at)?;
    let held = signature(process);
    let title = format!("{} lists {} channels, and a process may hold {HELD}", program.name(process.name), held.len());
    let fault = Mark::token(program.text, at, "the 17th");
    (held.len() > HELD).then(|| Diagnostic::new(title, fault, "make two processes of it, or pass channels over a channel"))
}

