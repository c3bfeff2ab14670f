//! Refusals 6 to 9: names that come twice or are not declared, a type that is a bare name, an exec that the outside could not use.

use super::spelling::{listed, meant};
use crate::diagnostic::{Diagnostic, Mark};
use crate::program::{Choice, Infix, Offset, Process, Program, Type, TypeNumber};
use crate::tokens::tokens;
use epass::{Refusal, Token};

pub fn cause(text: &[u8], refusal: Refusal) -> Option<Diagnostic> {
    let program = Program::read(text).ok()?;
    match refusal.number {
        6 => comes_twice(&program, refusal.offset),
        7 => not_declared(&program, refusal.offset),
        8 => bare_name(&program, refusal.offset),
        _ => not_for_the_outside(&program, refusal.offset),
    }
}

/// The tokens of a text around an offset.
struct Around<'t> {
    text: &'t [u8],
    tokens: Vec<Token>,
    /// The position in them of the one at the offset.
    here: usize,
}

impl<'t> Around<'t> {
    fn new(text: &'t [u8], at: Offset) -> Option<Around<'t>> {
        let tokens: Vec<Token> = tokens(text).collect();
        let here = tokens.iter().position(|found| found.start == at)?;
        Some(Around { text, tokens, here })
    }

    fn word(&self, position: usize) -> &'t [u8] {
        self.tokens.get(position).map_or(b"", |found| &self.text[found.start..found.end])
    }

    fn before(&self) -> &'t [u8] {
        self.here.checked_sub(1).map_or(b"", |position| self.word(position))
    }

    /// Whether a token is the one here, with the same one after it.
    fn alike(&self, position: usize) -> bool {
        self.word(position) == self.word(self.here) && self.word(position + 1) == self.word(self.here + 1)
    }

    /// The same label earlier in the same list: brackets that are closed before this one are passed over.
    fn earlier_in_list(&self) -> Option<Offset> {
        let mut depth = 0;
        for position in (0..self.here).rev() {
            match self.word(position) {
                b")" | b"]" | b"}" => depth += 1,
                b"(" | b"[" | b"{" if depth == 0 => return None,
                b"(" | b"[" | b"{" => depth -= 1,
                _ if depth == 0 && self.alike(position) => return Some(self.tokens[position].start),
                _ => {}
            }
        }
        None
    }

    /// The same name earlier in the same signature.
    fn earlier_in_signature(&self) -> Option<Offset> {
        let head = (0..self.here).rfind(|position| self.word(*position) == b"proc")?;
        (head..self.here).find(|position| self.alike(*position)).map(|position| self.tokens[position].start)
    }
}

fn comes_twice(program: &Program<'_>, at: Offset) -> Option<Diagnostic> {
    let around = Around::new(program.text, at)?;
    let name = program.name(at);
    let same = |other: &&Offset| program.name(**other) == name;
    let (what, first, help) = match around.before() {
        b"type" => ("type", program.types.iter().map(|declared| &declared.name).find(same).copied(), "give one of them another name, or leave one out"),
        b"proc" => ("process", program.processes.iter().map(|process| &process.name).find(same).copied(), "give one of them another name, or leave one out"),
        _ if name.starts_with('\'') => ("label", around.earlier_in_list(), "a list has each label once: give one of them another name, or leave one out"),
        _ => ("channel", around.earlier_in_signature(), "the channels of one signature, provided and used, have different names"),
    };
    let title = format!("the {what} {name} comes twice");
    Some(Diagnostic::new(title, Mark::token(program.text, at, "here again"), help).marked(Mark::token(program.text, first?, "the first one")))
}

fn not_declared(program: &Program<'_>, at: Offset) -> Option<Diagnostic> {
    let around = Around::new(program.text, at)?;
    let name = program.name(at);
    let processes = matches!(around.before(), b"exec" | b"call");
    let (what, keyword, declared): (_, _, Vec<Offset>) = if processes {
        ("process", "proc", program.processes.iter().map(|process| process.name).collect())
    } else {
        ("type", "type", program.types.iter().map(|declared| declared.name).collect())
    };
    let names: Vec<&str> = declared.iter().map(|at| program.name(*at)).collect();
    let near = declared.iter().copied().find(|at| Some(program.name(*at)) == meant(name, names.iter().copied()));
    let help = match near {
        Some(near) => format!("write {}, if that was meant, or declare it: {keyword} {name} ..", program.name(near)),
        None => format!("declare it, above or below: {keyword} {name} .."),
    };
    let told = Diagnostic::new(format!("no {what} {name} is declared"), Mark::token(program.text, at, format!("there is no {keyword} {name}")), help);
    let told = match names.is_empty() {
        true => told.noted(format!("no {what} is declared in this script")),
        false => told.noted(format!("declared: {}", listed(&names, "and"))),
    };
    Some(match near {
        Some(near) => told.marked(Mark::token(program.text, near, "spelled like it")),
        None => told,
    })
}

fn bare_name(program: &Program<'_>, at: Offset) -> Option<Diagnostic> {
    let declared = program.types.iter().rfind(|declared| declared.name < at)?;
    let (name, other) = (program.name(declared.name), program.name(at));
    let help = if name == other {
        format!("say what {name} is, for example type {name} = +{{'on : {name}, 'off : 1}}")
    } else {
        format!("use {other} where {name} is used, and leave this declaration out")
    };
    let fault = Mark::token(program.text, at, "a bare name says nothing of what goes over the channel");
    Some(Diagnostic::new(format!("the type {name} is declared as the bare name {other}"), fault, help))
}

/// A way through types, a step of it each, and the mark that it comes to.
type Way = (Vec<String>, &'static str);

fn not_for_the_outside(program: &Program<'_>, at: Offset) -> Option<Diagnostic> {
    let process = program.process(program.name(at))?;
    if process.used.is_empty() {
        return asks_the_outside(program, at, process);
    }
    let name = program.name(at);
    let used: Vec<String> = process.used.iter().map(|entry| format!("{} : {}", program.name(entry.name), program.shown(entry.annotation))).collect();
    let title = format!("{name} cannot be executed, for it uses {}", listed(&used, "and"));
    let fault = Mark::token(program.text, at, "an exec's process uses nothing");
    let help = format!("declare a process that uses nothing, spawns what {name} needs and calls it, and execute that one");
    Some(process.used.iter().fold(Diagnostic::new(title, fault, help), |told, entry| told.marked(Mark::token(program.text, entry.name, "nobody would provide it"))))
}

fn asks_the_outside(program: &Program<'_>, at: Offset, process: &Process) -> Option<Diagnostic> {
    let name = program.name(at);
    let (entry, (way, mark)) = process.provided.iter().find_map(|entry| Some((entry, way_out(program, entry.annotation)?)))?;
    let channel = program.name(entry.name);
    let title = format!("{name} cannot be executed, for on {channel} the outside would have to send: its type reaches {mark}");
    let fault = Mark::token(program.text, at, "the outside listens, and never sends");
    let told = Diagnostic::new(title, fault, format!("let the types of what {name} provides reach 1, * and + alone; what is asked and answered, let it spawn"));
    let told = told.marked(Mark::token(program.text, entry.name, "provided to the outside"));
    Some(told.noted(format!("{channel} : {}", way.join("; "))))
}

/// How a type comes to a mark on which the outside would have to send, the shortest way first.
fn way_out(program: &Program<'_>, from: TypeNumber) -> Option<Way> {
    let mut seen = Vec::new();
    let mut queue = std::collections::VecDeque::from([(vec![program.shown(from)], from)]);
    while let Some((way, number)) = queue.pop_front() {
        if seen.contains(&number) {
            continue;
        }
        seen.push(number);
        let step = |word: String, part: TypeNumber| ([&way[..], &[word]].concat(), part);
        match program.node(number) {
            Type::One => {}
            Type::Named(_) => {
                let unfolded = program.unfolded(number);
                queue.push_back(step(program.shown_unfolded(number), unfolded));
            }
            Type::Infix(Infix::Tensor, left, right) => {
                queue.push_back(step(format!("before its *, {}", program.shown(*left)), *left));
                queue.push_back(step(format!("after its *, {}", program.shown(*right)), *right));
            }
            Type::Choice(Choice::Plus, alternatives) => {
                queue.extend(alternatives.iter().map(|(label, after)| step(format!("after {}, {}", program.name(*label), program.shown(*after)), *after)));
            }
            Type::Infix(mark, ..) => return Some((way, mark.mark())),
            Type::Choice(mark, _) => return Some((way, mark.mark())),
        }
    }
    None
}
