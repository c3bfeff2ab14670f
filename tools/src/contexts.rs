//! What a process holds where a term stands, by the typing rules: the way from the head of its declaration to there, of which the check has accepted every term.

use crate::program::{Body, Infix, Kind, Offset, Process, Program, Term, Type, TypeNumber};
use crate::state::Side;

/// A channel that is held.
#[derive(Clone, Copy, Debug, PartialEq, Eq)]
pub struct Held {
    /// Where its name was brought in.
    pub name: Offset,
    pub side: Side,
    pub annotation: TypeNumber,
}

/// A channel that was held, and what became of it.
#[derive(Clone, Copy, Debug, PartialEq, Eq)]
pub struct Gone {
    pub name: Offset,
    /// The term that let go of it.
    pub term: Offset,
    pub how: &'static str,
}

#[derive(Clone, Debug, Default)]
pub struct Context {
    pub held: Vec<Held>,
    pub gone: Vec<Gone>,
}

/// A process of the text that the check looks at: a term, or an empty one.
#[derive(Clone, Copy, Debug)]
pub enum Point<'p> {
    Term(&'p Term),
    Empty,
}

/// A point with what is held there.
pub struct Spot<'p> {
    /// The declaration that it stands in.
    pub process: &'p Process,
    pub point: Point<'p>,
    pub context: Context,
}

/// A name and where it is mentioned first.
pub type Mention<'t> = (&'t str, Offset);

struct Walk<'p, 't> {
    program: &'p Program<'t>,
    process: &'p Process,
    at: Offset,
}

impl<'t> Program<'t> {
    /// What is held at the term, or the empty process, that stands at an offset.
    pub fn spot(&self, at: Offset) -> Option<Spot<'_>> {
        let process = self.processes.iter().rfind(|process| process.name < at)?;
        let walk = Walk { program: self, process, at };
        walk.seek(process.body, Context { held: signature(process), gone: Vec::new() })
    }

    /// The free names of a process of the text, each where it is mentioned first.
    pub fn mentions(&self, body: Body) -> Vec<Mention<'t>> {
        let mut found = Vec::new();
        self.gather(body, &mut Vec::new(), &mut found);
        found
    }

    fn gather(&self, body: Body, bound: &mut Vec<&'t str>, found: &mut Vec<Mention<'t>>) {
        let Body::Term(number) = body else { return };
        let term = self.term(number);
        for at in term.kind.names() {
            let name = self.name(at);
            if !bound.contains(&name) && !found.iter().any(|(other, _)| *other == name) {
                found.push((name, at));
            }
        }
        let brought = term.kind.brought().map(|at| self.name(at));
        bound.extend(brought);
        for part in term.kind.parts() {
            self.gather(part, bound, found);
        }
        if brought.is_some() {
            bound.pop();
        }
    }
}

/// What a process holds at its head, provided ones first.
pub fn signature(process: &Process) -> Vec<Held> {
    let entries = |side: Side, list: &[crate::program::Entry]| -> Vec<Held> {
        list.iter().map(|entry| Held { name: entry.name, side, annotation: entry.annotation }).collect()
    };
    [entries(Side::Provided, &process.provided), entries(Side::Used, &process.used)].concat()
}

impl Kind {
    /// The names that a term mentions itself, not those in its parts.
    pub fn names(&self) -> Vec<Offset> {
        match self {
            Kind::SendUnit { channel, .. } | Kind::SendLabel { channel, .. } | Kind::Cancel { channel, .. } => vec![*channel],
            Kind::RecvUnit { channel, .. } | Kind::RecvChannel { channel, .. } | Kind::RecvLabel { channel, .. } => vec![*channel],
            Kind::SendChannel { channel, passed, .. } => vec![*channel, *passed],
            Kind::Fwd { provided, used } => vec![*provided, *used],
            Kind::Call { provided, used, .. } => [&provided[..], &used[..]].concat(),
            Kind::Spawn { .. } | Kind::Raise { .. } | Kind::Try { .. } => Vec::new(),
        }
    }

    /// The name that a term brings in, in all its parts.
    pub fn brought(&self) -> Option<Offset> {
        match self {
            Kind::Spawn { channel, .. } => Some(*channel),
            Kind::RecvChannel { brought, .. } => Some(*brought),
            _ => None,
        }
    }

    /// The processes that stand in a term or follow it.
    pub fn parts(&self) -> Vec<Body> {
        match self {
            Kind::SendUnit { rest, .. } | Kind::SendChannel { rest, .. } | Kind::SendLabel { rest, .. } | Kind::Cancel { rest, .. } => vec![*rest],
            Kind::RecvUnit { rest, .. } | Kind::RecvChannel { rest, .. } | Kind::Raise { rest } => vec![*rest],
            Kind::Spawn { half, rest, .. } => vec![*half, *rest],
            Kind::RecvLabel { branches, .. } => branches.iter().map(|(_, body)| *body).collect(),
            Kind::Try { main, handler } => vec![*main, *handler],
            Kind::Fwd { .. } | Kind::Call { .. } => Vec::new(),
        }
    }
}

impl<'p, 't> Walk<'p, 't> {
    /// Goes along a process of the text until the point is found; a walk that meets what the check would refuse ends.
    fn seek(&self, body: Body, context: Context) -> Option<Spot<'p>> {
        let term = match body {
            Body::Empty(at) => return (at == self.at).then_some(self.spot(Point::Empty, context)),
            Body::Term(number) => self.program.term(number),
        };
        if term.at == self.at {
            return Some(self.spot(Point::Term(term), context));
        }
        self.parts(term, context)?.into_iter().find_map(|(part, context)| self.seek(part, context))
    }

    fn spot(&self, point: Point<'p>, context: Context) -> Spot<'p> {
        Spot { process: self.process, point, context }
    }

    /// The parts of a term, with what each holds.
    fn parts(&self, term: &Term, context: Context) -> Option<Vec<(Body, Context)>> {
        match &term.kind {
            Kind::SendUnit { channel, rest } | Kind::RecvUnit { channel, rest } => Some(vec![(*rest, self.without(context, *channel, term.at, "closed"))]),
            Kind::Cancel { channel, rest } => Some(vec![(*rest, self.without(context, *channel, term.at, "given up"))]),
            Kind::SendChannel { channel, passed, rest } => {
                let context = self.without(context, *passed, term.at, "passed on");
                let (_, _, after) = self.infix(&context, *channel)?;
                Some(vec![(*rest, self.going_on(context, *channel, after))])
            }
            Kind::RecvChannel { channel, brought, rest } => {
                let (mark, before, after) = self.infix(&context, *channel)?;
                let mut context = self.going_on(context, *channel, after);
                let side = if mark == Infix::Par { Side::Provided } else { Side::Used };
                context.held.push(Held { name: *brought, side, annotation: before });
                Some(vec![(*rest, context)])
            }
            Kind::SendLabel { channel, label, rest } => Some(vec![(*rest, self.chosen(context, *channel, *label)?)]),
            Kind::RecvLabel { channel, branches } => branches.iter().map(|(label, body)| Some((*body, self.chosen(context.clone(), *channel, *label)?))).collect(),
            Kind::Spawn { channel, annotation, half, rest } => Some(self.halves(context, *channel, *annotation, *half, *rest)),
            Kind::Try { main, handler } => Some(vec![(*main, self.taking(&context, *main)), (*handler, self.taking(&context, *handler))]),
            Kind::Raise { rest } => Some(vec![(*rest, context)]),
            Kind::Fwd { .. } | Kind::Call { .. } => Some(Vec::new()),
        }
    }

    fn halves(&self, context: Context, channel: Offset, annotation: TypeNumber, half: Body, rest: Body) -> Vec<(Body, Context)> {
        let mut first = self.taking(&context, half);
        let taken: Vec<Held> = first.held.clone();
        first.held.push(Held { name: channel, side: Side::Provided, annotation });
        let mut second = context;
        second.held.retain(|held| !taken.contains(held));
        second.held.push(Held { name: channel, side: Side::Used, annotation });
        vec![(half, first), (rest, second)]
    }

    /// What a half takes: the held channels that it mentions.
    fn taking(&self, context: &Context, half: Body) -> Context {
        let mentioned = self.program.mentions(half);
        let takes = |held: &&Held| mentioned.iter().any(|(name, _)| *name == self.program.name(held.name));
        Context {
            held: context.held.iter().filter(takes).copied().collect(),
            gone: context.gone.clone(),
        }
    }

    fn without(&self, mut context: Context, channel: Offset, term: Offset, how: &'static str) -> Context {
        let name = self.program.name(channel);
        context.held.retain(|held| self.program.name(held.name) != name);
        context.gone.push(Gone { name: channel, term, how });
        context
    }

    /// The channel goes on with another type, and keeps its age.
    fn going_on(&self, mut context: Context, channel: Offset, annotation: TypeNumber) -> Context {
        let name = self.program.name(channel);
        context.held.iter_mut().filter(|held| self.program.name(held.name) == name).for_each(|held| held.annotation = annotation);
        context
    }

    fn chosen(&self, context: Context, channel: Offset, label: Offset) -> Option<Context> {
        let held = self.program.held(&context, channel)?;
        let Type::Choice(_, alternatives) = self.program.node(self.program.unfolded(held.annotation)) else { return None };
        let after = self.program.after(alternatives, self.program.name(label))?;
        Some(self.going_on(context, channel, after))
    }

    fn infix(&self, context: &Context, channel: Offset) -> Option<(Infix, TypeNumber, TypeNumber)> {
        let held = self.program.held(context, channel)?;
        match self.program.node(self.program.unfolded(held.annotation)) {
            Type::Infix(mark, before, after) => Some((*mark, *before, *after)),
            _ => None,
        }
    }
}

impl Program<'_> {
    /// The held channel of the name at an offset.
    pub fn held(&self, context: &Context, channel: Offset) -> Option<Held> {
        let name = self.name(channel);
        context.held.iter().copied().find(|held| self.name(held.name) == name)
    }
}
