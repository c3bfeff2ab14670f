//! What a step looks like among the lifelines: arrows, and notes beside a lifeline.

use crate::cast::Actor;
use crate::story::{Deed, Event, Message, Partner, Reception};
use epass::Seen;

/// Whose lifeline.
#[derive(Clone, Copy, Debug, PartialEq, Eq)]
pub enum Who {
    Outside,
    /// By its number in the order in which they came.
    Process(usize),
}

/// What stands on the lifeline that a stroke begins at.
#[derive(Clone, Copy, Debug, PartialEq, Eq)]
pub enum Sign {
    None,
    Dot,
    /// It gives up a channel, or finds one given up.
    Cross,
    /// It ends.
    Bar,
    /// The run halts.
    Halt,
}

#[derive(Clone, Copy, Debug, PartialEq, Eq)]
pub enum Way {
    /// Nowhere: a note.
    Stays,
    /// A message, to one who takes it.
    Message(Who),
    /// A message, to nobody.
    Lost,
    /// To one that comes by it.
    Makes(Who),
    /// To one that is told without a message.
    Tells(Who),
}

impl Way {
    pub fn target(self) -> Option<Who> {
        match self {
            Way::Stays | Way::Lost => None,
            Way::Message(who) | Way::Makes(who) | Way::Tells(who) => Some(who),
        }
    }
}

#[derive(Clone, Debug, PartialEq, Eq)]
pub struct Stroke {
    pub from: Who,
    pub mark: Sign,
    pub way: Way,
    pub text: String,
}

fn stroke(from: &Actor, mark: Sign, way: Way, text: impl Into<String>) -> Stroke {
    Stroke { from: process(from), mark, way, text: text.into() }
}

fn process(actor: &Actor) -> Who {
    Who::Process(actor.id)
}

/// The strokes of a step, from the top down.
pub fn strokes(told: &Event<'_>) -> Vec<Stroke> {
    let mut strokes = of_deed(told);
    let cancelled = matches!(told.seen(), Some(Seen::Cancelled { .. }));
    if cancelled && !strokes.iter().any(|stroke| stroke.way.target() == Some(Who::Outside)) {
        // A fwd, or a send to nobody, gave up what the outside has the other end of.
        strokes.push(stroke(&told.actor, Sign::Cross, Way::Tells(Who::Outside), "given up"));
    }
    strokes
}

fn of_deed(told: &Event<'_>) -> Vec<Stroke> {
    let actor = &told.actor;
    let tells = |other: &Actor| Way::Tells(process(other));
    match &told.deed {
        Deed::Spawns { new, .. } => vec![stroke(actor, Sign::None, Way::Makes(process(new)), "spawn")],
        Deed::Tries { handler } => vec![stroke(actor, Sign::None, Way::Makes(process(handler)), "try")],
        Deed::Calls { process, name } => vec![stroke(actor, Sign::Dot, Way::Stays, call(process, name))],
        Deed::Forwards { provided, used, .. } => vec![stroke(actor, Sign::Dot, Way::Stays, format!("fwd {provided} {used}"))],
        Deed::GivesUp { channel, partner, folding } => vec![gives_up(actor, channel, partner, *folding)],
        Deed::Raises { handler: Some(handler) } => vec![stroke(actor, Sign::Dot, tells(handler), "raise")],
        Deed::Raises { handler: None } => vec![stroke(actor, Sign::Halt, Way::Stays, "raise: uncaught, the run halts")],
        Deed::Leaves { handler: Some(handler) } => vec![stroke(actor, Sign::Bar, tells(handler), "leaves: handler folds up")],
        Deed::Leaves { handler: None } => vec![stroke(actor, Sign::Bar, Way::Stays, "leaves")],
        Deed::Sends { message, channel, to, reception } => sends(actor, *message, channel, to, reception),
        Deed::Receives { message, channel, from, reception } => receives(actor, *message, channel, from, reception),
        Deed::Loses { channel, handler } => loses(actor, channel, handler.as_ref()),
    }
}

/// With the name that the process has from then on, where that is not the called one's own.
fn call(process: &str, name: &str) -> String {
    match process == name {
        true => format!("call {process}"),
        false => format!("call {process}, as {name}"),
    }
}

fn gives_up(actor: &Actor, channel: &str, partner: &Partner<'_>, folding: bool) -> Stroke {
    let verb = if folding { "folds up:" } else { "cancel" };
    let (way, channel) = match partner {
        Partner::Process(other, theirs) => (Way::Tells(process(other)), both_names(channel, theirs)),
        Partner::Outside(_) => (Way::Tells(Who::Outside), channel.to_owned()),
        Partner::Nobody => (Way::Stays, channel.to_owned()),
    };
    stroke(actor, Sign::Cross, way, format!("{verb} {channel}"))
}

fn both_names(ours: &str, theirs: &str) -> String {
    match ours == theirs {
        true => ours.to_owned(),
        false => format!("{ours} as {theirs}"),
    }
}

fn sends(actor: &Actor, message: Message<'_>, channel: &str, to: &Partner<'_>, reception: &Reception) -> Vec<Stroke> {
    match to {
        Partner::Process(other, theirs) => {
            let sent = stroke(actor, Sign::None, Way::Message(process(other)), format!("{message} on {}", both_names(channel, theirs)));
            [vec![sent], left_out(other, message, reception)].concat()
        }
        Partner::Outside(_) => vec![stroke(actor, Sign::None, Way::Message(Who::Outside), format!("{message} on {channel}"))],
        Partner::Nobody => vec![stroke(actor, Sign::None, Way::Lost, format!("{message} on {channel}, unheard"))],
    }
}

fn receives(actor: &Actor, message: Message<'_>, channel: &str, from: &Partner<'_>, reception: &Reception) -> Vec<Stroke> {
    let Partner::Process(other, theirs) = from else { return Vec::new() };
    let sent = stroke(other, Sign::None, Way::Message(process(actor)), format!("{message} on {}", both_names(theirs, channel)));
    [vec![sent], left_out(actor, message, reception)].concat()
}

/// What a recv does that leaves out the label that came.
fn left_out(receiver: &Actor, message: Message<'_>, reception: &Reception) -> Vec<Stroke> {
    let note = |mark, text: &str| stroke(receiver, mark, Way::Stays, format!("no branch for {message}: {text}"));
    match reception {
        Reception::Taken => Vec::new(),
        Reception::LeftOut(None) => vec![note(Sign::Halt, "uncaught, the run halts")],
        Reception::LeftOut(Some(handler)) => vec![note(Sign::Dot, "folds up"), starts(receiver, handler)],
    }
}

fn loses(actor: &Actor, channel: &str, handler: Option<&Actor>) -> Vec<Stroke> {
    let note = stroke(actor, Sign::Cross, Way::Stays, format!("recv {channel}: given up, folds up"));
    [note].into_iter().chain(handler.map(|handler| starts(actor, handler))).collect()
}

fn starts(actor: &Actor, handler: &Actor) -> Stroke {
    stroke(actor, Sign::Dot, Way::Tells(process(handler)), "starts")
}
