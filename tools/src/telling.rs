//! A step in words, the names as in the script.

use crate::cast::Actor;
use crate::story::{Deed, Event, Message, Partner, Reception};
use epass::Seen;
use std::fmt;

impl fmt::Display for Message<'_> {
    fn fmt(&self, f: &mut fmt::Formatter<'_>) -> fmt::Result {
        match self {
            Message::Close => f.write_str("()"),
            Message::Label(word) | Message::Channel { passed: word, .. } => f.write_str(word),
        }
    }
}

impl fmt::Display for Event<'_> {
    fn fmt(&self, f: &mut fmt::Formatter<'_>) -> fmt::Result {
        write!(f, "{} {}", self.actor.name, self.deed)
    }
}

impl fmt::Display for Deed<'_> {
    fn fmt(&self, f: &mut fmt::Formatter<'_>) -> fmt::Result {
        match self {
            Deed::Spawns { channel, new } if new.name == *channel => write!(f, "spawns {channel}"),
            Deed::Spawns { channel, new } => write!(f, "spawns {}, which provides {channel}", new.name),
            Deed::Tries { handler } => write!(f, "tries, and {} waits", handler.name),
            Deed::Calls { process, name } if name == process => write!(f, "calls {process}"),
            Deed::Calls { process, name } => write!(f, "calls {process}, and is {name} from then on"),
            Deed::Forwards { provided, used, partners } => forwards(f, provided, used, partners),
            Deed::GivesUp { channel, partner, folding } => gives_up(f, channel, partner, *folding),
            Deed::Raises { handler: Some(handler) } => write!(f, "raises, and {} starts", handler.name),
            Deed::Raises { handler: None } => f.write_str("raises, nobody catches it, and the run halts"),
            Deed::Leaves { handler: Some(handler) } => write!(f, "leaves, and {} folds up", handler.name),
            Deed::Leaves { handler: None } => f.write_str("leaves"),
            Deed::Sends { message, channel, to, reception } => sends(f, message, channel, to, reception),
            Deed::Receives { message, channel, from, reception } => receives(f, message, channel, from, reception),
            Deed::Loses { channel, handler } => loses(f, channel, handler.as_ref()),
        }
    }
}

fn gives_up(f: &mut fmt::Formatter<'_>, channel: &str, partner: &Partner<'_>, folding: bool) -> fmt::Result {
    if folding {
        f.write_str("folds up: it ")?;
    }
    write!(f, "gives up {channel}")?;
    match partner {
        Partner::Process(other, theirs) => write!(f, ", which {} holds{}", other.name, by_name(channel, theirs)),
        Partner::Outside(_) => f.write_str(", which the outside holds"),
        Partner::Nobody => f.write_str(", whose other end was given up"),
    }
}

/// A fwd joins the far ends of its channels; where one was given up, the other is left without a partner.
fn forwards(f: &mut fmt::Formatter<'_>, provided: &str, used: &str, partners: &[Partner<'_>; 2]) -> fmt::Result {
    match partners {
        [Partner::Nobody, Partner::Nobody] => write!(f, "forwards {provided} to {used}, and the other end of either was given up"),
        [Partner::Nobody, _] => write!(f, "forwards {provided} to {used}; the other end of {provided} was given up, and {used} is given up with it"),
        [_, Partner::Nobody] => write!(f, "forwards {provided} to {used}; the other end of {used} was given up, and {provided} is given up with it"),
        _ => write!(f, "makes {provided} and {used} one channel"),
    }
}

fn sends(f: &mut fmt::Formatter<'_>, message: &Message<'_>, channel: &str, to: &Partner<'_>, reception: &Reception) -> fmt::Result {
    write!(f, "sends {message} on {channel}")?;
    match to {
        Partner::Process(other, theirs) => {
            write!(f, " to {}{}{}", other.name, by_name(channel, theirs), taken_as(message))?;
            left_out(f, &format!(", which has no branch for {message}"), reception)
        }
        Partner::Outside(_) => f.write_str(" to the outside"),
        Partner::Nobody => {
            f.write_str(" to nobody: its other end was given up")?;
            match message {
                Message::Channel { passed, .. } => write!(f, ", and {passed} is given up with it"),
                _ => Ok(()),
            }
        }
    }
}

fn receives(f: &mut fmt::Formatter<'_>, message: &Message<'_>, channel: &str, from: &Partner<'_>, reception: &Reception) -> fmt::Result {
    write!(f, "receives {message} on {channel}")?;
    if let Partner::Process(other, theirs) = from {
        write!(f, " from {}{}{}", other.name, by_name(channel, theirs), taken_as(message))?;
    }
    left_out(f, &format!(", has no branch for {message}"), reception)
}

/// What follows where a recv leaves out the label that came.
fn left_out(f: &mut fmt::Formatter<'_>, whose: &str, reception: &Reception) -> fmt::Result {
    match reception {
        Reception::Taken => Ok(()),
        Reception::LeftOut(Some(handler)) => write!(f, "{whose} and folds up; {} starts", handler.name),
        Reception::LeftOut(None) => write!(f, "{whose}, nobody catches it, and the run halts"),
    }
}

fn loses(f: &mut fmt::Formatter<'_>, channel: &str, handler: Option<&Actor>) -> fmt::Result {
    write!(f, "waits on {channel}, whose other end was given up, and folds up")?;
    handler.map_or(Ok(()), |handler| write!(f, "; {} starts", handler.name))
}

/// The name that a passed channel has for who takes it, where it is another.
fn taken_as(message: &Message<'_>) -> String {
    match message {
        Message::Channel { passed, brought: Some(brought) } if passed != brought => format!(", as {brought}"),
        _ => String::new(),
    }
}

/// The other end's name, where it is another.
fn by_name(ours: &str, theirs: &str) -> String {
    if ours == theirs {
        return String::new();
    }
    format!(" (its {theirs})")
}

/// What was seen, as the program prints it; a channel that was given up before it came shows a second line.
pub fn sightings(seen: Seen<'_>) -> Vec<String> {
    let number = seen.number();
    match seen {
        Seen::Label { label, .. } => vec![format!("#{number} -> {}", String::from_utf8_lossy(label))],
        Seen::Close { .. } => vec![format!("#{number} -> ()")],
        Seen::Cancelled { .. } => vec![format!("#{number} -> cancelled")],
        Seen::Passed { passed, given_up: false, .. } => vec![format!("#{number} -> #{passed}")],
        Seen::Passed { passed, given_up: true, .. } => vec![format!("#{number} -> #{passed}"), format!("#{passed} -> cancelled")],
    }
}
