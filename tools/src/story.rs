//! A run told step by step: who did what on which channel, and with whom. The steps are the proved library's; what is told of one is read off the configuration before it.

use crate::cast::{Actor, Cast};
use crate::program::{Body, Kind, Offset, Program};
use crate::state::{Doing, End, Far, State};
use epass::{Refusal, Run, Script, Seen, Step, RUN_WORDS, SCRATCH_WORDS};

/// The program stops an exec after so many steps.
pub const MOST_STEPS: u32 = 10_000;

/// Who is at the other end of a channel.
#[derive(Clone, Debug, PartialEq, Eq)]
pub enum Partner<'t> {
    /// A process, and what it calls the channel.
    Process(Actor, &'t str),
    Outside(u32),
    Nobody,
}

#[derive(Clone, Copy, Debug, PartialEq, Eq)]
pub enum Message<'t> {
    Close,
    Label(&'t str),
    /// A channel, by its sender's name for it, and by the name that it has for who takes it, if a process does.
    Channel { passed: &'t str, brought: Option<&'t str> },
}

/// What became of a message.
#[derive(Clone, Debug, PartialEq, Eq)]
pub enum Reception {
    Taken,
    /// The recv leaves out the label: its process folds up, and this handler of it starts; without one the run halts.
    LeftOut(Option<Actor>),
}

/// What a process did in its step.
#[derive(Clone, Debug, PartialEq, Eq)]
pub enum Deed<'t> {
    Spawns { channel: &'t str, new: Actor },
    Tries { handler: Actor },
    /// From then on the process has this name.
    Calls { process: &'t str, name: String },
    /// The partners are those of the provided and of the used channel.
    Forwards { provided: &'t str, used: &'t str, partners: [Partner<'t>; 2] },
    GivesUp { channel: &'t str, partner: Partner<'t>, folding: bool },
    /// Its handler starts; without one the run halts.
    Raises { handler: Option<Actor> },
    /// Its handler, if it has one, folds up.
    Leaves { handler: Option<Actor> },
    Sends { message: Message<'t>, channel: &'t str, to: Partner<'t>, reception: Reception },
    Receives { message: Message<'t>, channel: &'t str, from: Partner<'t>, reception: Reception },
    /// Its recv found the other end given up: it folds up, and its handler, if it has one, starts.
    Loses { channel: &'t str, handler: Option<Actor> },
}

/// A step that was taken.
#[derive(Clone, Debug)]
pub struct Event<'t> {
    /// The steps are numbered from 1.
    pub number: u32,
    pub place: usize,
    pub actor: Actor,
    pub deed: Deed<'t>,
    pub answer: Step<'t>,
}

impl<'t> Event<'t> {
    /// What it showed to the outside.
    pub fn seen(&self) -> Option<Seen<'t>> {
        match self.answer {
            Step::Carried(seen) => seen,
            Step::Uncaught => None,
        }
    }

    /// What its process is called after it.
    pub fn name_after(&self) -> &str {
        match &self.deed {
            Deed::Calls { name, .. } => name,
            _ => &self.actor.name,
        }
    }
}

/// What comes next in a run.
#[derive(Clone, Debug, PartialEq, Eq)]
pub enum Next {
    Ended(Ending),
    /// Each of these places has a step that can be carried out.
    Open(Vec<u32>),
}

/// How a run ended.
#[derive(Clone, Copy, Debug, PartialEq, Eq)]
pub enum Ending {
    Done,
    Full,
    Stopped,
    Uncaught,
}

impl Ending {
    pub fn word(self) -> &'static str {
        match self {
            Ending::Done => "done",
            Ending::Full => "full",
            Ending::Stopped => "stopped",
            Ending::Uncaught => "uncaught",
        }
    }
}

/// A run of an exec line, as it is told.
pub struct Story<'t> {
    program: &'t Program<'t>,
    script: Script<'t, Vec<u32>>,
    run: Run<Vec<u32>>,
    cast: Cast,
    steps: u32,
}

impl<'t> Story<'t> {
    /// Starts an exec line of a program whose text the check accepts.
    pub fn start(program: &'t Program<'t>, line: u32) -> Result<Story<'t>, Refusal> {
        let mut script = Script::check(program.text, vec![0; SCRATCH_WORDS])?;
        let run = Run::start(&mut script, line, vec![0; RUN_WORDS])?;
        let cast = Cast::new(program.name(program.execs[line as usize]));
        Ok(Story { program, script, run, cast, steps: 0 })
    }

    pub fn steps(&self) -> u32 {
        self.steps
    }

    pub fn state(&self) -> State {
        State::of_words(self.run.words())
    }

    pub fn cast(&self) -> &Cast {
        &self.cast
    }

    /// The places whose step can be carried out; or how the run has ended, by the tests of run-on in their order.
    pub fn what_next(&mut self) -> Result<Next, Refusal> {
        let state = self.state();
        let open: Vec<u32> = self.run.places(&mut self.script)?.open().collect();
        let ending = if state.halted {
            Some(Ending::Uncaught)
        } else if state.processes.is_empty() {
            Some(Ending::Done)
        } else if open.is_empty() {
            Some(Ending::Full)
        } else {
            (self.steps >= MOST_STEPS).then_some(Ending::Stopped)
        };
        Ok(ending.map_or(Next::Open(open), Next::Ended))
    }

    /// Has the step at a place carried out, and tells it.
    pub fn step(&mut self, place: u32) -> Result<Event<'t>, Refusal> {
        let before = self.state();
        let answer = self.run.step(&mut self.script, place)?;
        self.steps += 1;
        let place = place as usize;
        let actor = self.cast.at(place).clone();
        let deed = self.deed(&before, place);
        Ok(Event { number: self.steps, place, actor, deed, answer })
    }

    /// What the process at a place does in a configuration; whoever comes, goes or is called anew is entered in the cast.
    fn deed(&mut self, state: &State, place: usize) -> Deed<'t> {
        let process = &state.processes[place];
        match (process.doing, process.held.first()) {
            (Doing::FoldsUp, Some(&oldest)) => self.gives_up(state, oldest, true),
            (Doing::Runs(Body::Term(term)), _) => self.acts(state, place, &self.program.term(term).kind),
            _ => {
                let handler = self.handler(state, place);
                self.cast.leave(place);
                Deed::Leaves { handler }
            }
        }
    }

    /// The step of a term.
    fn acts(&mut self, state: &State, place: usize, kind: &'t Kind) -> Deed<'t> {
        let handler = self.handler(state, place);
        match kind {
            Kind::Spawn { channel, .. } => {
                let channel = self.program.name(*channel);
                Deed::Spawns { channel, new: self.cast.enter(place, channel) }
            }
            Kind::Try { .. } => {
                let name = format!("handler of {}", self.cast.at(place).name);
                Deed::Tries { handler: self.cast.enter(place, &name) }
            }
            Kind::Call { process, .. } => {
                let process = self.program.name(*process);
                self.cast.rename(place, process);
                Deed::Calls { process, name: self.cast.at(place).name.clone() }
            }
            Kind::Fwd { provided, used } => {
                let partners = [*provided, *used].map(|name| self.partner(state.far(self.end(state, place, name))));
                Deed::Forwards { provided: self.program.name(*provided), used: self.program.name(*used), partners }
            }
            Kind::Raise { .. } => Deed::Raises { handler },
            Kind::Cancel { channel, .. } => self.gives_up(state, self.end(state, place, *channel), false),
            _ => self.talks(state, place, kind),
        }
    }

    /// A send or a recv.
    fn talks(&self, state: &State, place: usize, kind: &'t Kind) -> Deed<'t> {
        let name = |at: &Offset| self.program.name(*at);
        let (channel, sent) = match kind {
            Kind::SendUnit { channel, .. } => (channel, Some(Message::Close)),
            Kind::SendLabel { channel, label, .. } => (channel, Some(Message::Label(name(label)))),
            Kind::SendChannel { channel, passed, .. } => (channel, Some(Message::Channel { passed: name(passed), brought: None })),
            Kind::RecvUnit { channel, .. } | Kind::RecvChannel { channel, .. } | Kind::RecvLabel { channel, .. } => (channel, None),
            _ => unreachable!("the other terms step alone"),
        };
        let far = state.far(self.end(state, place, *channel));
        let channel = name(channel);
        match (sent, far) {
            (Some(message), Far::Process(other, _)) => {
                let message = self.taken(state, other, message);
                Deed::Sends { message, channel, to: self.partner(far), reception: self.reception(state, other, message) }
            }
            (Some(message), _) => Deed::Sends { message, channel, to: self.partner(far), reception: Reception::Taken },
            (None, Far::Process(other, _)) => {
                let message = self.taken(state, place, self.sent(state, other));
                Deed::Receives { message, channel, from: self.partner(far), reception: self.reception(state, place, message) }
            }
            (None, _) => Deed::Loses { channel, handler: self.handler(state, place) },
        }
    }

    /// What the process at a place sends next.
    fn sent(&self, state: &State, place: usize) -> Message<'t> {
        match self.kind(state, place) {
            Some(Kind::SendUnit { .. }) => Message::Close,
            Some(Kind::SendLabel { label, .. }) => Message::Label(self.program.name(*label)),
            Some(Kind::SendChannel { passed, .. }) => Message::Channel { passed: self.program.name(*passed), brought: None },
            _ => unreachable!("a recv steps with a send alone"),
        }
    }

    /// A message with the name that the process at a place gives to what it brings.
    fn taken(&self, state: &State, place: usize, message: Message<'t>) -> Message<'t> {
        match (message, self.kind(state, place)) {
            (Message::Channel { passed, .. }, Some(Kind::RecvChannel { brought, .. })) => Message::Channel { passed, brought: Some(self.program.name(*brought)) },
            _ => message,
        }
    }

    /// What the recv of the process at a place makes of a message.
    fn reception(&self, state: &State, place: usize, message: Message<'t>) -> Reception {
        let (Message::Label(label), Some(Kind::RecvLabel { branches, .. })) = (message, self.kind(state, place)) else {
            return Reception::Taken;
        };
        match branches.iter().any(|(branch, _)| self.program.name(*branch) == label) {
            true => Reception::Taken,
            false => Reception::LeftOut(self.handler(state, place)),
        }
    }

    fn kind(&self, state: &State, place: usize) -> Option<&'t Kind> {
        match state.processes[place].doing {
            Doing::Runs(Body::Term(term)) => Some(&self.program.term(term).kind),
            _ => None,
        }
    }

    fn gives_up(&self, state: &State, end: End, folding: bool) -> Deed<'t> {
        Deed::GivesUp { channel: self.program.name(end.name), partner: self.partner(state.far(end)), folding }
    }

    fn partner(&self, far: Far) -> Partner<'t> {
        match far {
            Far::Process(place, end) => Partner::Process(self.cast.at(place).clone(), self.program.name(end.name)),
            Far::Outside(number) => Partner::Outside(number),
            Far::Nobody => Partner::Nobody,
        }
    }

    fn handler(&self, state: &State, place: usize) -> Option<Actor> {
        state.processes[place].link.map(|link| self.cast.at(link).clone())
    }

    /// The end that the process at a place holds by the name at an offset: the check has seen that it does.
    fn end(&self, state: &State, place: usize, name: Offset) -> End {
        let name = self.program.name(name);
        state.end(place, |other| self.program.name(other) == name).unwrap_or_else(|| unreachable!("{name} is held"))
    }
}
