//! Who the processes of a run are: a process is called by the declared process whose body it runs; one that is spawned, until it calls another, by the channel
//! that it provides; a handler by its process. Where two that are there would bear one name, the later has a number.

/// A process over the whole run.
#[derive(Clone, Debug, PartialEq, Eq)]
pub struct Actor {
    /// In the order in which they came, from 0.
    pub id: usize,
    pub name: String,
}

/// The actors by their places.
pub struct Cast {
    actors: Vec<Actor>,
    born: usize,
}

impl Cast {
    /// Of a run that starts.
    pub fn new(name: &str) -> Cast {
        let first = Actor { id: 0, name: name.to_owned() };
        Cast { actors: vec![first], born: 1 }
    }

    pub fn at(&self, place: usize) -> &Actor {
        &self.actors[place]
    }

    pub fn count(&self) -> usize {
        self.actors.len()
    }

    /// A new one comes to stand directly after its maker.
    pub fn enter(&mut self, maker: usize, name: &str) -> Actor {
        let actor = Actor {
            id: self.born,
            name: self.free_name(name, None),
        };
        self.born += 1;
        self.actors.insert(maker + 1, actor.clone());
        actor
    }

    pub fn rename(&mut self, place: usize, name: &str) {
        self.actors[place].name = self.free_name(name, Some(place));
    }

    pub fn leave(&mut self, place: usize) {
        self.actors.remove(place);
    }

    /// The name, or, where another than the one at a place bears it, the name with the first number that none has.
    fn free_name(&self, name: &str, but: Option<usize>) -> String {
        let taken = |wanted: &str| self.actors.iter().enumerate().any(|(place, actor)| Some(place) != but && actor.name == wanted);
        let numbered = (2..).map(|n| format!("{name}/{n}"));
        std::iter::once(name.to_owned()).chain(numbered).find(|wanted| !taken(wanted)).unwrap_or_default()
    }
}
