//! Types as they are shown and compared: a name stands for its definition, and two types are equal when they unfold to the same tree.

use crate::program::{Choice, Infix, Offset, Program, Type, TypeNumber};

impl Infix {
    pub fn mark(self) -> &'static str {
        match self {
            Infix::Tensor => "*",
            Infix::Par => "@",
            Infix::Lolli => "-o",
        }
    }
}

impl Choice {
    pub fn mark(self) -> &'static str {
        match self {
            Choice::Plus => "+",
            Choice::With => "&",
        }
    }
}

/// Where two types part: the way to it from both, and what stands there.
#[derive(Debug, PartialEq, Eq)]
pub struct Difference {
    pub way: Vec<String>,
    pub left: TypeNumber,
    pub right: TypeNumber,
}

impl Program<'_> {
    /// A type in the notation, brackets only where grouping needs them.
    pub fn shown(&self, number: TypeNumber) -> String {
        match self.node(number) {
            Type::One => "1".to_owned(),
            Type::Named(at) => self.name(*at).to_owned(),
            Type::Infix(mark, left, right) => {
                let left = match self.node(*left) {
                    Type::Infix(..) => format!("({})", self.shown(*left)),
                    _ => self.shown(*left),
                };
                format!("{left} {} {}", mark.mark(), self.shown(*right))
            }
            Type::Choice(mark, alternatives) => {
                let shown: Vec<String> = alternatives.iter().map(|(label, after)| format!("{} : {}", self.name(*label), self.shown(*after))).collect();
                format!("{}{{{}}}", mark.mark(), shown.join(", "))
            }
        }
    }

    /// A type, and, where it is a name, what that stands for.
    pub fn shown_unfolded(&self, number: TypeNumber) -> String {
        match self.node(number) {
            Type::Named(_) => format!("{} = {}", self.shown(number), self.shown(self.unfolded(number))),
            _ => self.shown(number),
        }
    }

    /// What a name stands for; a type that is no name stands for itself. No definition is a bare name once the declarations are in order.
    pub fn unfolded(&self, number: TypeNumber) -> TypeNumber {
        let mut number = number;
        for _ in 0..=self.types.len() {
            let Type::Named(at) = self.node(number) else { break };
            let Some(declared) = self.declared(self.name(*at)) else { break };
            number = declared.definition;
        }
        number
    }

    /// The labels of a choice, as they stand in it.
    pub fn labels(&self, alternatives: &[(Offset, TypeNumber)]) -> Vec<&str> {
        alternatives.iter().map(|(label, _)| self.name(*label)).collect()
    }

    /// Where two types part, if they are not equal.
    pub fn difference(&self, left: TypeNumber, right: TypeNumber) -> Option<Difference> {
        let (mut assumed, mut left_to_do) = (Vec::new(), vec![(Vec::new(), left, right)]);
        while let Some((way, left, right)) = left_to_do.pop() {
            let pair = (self.unfolded(left), self.unfolded(right));
            if assumed.contains(&pair) {
                continue;
            }
            assumed.push(pair);
            match self.parts(pair.0, pair.1) {
                None => return Some(Difference { way, left, right }),
                Some(parts) => left_to_do.extend(parts.into_iter().rev().map(|(step, l, r)| ([&way[..], &[step]].concat(), l, r))),
            }
        }
        None
    }

    /// The parts that must be equal for two unfolded types to be; none where their marks or labels differ already.
    fn parts(&self, left: TypeNumber, right: TypeNumber) -> Option<Vec<(String, TypeNumber, TypeNumber)>> {
        match (self.node(left), self.node(right)) {
            (Type::One, Type::One) => Some(Vec::new()),
            (Type::Named(a), Type::Named(b)) if self.name(*a) == self.name(*b) => Some(Vec::new()),
            (Type::Infix(mark, a, b), Type::Infix(other, c, d)) if mark == other => {
                let (before, after) = (format!("before {}", mark.mark()), format!("after {}", mark.mark()));
                Some(vec![(before, *a, *c), (after, *b, *d)])
            }
            (Type::Choice(mark, ours), Type::Choice(other, theirs)) if mark == other && ours.len() == theirs.len() => {
                let part = |(label, after): &(Offset, TypeNumber)| Some((format!("after {}", self.name(*label)), *after, self.after(theirs, self.name(*label))?));
                ours.iter().map(part).collect()
            }
            _ => None,
        }
    }

    /// What a label of a choice leads to.
    pub fn after(&self, alternatives: &[(Offset, TypeNumber)], label: &str) -> Option<TypeNumber> {
        alternatives.iter().find(|(other, _)| self.name(*other) == label).map(|(_, after)| *after)
    }
}
