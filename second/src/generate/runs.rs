//! What whole runs over the link were like: a run without steps, or with an empty answer, shows little.

use crate::generate::scene::Scene;
use crate::program::Step;
use std::fmt;

/// What a whole run may have.
#[derive(Clone, Copy, Debug, PartialEq, Eq)]
pub enum Kind {
    Steps,
    SeveralSteps,
    OneRelationTwice,
    WithinOneSite,
    RowsRemoved,
    Lost,
    Repeated,
    Reordered,
    Answered,
    PartlyAnswered,
}

/// Each kind with its name, in the order of their declaration.
pub const KINDS: [(Kind, &str); 10] = [
    (Kind::Steps, "steps"),
    (Kind::SeveralSteps, "several steps"),
    (Kind::OneRelationTwice, "several steps that reduce one relation"),
    (Kind::WithinOneSite, "a step within one site"),
    (Kind::RowsRemoved, "rows that a step removed, and rows kept"),
    (Kind::Lost, "a message that its receiver never heard"),
    (Kind::Repeated, "a message that its receiver heard again"),
    (Kind::Reordered, "a message heard after one made later"),
    (Kind::Answered, "an answer with rows"),
    (
        Kind::PartlyAnswered,
        "an answer with rows, but not of every combination",
    ),
];

/// What one run has.
#[derive(Clone, Debug, Default)]
pub struct Met([bool; KINDS.len()]);

impl Met {
    pub fn note(&mut self, kind: Kind, holds: bool) {
        self.0[kind as usize] |= holds;
    }

    pub fn note_steps(&mut self, scene: &Scene) {
        let steps = &scene.program.steps;
        let relations = &scene.envelope.relations;
        let within = |step: &Step| relations[step.left.relation].site == relations[step.right.relation].site;
        let twice = |relation: usize| scene.program.steps_of(relation).len() > 1;
        self.note(Kind::Steps, !steps.is_empty());
        self.note(Kind::SeveralSteps, steps.len() > 1);
        self.note(Kind::OneRelationTwice, (0..relations.len()).any(twice));
        self.note(Kind::WithinOneSite, steps.iter().any(within));
    }

    /// An answer of so many words.
    pub fn note_answer(&mut self, scene: &Scene, words: usize) {
        let rows = (words / scene.envelope.targets.len()) as u64;
        let counts = &scene.tables[..scene.envelope.relations.len()];
        let combinations = counts.iter().map(|&count| u64::from(count)).product();
        self.note(Kind::Answered, rows > 0);
        self.note(Kind::PartlyAnswered, rows > 0 && rows < combinations);
    }
}

#[derive(Clone, Debug, Default, PartialEq, Eq)]
pub struct RunCounts {
    pub all: usize,
    with: [usize; KINDS.len()],
}

impl RunCounts {
    pub fn with(&self, kind: Kind) -> usize {
        self.with[kind as usize]
    }

    pub fn count(&mut self, met: &Met) {
        self.all += 1;
        self.with
            .iter_mut()
            .zip(met.0)
            .for_each(|(count, met)| *count += usize::from(met));
    }

    pub fn add(&mut self, more: &RunCounts) {
        self.all += more.all;
        self.with
            .iter_mut()
            .zip(more.with)
            .for_each(|(count, more)| *count += more);
    }
}

impl fmt::Display for RunCounts {
    fn fmt(&self, f: &mut fmt::Formatter) -> fmt::Result {
        writeln!(f, "whole runs among them: {}", self.all)?;
        KINDS
            .iter()
            .try_for_each(|&(kind, name)| writeln!(f, "{:>8} with {name}", self.with(kind)))
    }
}
