//! Programs for an envelope: planned, from elsewhere with steps repeated, and illegal ones.

use crate::envelope::Envelope;
use crate::generate::envelopes::any_column;
use crate::paths::Paths;
use crate::planner::plan;
use crate::program::{Program, Step};
use crate::random::Random;
use crate::sizes;

/// An accepted program.
pub fn program(random: &mut Random, envelope: &Envelope) -> Program {
    let site = random.pick(&envelope.sites());
    let legal = Paths::of(envelope).legal_steps();
    match random.weighted(&[3, 6, 2, 1]) {
        0 => plan(envelope).program,
        1 => {
            let length = random.below(9);
            Program {
                site,
                steps: some_of(random, &legal, length),
            }
        }
        2 => {
            // Every legal step once, in an order of its own.
            let mut steps = legal;
            random.shuffle(&mut steps);
            Program { site, steps }
        }
        _ => {
            let length = if random.chance(1, 6) {
                sizes::STEPS as usize
            } else {
                random.below(40)
            };
            Program {
                site,
                steps: some_of(random, &legal, length),
            }
        }
    }
}

/// An accepted program, of several steps where it is not the planned one. The envelope has a legal step.
pub fn program_for_runs(random: &mut Random, envelope: &Envelope) -> Program {
    let site = random.pick(&envelope.sites());
    let mut legal = Paths::of(envelope).legal_steps();
    let length = random.between(2, 8) as usize;
    let steps = match random.weighted(&[1, 6, 3, 3]) {
        0 => return plan(envelope).program,
        1 => some_of_several(random, &legal, 3, length),
        2 => {
            random.shuffle(&mut legal);
            legal.truncate(12);
            legal
        }
        _ => {
            // All but one reduce the same relation.
            let reduced = random.pick(&legal).left.relation;
            let other = random.pick(&legal);
            legal.retain(|step| step.left.relation == reduced);
            let mut steps = some_of_several(random, &legal, 2, length);
            steps.insert(random.below(length + 1), other);
            steps
        }
    };
    Program { site, steps }
}

fn some_of(random: &mut Random, legal: &[Step], length: usize) -> Vec<Step> {
    some_of_several(random, legal, 1, length)
}

fn some_of_several(random: &mut Random, legal: &[Step], fewest: usize, length: usize) -> Vec<Step> {
    if legal.is_empty() {
        return Vec::new();
    }
    // Of few different steps, repeats are usual.
    let mut choice = legal.to_vec();
    random.shuffle(&mut choice);
    choice.truncate(fewest.max(random.below(legal.len()) + 1));
    (0..length).map(|_| random.pick(&choice)).collect()
}

/// A program that may well be refused: a step that need not be legal, a site that need not hold a relation,
/// a step too many.
pub fn spoiled_program(random: &mut Random, envelope: &Envelope) -> Program {
    let mut program = program(random, envelope);
    match random.below(4) {
        0 => program.site = random.between(0, 9),
        1 => program.steps = many_steps(random, envelope, sizes::STEPS as usize + 1),
        _ => {
            let place = random.below(program.steps.len() + 1);
            program.steps.insert(place, any_step(random, envelope));
        }
    }
    program
}

fn many_steps(random: &mut Random, envelope: &Envelope, length: usize) -> Vec<Step> {
    let legal = Paths::of(envelope).legal_steps();
    (0..length)
        .map(|_| {
            if legal.is_empty() {
                any_step(random, envelope)
            } else {
                random.pick(&legal)
            }
        })
        .collect()
}

/// A step of columns that exist, mostly; legal only by chance.
fn any_step(random: &mut Random, envelope: &Envelope) -> Step {
    let mut step = Step {
        left: any_column(random, envelope),
        right: any_column(random, envelope),
    };
    match random.below(8) {
        0 => step.left.column = random.below(9),
        1 => step.right.relation = random.below(9),
        _ => {}
    }
    step
}
