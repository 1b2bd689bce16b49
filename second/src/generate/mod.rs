//! Generators from a seed: papers, tables, ends, messages and whole runs, sound and damaged.

pub mod air;
pub mod damage;
pub mod envelopes;
pub mod hostile;
pub mod link;
pub mod papers;
pub mod places;
pub mod programs;
pub mod runs;
pub mod scene;
pub mod scripts;
pub mod station;
pub mod tables;

use crate::calls::{perform, Call, Outcome};
use crate::random::Random;
use runs::RunCounts;

/// The calls of a batch with the outcomes that this program gives them.
#[derive(Default)]
pub struct Record {
    pub calls: Vec<(Call, Outcome)>,
    /// Whole runs over the link whose answer was compared with the answer on the original tables.
    pub whole_runs: RunCounts,
}

impl Record {
    pub fn ask(&mut self, call: Call) -> Outcome {
        let outcome = perform(&call);
        self.calls.push((call, outcome.clone()));
        outcome
    }

    /// Asks the call, and asks it again in a few hostile ways whose outcomes nobody goes on with.
    pub fn ask_and_probe(&mut self, random: &mut Random, call: Call, probes: usize) -> Outcome {
        let outcome = self.ask(call.clone());
        for _ in 0..probes {
            self.ask(hostile::probe(random, &call, &outcome));
        }
        outcome
    }
}

/// One batch of at least `size` calls.
pub fn batch(seed: u64, number: u64, size: usize) -> Record {
    let mut random = Random::part(seed, number);
    let mut record = Record::default();
    // Large tables cost most of a script's words, so a batch has them once, and not every batch.
    if random.chance(1, 2) {
        places::large_tables(&mut random, &mut record);
    }
    while record.calls.len() < size {
        match random.weighted(&[14, 1, 1, 14, 14, 12]) {
            0 => papers::some_papers(&mut random, &mut record),
            1 => papers::cut_envelope(&mut random, &mut record),
            2 => papers::cut_program(&mut random, &mut record),
            3 => places::one_place(&mut random, &mut record),
            4 => link::whole_run(&mut random, &mut record),
            _ => station::hostile_end(&mut random, &mut record),
        }
    }
    record
}
