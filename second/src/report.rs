//! What a comparison says: the counts at its end, or the first difference in full.

use crate::calls::{Argument, Call, Outcome, SIGNATURES};
use crate::generate::runs::RunCounts;
use crate::planner::History;
use crate::refusal::LAST_NUMBER;
use std::fmt;

const CALLS: usize = SIGNATURES.len();
/// Each of these is met more than 30 times in any 2,000 outcomes; the others sometimes only once.
const USUAL_NUMBERS: [usize; 9] = [0, 1, 4, 10, 11, 12, 14, 15, 16];

#[derive(Clone, Debug, Default)]
pub struct Counts {
    pub seed: u64,
    /// Outcomes by refusal number (0 is taken) and call.
    pub outcomes: [[usize; CALLS]; LAST_NUMBER + 1],
    pub plans: usize,
    pub plan_outcomes: usize,
    pub listings: usize,
    pub with_steps: usize,
    pub with_ties: usize,
    pub with_drops: usize,
    pub fallbacks: usize,
    pub refused_plans: usize,
    pub whole_runs: RunCounts,
    pub scripts: usize,
}

impl Counts {
    pub fn count_outcome(&mut self, call: &Call, outcome: &Outcome) {
        self.outcomes[outcome.number as usize][call.number as usize - 1] += 1;
    }

    pub fn count_plan(&mut self, history: Option<History>) {
        self.plans += 1;
        let Some(history) = history else {
            self.refused_plans += 1;
            return;
        };
        self.with_steps += usize::from(history.greedy > history.dropped && !history.fell_back);
        self.with_ties += usize::from(history.ties > 0);
        self.with_drops += usize::from(history.dropped > 0);
        // Without greedy steps there is nothing to fall back from.
        self.fallbacks += usize::from(history.fell_back && history.greedy > history.dropped);
    }

    pub fn outcome_count(&self) -> usize {
        self.outcomes.iter().flatten().sum()
    }

    /// The refusal numbers that no call was refused by, and 0 where none was taken.
    pub fn numbers_missed(&self) -> Vec<usize> {
        (0..=LAST_NUMBER)
            .filter(|&number| self.outcomes[number].iter().sum::<usize>() == 0)
            .collect()
    }

    /// What agreed shows little of a number that was never met: with enough outcomes each must have been, and with half
    /// as many each usual one.
    pub fn check_numbers(&self, enough: usize) -> Result<(), String> {
        let mut missed = self.numbers_missed();
        if self.outcome_count() < enough {
            missed.retain(|number| USUAL_NUMBERS.contains(number));
        }
        if missed.is_empty() || self.outcome_count() < enough / 2 {
            return Ok(());
        }
        Err(format!(
            "refusal numbers (0 is taken) that none of {} outcomes met: {}\n",
            self.outcome_count(),
            listed(&missed)
        ))
    }
}

impl fmt::Display for Counts {
    fn fmt(&self, f: &mut fmt::Formatter) -> fmt::Result {
        writeln!(f, "seed {}: no difference", self.seed)?;
        writeln!(
            f,
            "plans compared: {} (through calls 3 and 11: {} outcomes)",
            self.plans, self.plan_outcomes
        )?;
        writeln!(f, "listings compared through plan: {}", self.listings)?;
        writeln!(
            f,
            "of the plans: {} with steps, {} with ties, {} with drops, {} fallbacks, {} refused",
            self.with_steps, self.with_ties, self.with_drops, self.fallbacks, self.refused_plans
        )?;
        writeln!(f, "call outcomes compared: {}", self.outcome_count())?;
        write!(f, "{}", self.whole_runs)?;
        writeln!(f, "damaged scripts compared: {}", self.scripts)?;
        write!(f, "{:>9}{:>8}", "refusal", "all")?;
        (1..=CALLS).try_for_each(|call| write!(f, "{:>7}", format!("call{call}")))?;
        for (number, row) in self.outcomes.iter().enumerate() {
            write!(f, "\n{:>9}{:>8}", number, row.iter().sum::<usize>())?;
            row.iter().try_for_each(|count| write!(f, "{count:>7}"))?;
        }
        match self.numbers_missed().as_slice() {
            [] => writeln!(f, "\nevery refusal number was met"),
            missed => writeln!(f, "\nrefusal numbers (0 is taken) not met: {}", listed(missed)),
        }
    }
}

/// A call with its arguments in full.
pub fn describe_call(call: &Call) -> String {
    let signature = call.signature();
    let mut text = format!("call {} {}\n", call.number, signature.name);
    for ((name, _), argument) in signature.arguments.iter().zip(&call.arguments) {
        text += &describe_argument(name, argument);
    }
    text
}

pub fn describe_outcome(call: &Call, outcome: &Outcome) -> String {
    let mut text = format!("{} {}\n", outcome.number, outcome.value);
    let names = call.signature().arguments.iter().filter(|(_, kind)| kind.is_out());
    for ((name, _), buffer) in names.zip(&outcome.buffers) {
        text += &describe_argument(name, buffer);
    }
    text
}

/// The names of the parts in which two outcomes of a call differ.
pub fn differing_parts(call: &Call, expected: &Outcome, got: &Outcome) -> Vec<&'static str> {
    let names = call.signature().arguments.iter().filter(|(_, kind)| kind.is_out());
    let buffers = expected.buffers.iter().zip(&got.buffers);
    let differing = names.zip(buffers).filter(|(_, (one, other))| one != other);
    let number = (expected.number != got.number).then_some("number");
    let value = (expected.value != got.value).then_some("value");
    number
        .into_iter()
        .chain(value)
        .chain(differing.map(|(&(name, _), _)| name))
        .collect()
}

fn describe_argument(name: &str, argument: &Argument) -> String {
    match argument {
        Argument::Number(number) => format!("  {name} = {number}\n"),
        Argument::Bytes(bytes) => format!("  {name}, {} bytes: {}\n", bytes.len(), listed(bytes)),
        Argument::Words(words) => format!("  {name}, {} words: {}\n", words.len(), listed(words)),
    }
}

pub fn listed<T: ToString>(elements: &[T]) -> String {
    elements.iter().map(T::to_string).collect::<Vec<_>>().join(" ")
}
