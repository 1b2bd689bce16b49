//! The planner, and the listing that the program `plan` prints.

use crate::envelope::{read_envelope, Envelope};
use crate::estimates::{estimate, Estimate, Profile};
use crate::paths::Paths;
use crate::program::{Program, Step};
use std::cmp::Reverse;

pub struct Plan {
    pub program: Program,
    pub estimate: Estimate,
    pub local_total: u64,
    pub history: History,
}

/// How the plan came about; the comparison counts these to show that its envelopes are interesting.
#[derive(Clone, Copy, Debug, Default, PartialEq, Eq)]
pub struct History {
    pub greedy: usize,
    pub ties: usize,
    pub dropped: usize,
    pub fell_back: bool,
}

pub fn plan(envelope: &Envelope) -> Plan {
    let paths = Paths::of(envelope);
    let local = Profile::local(envelope, &paths);
    let (greedy, ties) = greedy_steps(envelope, &paths, &local);
    let reduced = greedy
        .iter()
        .fold(local.clone(), |profile, &step| profile.after_step(envelope, step));
    let site = reduced.cheapest_site(envelope);
    let steps = without_dropped(envelope, &paths, &greedy, site);
    let chosen = estimate(envelope, &paths, &steps, site);
    let local_site = local.cheapest_site(envelope);
    let local_only = estimate(envelope, &paths, &[], local_site);
    let local_total = local_only.total;
    let mut history = History {
        greedy: greedy.len(),
        ties,
        dropped: greedy.len() - steps.len(),
        fell_back: false,
    };
    if chosen.total < local_total {
        return Plan {
            program: Program { site, steps },
            estimate: chosen,
            local_total,
            history,
        };
    }
    history.fell_back = true;
    let program = Program {
        site: local_site,
        steps: Vec::new(),
    };
    Plan {
        program,
        estimate: local_only,
        local_total,
        history,
    }
}

/// Point 2: the steps chosen again and again, and how often the order for ties decided.
fn greedy_steps(envelope: &Envelope, paths: &Paths, local: &Profile) -> (Vec<Step>, usize) {
    let mut unused = paths.legal_steps();
    let mut profile = local.clone();
    let mut chosen = Vec::new();
    let mut ties = 0;
    while let Some((step, tied)) = best_step(envelope, &profile, &unused) {
        unused.retain(|&other| other != step);
        profile = profile.after_step(envelope, step);
        chosen.push(step);
        ties += usize::from(tied);
    }
    (chosen, ties)
}

/// The unused step of greatest benefit minus cost among those with benefit above cost. The steps stand
/// in the order for ties, so the first of the greatest is the one.
fn best_step(envelope: &Envelope, profile: &Profile, unused: &[Step]) -> Option<(Step, bool)> {
    let profit = |&step: &Step| {
        let (benefit, cost) = (profile.benefit(envelope, step), profile.cost(envelope, step));
        (benefit > cost).then(|| benefit - cost)
    };
    let greatest = unused.iter().filter_map(profit).max()?;
    let mut best = unused.iter().filter(|step| profit(step) == Some(greatest));
    let first = *best.next()?;
    Some((first, best.next().is_some()))
}

/// Point 4: each step whose left relation is at the site is tried once, dearest first by the costs before
/// any drop, and dropped if what remains then totals strictly less.
fn without_dropped(envelope: &Envelope, paths: &Paths, greedy: &[Step], site: u32) -> Vec<Step> {
    let before = estimate(envelope, paths, greedy, site);
    let all = 0..greedy.len();
    let at_site = all.filter(|&place| envelope.relations[greedy[place].left.relation].site == site);
    let mut candidates: Vec<usize> = at_site.collect();
    candidates.sort_by_key(|&place| (Reverse(before.steps[place].cost), place));
    let mut places: Vec<usize> = (0..greedy.len()).collect();
    let mut total = before.total;
    for candidate in candidates {
        let rest: Vec<usize> = places.iter().copied().filter(|&place| place != candidate).collect();
        let rest_total = estimate(envelope, paths, &steps_at(greedy, &rest), site).total;
        if rest_total < total {
            (places, total) = (rest, rest_total);
        }
    }
    steps_at(greedy, &places)
}

fn steps_at(steps: &[Step], places: &[usize]) -> Vec<Step> {
    places.iter().map(|&place| steps[place]).collect()
}

/// What the program `plan` prints for an envelope's bytes.
pub fn listing(paper: &[u8]) -> String {
    match read_envelope(paper) {
        Err(refusal) => format!("refused {} {}\n", refusal.number, refusal.with),
        Ok(envelope) => plan_listing(&plan(&envelope)),
    }
}

fn plan_listing(plan: &Plan) -> String {
    let mut lines = String::from("left column right column benefit cost\n");
    for (step, estimate) in plan.program.steps.iter().zip(&plan.estimate.steps) {
        lines += &format!(
            "{} {} {} {} {} {}\n",
            step.left.relation,
            step.left.column,
            step.right.relation,
            step.right.column,
            estimate.benefit,
            estimate.cost
        );
    }
    lines
        + &format!(
            "site {} assembly {} total {} local {}\n",
            plan.program.site, plan.estimate.assembly, plan.estimate.total, plan.local_total
        )
}
