//! The eleven calls on slices and numbers alone. A call is taken with a length (0 where it writes none), or
//! refused, and then it has written nothing.

use crate::answer;
use crate::end::{self, End};
use crate::envelope;
use crate::estimates::estimate as estimate_program;
use crate::planner;
use crate::program::{read_papers, write_program, Papers};
use crate::refusal::*;
use crate::semijoin;
use crate::tables::Tables;

pub type Taken = Result<u32, Refusal>;

/// `state` is site, run, used, applied 0 to 7, arrived 0 to 7.
pub const STATE_WORDS: usize = 19;
pub const SITE: usize = 0;
pub const RUN: usize = 1;
pub const USED: usize = 2;
pub const APPLIED: usize = 3;
pub const ARRIVED: usize = 11;

pub fn read_envelope(envelope: &[u8]) -> Taken {
    envelope::read_envelope(envelope)?;
    Ok(0)
}

pub fn read_program(envelope: &[u8], program: &[u8]) -> Taken {
    read_papers(envelope, program)?;
    Ok(0)
}

pub fn plan(envelope: &[u8], program: &mut [u8]) -> Taken {
    let plan = planner::plan(&envelope::read_envelope(envelope)?);
    write_front(&write_program(&plan.program), program)
}

pub fn run_in_one_place(envelope: &[u8], program: &[u8], tables: &[u32], marks: &mut [u8]) -> Taken {
    let papers = read_papers(envelope, program)?;
    let tables = Tables::read(&papers.envelope, tables)?;
    end::check_marks(&tables, marks)?;
    semijoin::run_in_one_place(&papers, &tables, marks);
    Ok(0)
}

pub fn answer(envelope: &[u8], tables: &[u32], out: &mut [u32]) -> Taken {
    let envelope = envelope::read_envelope(envelope)?;
    write_front(&answer::answer_on_tables(&envelope, tables, out.len())?, out)
}

pub fn open(
    envelope: &[u8],
    program: &[u8],
    site: u32,
    run: u32,
    tables: &[u32],
    marks: &mut [u8],
    state: &mut [u32],
) -> Taken {
    let papers = read_papers(envelope, program)?;
    let mut opened = marks.to_vec();
    let end = end::open(&papers, site, run, tables, &mut opened)?;
    demand(state.len() >= STATE_WORDS, TOO_SHORT, 0)?;
    marks.copy_from_slice(&opened);
    // What stood behind the last relation is nobody's arrival: a new end has none, or later calls refuse it.
    state[ARRIVED..STATE_WORDS].fill(0);
    write_state(&papers, &end, state);
    Ok(0)
}

pub fn make_values(
    envelope: &[u8],
    program: &[u8],
    state: &[u32],
    tables: &[u32],
    marks: &[u8],
    step: u32,
    message: &mut [u32],
) -> Taken {
    let (papers, end) = read_end(envelope, program, state)?;
    write_front(
        &end::make_values(&papers, &end, tables, marks, step, message.len())?,
        message,
    )
}

pub fn make_rows(
    envelope: &[u8],
    program: &[u8],
    state: &[u32],
    tables: &[u32],
    marks: &[u8],
    relation: u32,
    message: &mut [u32],
) -> Taken {
    let (papers, end) = read_end(envelope, program, state)?;
    write_front(
        &end::make_rows(&papers, &end, tables, marks, relation, message.len())?,
        message,
    )
}

pub fn receive(
    envelope: &[u8],
    program: &[u8],
    state: &mut [u32],
    tables: &[u32],
    marks: &mut [u8],
    store: &mut [u32],
    message: &[u32],
) -> Taken {
    let (papers, mut end) = read_end(envelope, program, state)?;
    end::receive(&papers, &mut end, tables, marks, store, message)?;
    write_state(&papers, &end, state);
    Ok(0)
}

pub fn answer_at_end(envelope: &[u8], program: &[u8], state: &[u32], store: &[u32], out: &mut [u32]) -> Taken {
    let (papers, end) = read_end(envelope, program, state)?;
    write_front(&answer::answer_at_end(&papers, &end, store, out.len())?, out)
}

pub fn estimate(envelope: &[u8], program: &[u8], out: &mut [u32]) -> Taken {
    let papers = read_papers(envelope, program)?;
    let program = &papers.program;
    let estimate = estimate_program(&papers.envelope, &papers.paths, &program.steps, program.site);
    let mut numbers: Vec<u64> = estimate
        .steps
        .iter()
        .flat_map(|step| [step.benefit, step.cost])
        .collect();
    numbers.extend([estimate.assembly, estimate.total]);
    let words: Vec<u32> = numbers
        .iter()
        .flat_map(|&number| [number as u32, (number >> 32) as u32])
        .collect();
    write_front(&words, out)
}

/// The end inside a state: 11 if the state is short, then the papers, then what the state's words may be.
fn read_end(envelope: &[u8], program: &[u8], state: &[u32]) -> Result<(Papers, End), Refusal> {
    demand(state.len() >= STATE_WORDS, TOO_SHORT, 0)?;
    let papers = read_papers(envelope, program)?;
    let arrived = &state[ARRIVED..STATE_WORDS];
    demand(arrived.iter().all(|&word| word <= 1), BEYOND_LIMIT, 0)?;
    let end = End {
        site: state[SITE],
        run: state[RUN],
        used: state[USED],
        applied: std::array::from_fn(|relation| state[APPLIED + relation]),
        arrived: std::array::from_fn(|relation| arrived[relation] == 1),
    };
    end.check_applied(&papers)?;
    Ok((papers, end))
}

/// Writes the end into a state. Words behind the envelope's last relation are left as they were.
fn write_state(papers: &Papers, end: &End, state: &mut [u32]) {
    state[SITE] = end.site;
    state[RUN] = end.run;
    state[USED] = end.used;
    for relation in 0..papers.envelope.relations.len() {
        state[APPLIED + relation] = end.applied[relation];
        state[ARRIVED + relation] = u32::from(end.arrived[relation]);
    }
}

/// Writes at the front of the lent buffer, leaves the rest, and gives the length written.
fn write_front<T: Copy>(written: &[T], lent: &mut [T]) -> Taken {
    demand(written.len() <= lent.len(), TOO_SHORT, 0)?;
    lent[..written.len()].copy_from_slice(written);
    Ok(written.len() as u32)
}
