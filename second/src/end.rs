//! The station end: opening, making messages, receiving them.

use crate::program::{Papers, Step};
use crate::refusal::*;
use crate::semijoin::{keep_only, kept_values, open_marks};
use crate::sizes;
use crate::tables::Tables;

/// Word 1 of a row message is this plus the relation; below stand the step numbers.
pub const ROW_MESSAGE: u32 = 256;
pub const HEADER_WORDS: usize = 3;

/// What an end remembers between calls, beside its papers. Places behind the last relation mean nothing.
#[derive(Clone, Debug, PartialEq, Eq)]
pub struct End {
    pub site: u32,
    pub run: u32,
    /// Used words of the store.
    pub used: u32,
    /// For each relation, how many of its steps have been applied here.
    pub applied: [u32; sizes::RELATIONS as usize],
    /// For each relation, whether its row message has arrived here.
    pub arrived: [bool; sizes::RELATIONS as usize],
}

impl End {
    /// No relation may have more applied steps than the program has for it.
    pub fn check_applied(&self, papers: &Papers) -> Result<(), Refusal> {
        for relation in 0..papers.envelope.relations.len() {
            let steps = papers.program.steps_of(relation).len();
            demand(self.applied[relation] as usize <= steps, BEYOND_LIMIT, 0)?;
        }
        Ok(())
    }

    fn is_here(&self, papers: &Papers, relation: usize) -> bool {
        papers.envelope.relations[relation].site == self.site
    }
}

pub fn check_marks(tables: &Tables, marks: &[u8]) -> Result<(), Refusal> {
    demand(marks.len() >= tables.row_count(), TOO_SHORT, 0)
}

pub fn open(papers: &Papers, site: u32, run: u32, tables: &[u32], marks: &mut [u8]) -> Result<End, Refusal> {
    let tables = Tables::read(&papers.envelope, tables)?;
    demand(site <= sizes::LAST_SITE, BEYOND_LIMIT, 0)?;
    check_marks(&tables, marks)?;
    let end = End {
        site,
        run,
        used: 0,
        applied: [0; 8],
        arrived: [false; 8],
    };
    open_marks(&papers.paths, &tables, |relation| end.is_here(papers, relation), marks);
    Ok(end)
}

pub fn make_values(
    papers: &Papers,
    end: &End,
    tables: &[u32],
    marks: &[u8],
    step: u32,
    room: usize,
) -> Result<Vec<u32>, Refusal> {
    let tables = Tables::read(&papers.envelope, tables)?;
    check_marks(&tables, marks)?;
    let found = papers
        .program
        .steps
        .get(step as usize)
        .filter(|found| end.is_here(papers, found.right.relation));
    let Some(&Step { right, .. }) = found else {
        return refuse(NOT_OURS, 0);
    };
    all_applied(papers, end, right.relation, step as usize)?;
    let values = kept_values(&tables, marks, right);
    let message = [end.run, step, values.len() as u32].into_iter().chain(values).collect();
    fitting(message, room)
}

pub fn make_rows(
    papers: &Papers,
    end: &End,
    tables: &[u32],
    marks: &[u8],
    relation: u32,
    room: usize,
) -> Result<Vec<u32>, Refusal> {
    let tables = Tables::read(&papers.envelope, tables)?;
    check_marks(&tables, marks)?;
    let number = relation as usize;
    let exists = number < papers.envelope.relations.len();
    demand(exists && end.is_here(papers, number), NOT_OURS, 0)?;
    all_applied(papers, end, number, papers.program.steps.len())?;
    let kept = papers.envelope.kept_columns(number);
    let rows: Vec<_> = tables.rows(number).filter(|&(mark, _)| marks[mark] != 0).collect();
    let mut message = vec![end.run, ROW_MESSAGE + relation, rows.len() as u32];
    for (_, row) in rows {
        message.extend(kept.iter().map(|&column| row[column]));
    }
    fitting(message, room)
}

/// All steps before `before` that reduce the relation must have been applied; else 12 with the first missing.
fn all_applied(papers: &Papers, end: &End, relation: usize, before: usize) -> Result<(), Refusal> {
    let steps = papers.program.steps_of(relation);
    match steps.get(end.applied[relation] as usize) {
        Some(&missing) if missing < before => refuse(WAITING, missing as u32),
        _ => Ok(()),
    }
}

fn fitting(words: Vec<u32>, room: usize) -> Result<Vec<u32>, Refusal> {
    demand(words.len() <= room, TOO_SHORT, 0)?;
    Ok(words)
}

pub fn receive(
    papers: &Papers,
    end: &mut End,
    tables: &[u32],
    marks: &mut [u8],
    store: &mut [u32],
    message: &[u32],
) -> Result<(), Refusal> {
    let tables = Tables::read(&papers.envelope, tables)?;
    check_marks(&tables, marks)?;
    demand(message.len() >= HEADER_WORDS, ENDS_INSIDE, 0)?;
    demand(message[0] == end.run, OTHER_RUN, 0)?;
    let kind = message[1];
    if let Some(&step) = papers.program.steps.get(kind as usize) {
        demand(end.is_here(papers, step.left.relation), NOT_OURS, 0)?;
        return receive_values(papers, end, &tables, marks, step, message);
    }
    let relation = kind.wrapping_sub(ROW_MESSAGE) as usize;
    demand(
        kind >= ROW_MESSAGE && relation < papers.envelope.relations.len(),
        NOT_OURS,
        0,
    )?;
    demand(end.site == papers.program.site, NOT_OURS, 0)?;
    receive_rows(papers, end, store, relation, message)
}

fn receive_values(
    papers: &Papers,
    end: &mut End,
    tables: &Tables,
    marks: &mut [u8],
    step: Step,
    message: &[u32],
) -> Result<(), Refusal> {
    let values = &message[HEADER_WORDS..];
    demand(message_fits_count(message, 1), NOT_SOUND, 0)?;
    demand(values.windows(2).all(|pair| pair[0] < pair[1]), NOT_SOUND, 0)?;
    let relation = step.left.relation;
    let steps = papers.program.steps_of(relation);
    // The message names its step by number; a step named twice in the program has two numbers.
    let place = steps
        .iter()
        .position(|&number| number as u32 == message[1])
        .expect("a step of its left relation");
    let applied = end.applied[relation] as usize;
    demand(place >= applied, ALREADY, 0)?;
    demand(place <= applied, EARLIER_MISSING, 0)?;
    keep_only(tables, marks, step.left, &values.iter().copied().collect());
    end.applied[relation] += 1;
    Ok(())
}

fn receive_rows(
    papers: &Papers,
    end: &mut End,
    store: &mut [u32],
    relation: usize,
    message: &[u32],
) -> Result<(), Refusal> {
    let kept = papers.envelope.kept_columns(relation).len();
    demand(message_fits_count(message, kept), NOT_SOUND, 0)?;
    demand(!end.arrived[relation], ALREADY, 0)?;
    let free = store.get_mut(end.used as usize..).unwrap_or_default();
    // A store that its used words run past has no room, not even for nothing; a message is never empty.
    demand(message.len() <= free.len(), TOO_SHORT, 0)?;
    free[..message.len()].copy_from_slice(message);
    end.used += message.len() as u32;
    end.arrived[relation] = true;
    Ok(())
}

/// Count at most 4,096, and exactly as many words behind the header as the count says.
fn message_fits_count(message: &[u32], words_each: usize) -> bool {
    let count = message[2];
    count <= sizes::TRUE_ROWS && message.len() == HEADER_WORDS + count as usize * words_each
}
