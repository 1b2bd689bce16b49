//! The store of the assembly site, read back when the answer is asked: exactly one sound row message of
//! this run for each relation marked as arrived, in any order.

use crate::end::{End, HEADER_WORDS, ROW_MESSAGE};
use crate::program::Papers;
use crate::refusal::*;
use crate::sizes;

/// Per relation the words of its rows, kept columns only, or nothing where no message has arrived.
pub type Held<'a> = Vec<Option<&'a [u32]>>;

pub fn read_store<'a>(papers: &Papers, end: &End, store: &'a [u32]) -> Result<Held<'a>, Refusal> {
    demand(end.used as usize <= store.len(), NOT_SOUND, 0)?;
    let mut held: Held = vec![None; papers.envelope.relations.len()];
    let mut rest = &store[..end.used as usize];
    while !rest.is_empty() {
        let (relation, rows, behind) = first_message(papers, end, rest)?;
        demand(end.arrived[relation] && held[relation].is_none(), NOT_SOUND, 0)?;
        held[relation] = Some(rows);
        rest = behind;
    }
    for (relation, rows) in held.iter().enumerate() {
        demand(end.arrived[relation] == rows.is_some(), NOT_SOUND, 0)?;
    }
    Ok(held)
}

/// The row message at the front: its relation, its rows' words, and what stands behind it.
fn first_message<'a>(papers: &Papers, end: &End, words: &'a [u32]) -> Result<(usize, &'a [u32], &'a [u32]), Refusal> {
    demand(words.len() >= HEADER_WORDS && words[0] == end.run, NOT_SOUND, 0)?;
    let relation = words[1].wrapping_sub(ROW_MESSAGE) as usize;
    demand(relation < papers.envelope.relations.len(), NOT_SOUND, 0)?;
    let (count, behind) = (words[2], &words[HEADER_WORDS..]);
    demand(count <= sizes::TRUE_ROWS, NOT_SOUND, 0)?;
    let length = count as usize * papers.envelope.kept_columns(relation).len();
    demand(length <= behind.len(), NOT_SOUND, 0)?;
    let (rows, rest) = behind.split_at(length);
    Ok((relation, rows, rest))
}
