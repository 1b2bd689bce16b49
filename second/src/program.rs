//! Step programs: reading them against an envelope, and writing them.

use crate::envelope::{push_column_name, read_column_name, read_envelope, ColumnName, Envelope};
use crate::paths::Paths;
use crate::reader::{bytes_of, mark_number, written, Reader, Written};
use crate::refusal::*;
use crate::sizes;

pub const MARK: [u8; 3] = *b"SJP";

/// R<A=B]S: left is R.A, right is S.B. The order of fields is the paper's order for ties.
#[derive(Clone, Copy, Debug, PartialEq, Eq, PartialOrd, Ord)]
pub struct Step {
    pub left: ColumnName,
    pub right: ColumnName,
}

#[derive(Clone, Debug, PartialEq, Eq)]
pub struct Program {
    pub site: u32,
    pub steps: Vec<Step>,
}

impl Program {
    /// The numbers of the steps that reduce a relation, in program order.
    pub fn steps_of(&self, relation: usize) -> Vec<usize> {
        let all = 0..self.steps.len();
        all.filter(|&step| self.steps[step].left.relation == relation).collect()
    }
}

/// An accepted envelope with an accepted program for it.
pub struct Papers {
    pub envelope: Envelope,
    pub paths: Paths,
    pub program: Program,
}

/// The envelope is judged first, also where only the program is damaged.
pub fn read_papers(envelope: &[u8], program: &[u8]) -> Result<Papers, Refusal> {
    let envelope = read_envelope(envelope)?;
    let paths = Paths::of(&envelope);
    let program = read_program(&envelope, &paths, program)?;
    Ok(Papers {
        envelope,
        paths,
        program,
    })
}

pub fn read_program(envelope: &Envelope, paths: &Paths, paper: &[u8]) -> Result<Program, Refusal> {
    let mut reader = Reader::new(paper);
    reader.head(MARK)?;
    let site = reader.number(1)?;
    demand(envelope.holds_a_relation(site.value), BEYOND_LIMIT, site.start)?;
    let count = reader.number(1)?.within(0, sizes::STEPS)?;
    let steps = (0..count)
        .map(|number| read_step(&mut reader, envelope, paths, number))
        .collect::<Result<_, _>>()?;
    reader.end()?;
    Ok(Program {
        site: site.value,
        steps,
    })
}

fn read_step(reader: &mut Reader, envelope: &Envelope, paths: &Paths, number: u32) -> Result<Step, Refusal> {
    let left = read_column_name(reader, &envelope.relations)?;
    let right = read_column_name(reader, &envelope.relations)?;
    let step = Step { left, right };
    demand(paths.is_legal(step), NOT_LEGAL, number)?;
    Ok(step)
}

/// The program as a list of fields. Nothing is judged here, so that generators can write wrong papers.
pub fn program_fields(program: &Program) -> Vec<Written> {
    let mut fields = vec![written(mark_number(MARK), 3), written(1, 2)];
    fields.push(written(program.site, 1));
    fields.push(written(program.steps.len() as u32, 1));
    for step in &program.steps {
        push_column_name(&mut fields, step.left);
        push_column_name(&mut fields, step.right);
    }
    fields
}

pub fn write_program(program: &Program) -> Vec<u8> {
    bytes_of(&program_fields(program))
}
