//! Tables as words: a row count per relation, then the rows, relation by relation, all columns.

use crate::envelope::Envelope;
use crate::refusal::*;
use crate::sizes;

pub struct Tables<'a> {
    relations: Vec<Table<'a>>,
}

struct Table<'a> {
    columns: usize,
    words: &'a [u32],
    /// The place of this relation's first row among the marks.
    first_mark: usize,
}

impl<'a> Tables<'a> {
    /// The tables, if they are of the envelope's shape and within the sizes; else 10.
    pub fn read(envelope: &Envelope, words: &'a [u32]) -> Result<Tables<'a>, Refusal> {
        let relations = envelope.relations.len();
        demand(
            relations <= words.len() && words.len() <= sizes::TABLE_WORDS,
            WRONG_SHAPE,
            0,
        )?;
        let (counts, mut rest) = words.split_at(relations);
        let mut tables = Tables { relations: Vec::new() };
        for (relation, &count) in envelope.relations.iter().zip(counts) {
            let columns = relation.columns.len();
            demand(count <= sizes::TRUE_ROWS, WRONG_SHAPE, 0)?;
            demand(count as usize * columns <= rest.len(), WRONG_SHAPE, 0)?;
            let (own, behind) = rest.split_at(count as usize * columns);
            let first_mark = tables.row_count();
            tables.relations.push(Table {
                columns,
                words: own,
                first_mark,
            });
            rest = behind;
        }
        demand(rest.is_empty(), WRONG_SHAPE, 0)?;
        Ok(tables)
    }

    /// The rows of a relation, each with the place of its mark.
    pub fn rows(&self, relation: usize) -> impl Iterator<Item = (usize, &'a [u32])> {
        let table = &self.relations[relation];
        (table.first_mark..).zip(table.words.chunks(table.columns))
    }

    /// All true rows, which is how many marks an end needs.
    pub fn row_count(&self) -> usize {
        self.relations
            .iter()
            .map(|table| table.words.len() / table.columns)
            .sum()
    }

    pub fn relation_count(&self) -> usize {
        self.relations.len()
    }
}
