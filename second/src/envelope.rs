//! Envelopes: what they hold, reading them, and writing them for the generators.

use crate::reader::{bytes_of, mark_number, written, Reader, Written};
use crate::refusal::*;
use crate::sizes;

pub const MARK: [u8; 3] = *b"CPN";
pub const SELECTION: u32 = 1;
pub const JOIN: u32 = 2;

#[derive(Clone, Debug, PartialEq, Eq)]
pub struct Column {
    pub domain: usize,
    pub width: u32,
    pub distinct: u32,
}

#[derive(Clone, Debug, PartialEq, Eq)]
pub struct Relation {
    pub site: u32,
    pub rows: u32,
    pub columns: Vec<Column>,
}

/// R.A: a column by its relation and its place there.
#[derive(Clone, Copy, Debug, PartialEq, Eq, PartialOrd, Ord)]
pub struct ColumnName {
    pub relation: usize,
    pub column: usize,
}

#[derive(Clone, Copy, Debug, PartialEq, Eq)]
pub enum Clause {
    Selection { column: ColumnName, value: u32 },
    Join { left: ColumnName, right: ColumnName },
}

#[derive(Clone, Debug, PartialEq, Eq)]
pub struct Envelope {
    pub domains: Vec<u32>,
    pub relations: Vec<Relation>,
    pub clauses: Vec<Clause>,
    pub targets: Vec<ColumnName>,
}

pub fn name(relation: usize, column: usize) -> ColumnName {
    ColumnName { relation, column }
}

impl Clause {
    pub fn columns(&self) -> Vec<ColumnName> {
        match *self {
            Clause::Selection { column, .. } => vec![column],
            Clause::Join { left, right } => vec![left, right],
        }
    }
}

impl Envelope {
    pub fn column(&self, name: ColumnName) -> &Column {
        &self.relations[name.relation].columns[name.column]
    }

    pub fn domain_size(&self, name: ColumnName) -> u32 {
        self.domains[self.column(name).domain]
    }

    pub fn is_kept(&self, name: ColumnName) -> bool {
        self.targets.contains(&name) || self.clauses.iter().any(|clause| clause.columns().contains(&name))
    }

    /// The kept columns of a relation, rising.
    pub fn kept_columns(&self, relation: usize) -> Vec<usize> {
        let all = 0..self.relations[relation].columns.len();
        all.filter(|&column| self.is_kept(name(relation, column))).collect()
    }

    pub fn holds_a_relation(&self, site: u32) -> bool {
        self.relations.iter().any(|relation| relation.site == site)
    }

    /// The sites that hold a relation, rising.
    pub fn sites(&self) -> Vec<u32> {
        (0..=sizes::LAST_SITE)
            .filter(|&site| self.holds_a_relation(site))
            .collect()
    }

    pub fn column_names(&self) -> Vec<ColumnName> {
        let of = |(relation, it): (usize, &Relation)| (0..it.columns.len()).map(move |column| name(relation, column));
        self.relations.iter().enumerate().flat_map(of).collect()
    }
}

pub fn read_envelope(paper: &[u8]) -> Result<Envelope, Refusal> {
    let mut reader = Reader::new(paper);
    reader.head(MARK)?;
    let domains = read_domains(&mut reader)?;
    let relations = read_relations(&mut reader, &domains)?;
    let clauses = read_clauses(&mut reader, &relations)?;
    let targets = read_targets(&mut reader, &relations)?;
    reader.end()?;
    let envelope = Envelope {
        domains,
        relations,
        clauses,
        targets,
    };
    for relation in 0..envelope.relations.len() {
        demand(
            !envelope.kept_columns(relation).is_empty(),
            NO_KEPT_COLUMN,
            relation as u32,
        )?;
    }
    Ok(envelope)
}

fn read_domains(reader: &mut Reader) -> Result<Vec<u32>, Refusal> {
    let count = reader.number(1)?.within(1, sizes::DOMAINS)?;
    (0..count)
        .map(|_| reader.number(4)?.within(1, sizes::DOMAIN_SIZE))
        .collect()
}

fn read_relations(reader: &mut Reader, domains: &[u32]) -> Result<Vec<Relation>, Refusal> {
    let count = reader.number(1)?.within(1, sizes::RELATIONS)?;
    (0..count).map(|_| read_relation(reader, domains)).collect()
}

fn read_relation(reader: &mut Reader, domains: &[u32]) -> Result<Relation, Refusal> {
    let site = reader.number(1)?.within(0, sizes::LAST_SITE)?;
    let count = reader.number(1)?.within(1, sizes::COLUMNS)?;
    let rows = reader.number(4)?.within(0, sizes::ESTIMATED_ROWS)?;
    let columns = (0..count)
        .map(|_| read_column_profile(reader, domains, rows))
        .collect::<Result<_, _>>()?;
    Ok(Relation { site, rows, columns })
}

fn read_column_profile(reader: &mut Reader, domains: &[u32], rows: u32) -> Result<Column, Refusal> {
    let domain = reader.number(1)?.naming(domains.len())?;
    let width = reader.number(1)?.within(1, sizes::WIDTH)?;
    // Distinct is 0 exactly when there are no rows, so its lowest value is 1 as soon as there is one.
    let distinct = reader.number(4)?.within(rows.min(1), rows.min(domains[domain]))?;
    Ok(Column {
        domain,
        width,
        distinct,
    })
}

/// A column named by relation and place, each judged as it is read.
pub fn read_column_name(reader: &mut Reader, relations: &[Relation]) -> Result<ColumnName, Refusal> {
    let relation = reader.number(1)?.naming(relations.len())?;
    let column = reader.number(1)?.naming(relations[relation].columns.len())?;
    Ok(ColumnName { relation, column })
}

fn read_clauses(reader: &mut Reader, relations: &[Relation]) -> Result<Vec<Clause>, Refusal> {
    let count = reader.number(1)?.within(0, sizes::CLAUSES)?;
    (0..count).map(|_| read_clause(reader, relations)).collect()
}

fn read_clause(reader: &mut Reader, relations: &[Relation]) -> Result<Clause, Refusal> {
    let start = reader.position();
    let kind = reader.number(1)?.within(SELECTION, JOIN)?;
    let left = read_column_name(reader, relations)?;
    if kind == SELECTION {
        let value = reader.number(4)?.value;
        return Ok(Clause::Selection { column: left, value });
    }
    let right = read_column_name(reader, relations)?;
    let domain = |name: ColumnName| relations[name.relation].columns[name.column].domain;
    demand(domain(left) == domain(right), TWO_DOMAINS, start)?;
    demand(left != right, WITH_ITSELF, start)?;
    Ok(Clause::Join { left, right })
}

fn read_targets(reader: &mut Reader, relations: &[Relation]) -> Result<Vec<ColumnName>, Refusal> {
    let count = reader.number(1)?.within(1, sizes::TARGETS)?;
    (0..count).map(|_| read_column_name(reader, relations)).collect()
}

/// The envelope as a list of fields. Nothing is judged here, so that generators can write wrong papers.
pub fn envelope_fields(envelope: &Envelope) -> Vec<Written> {
    let mut fields = vec![written(mark_number(MARK), 3), written(1, 2)];
    fields.push(written(envelope.domains.len() as u32, 1));
    fields.extend(envelope.domains.iter().map(|&size| written(size, 4)));
    fields.push(written(envelope.relations.len() as u32, 1));
    envelope
        .relations
        .iter()
        .for_each(|relation| push_relation(&mut fields, relation));
    fields.push(written(envelope.clauses.len() as u32, 1));
    envelope
        .clauses
        .iter()
        .for_each(|clause| push_clause(&mut fields, clause));
    fields.push(written(envelope.targets.len() as u32, 1));
    envelope
        .targets
        .iter()
        .for_each(|&target| push_column_name(&mut fields, target));
    fields
}

fn push_relation(fields: &mut Vec<Written>, relation: &Relation) {
    fields.push(written(relation.site, 1));
    fields.push(written(relation.columns.len() as u32, 1));
    fields.push(written(relation.rows, 4));
    for column in &relation.columns {
        fields.push(written(column.domain as u32, 1));
        fields.push(written(column.width, 1));
        fields.push(written(column.distinct, 4));
    }
}

fn push_clause(fields: &mut Vec<Written>, clause: &Clause) {
    match *clause {
        Clause::Selection { column, value } => {
            fields.push(written(SELECTION, 1));
            push_column_name(fields, column);
            fields.push(written(value, 4));
        }
        Clause::Join { left, right } => {
            fields.push(written(JOIN, 1));
            push_column_name(fields, left);
            push_column_name(fields, right);
        }
    }
}

pub fn push_column_name(fields: &mut Vec<Written>, name: ColumnName) {
    fields.push(written(name.relation as u32, 1));
    fields.push(written(name.column as u32, 1));
}

pub fn write_envelope(envelope: &Envelope) -> Vec<u8> {
    bytes_of(&envelope_fields(envelope))
}
