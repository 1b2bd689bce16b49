//! Damage to papers: cut, a byte changed, bytes appended, a field changed; and envelopes written wrong.

use crate::envelope::{envelope_fields, name, Clause, Column, Envelope, Relation};
use crate::generate::envelopes::any_column;
use crate::random::Random;
use crate::reader::{bytes_of, Written};

/// Damages a paper of which only the bytes are known.
pub fn damaged_bytes(random: &mut Random, paper: &[u8]) -> Vec<u8> {
    let mut bytes = paper.to_vec();
    match random.weighted(&[3, 4, 2, 1]) {
        0 => bytes.truncate(random.below(paper.len().max(1))),
        1 => change_byte(random, &mut bytes),
        2 => {
            let more = random.between(1, 5) as usize;
            bytes.extend(random.bytes(more));
        }
        _ => {
            change_byte(random, &mut bytes);
            change_byte(random, &mut bytes);
        }
    }
    bytes
}

fn change_byte(random: &mut Random, bytes: &mut [u8]) {
    if bytes.is_empty() {
        return;
    }
    // The first bytes are the mark and the version, which deserve more than their share.
    let place = if random.chance(1, 5) {
        random.below(bytes.len().min(7))
    } else {
        random.below(bytes.len())
    };
    bytes[place] = match random.below(3) {
        0 => random.word() as u8,
        1 => bytes[place] ^ 1 << random.below(8),
        _ => bytes[place].wrapping_add(1),
    };
}

/// Damages a paper whose fields are known: one field gets a number near a limit.
pub fn damaged_fields(random: &mut Random, fields: &[Written]) -> Vec<u8> {
    let mut fields = fields.to_vec();
    let place = if random.chance(1, 6) {
        random.below(fields.len().min(4))
    } else {
        random.below(fields.len())
    };
    let field = &mut fields[place];
    let limits = [
        0, 1, 2, 7, 8, 9, 12, 13, 16, 17, 156, 157, 255, 256, 1_000_000, 1_000_001, 16_777_215, 16_777_216,
    ];
    field.value = match random.below(4) {
        0 => field.value.wrapping_add(1),
        1 => field.value.wrapping_sub(1),
        2 => random.pick(&limits),
        _ => random.word(),
    };
    match random.below(8) {
        // What is wrong is refused at once, also where the paper ends right behind it.
        0 | 1 => bytes_of(&fields[..=place]),
        2 => damaged_bytes(random, &bytes_of(&fields)),
        _ => bytes_of(&fields),
    }
}

/// An envelope's bytes, written from a structure that breaks one of the rules for it.
pub fn spoiled_envelope(random: &mut Random, sound: &Envelope) -> Vec<u8> {
    let mut envelope = sound.clone();
    match random.weighted(&[2, 5, 5, 1, 2, 3, 1]) {
        0 => spoil_clause(random, &mut envelope, true),
        1 => spoil_clause(random, &mut envelope, false),
        2 => unkeep_a_relation(random, &mut envelope),
        3 => too_many(random, &mut envelope),
        4 => spoil_distinct(random, &mut envelope),
        5 => return damaged_fields(random, &envelope_fields(&envelope)),
        _ => envelope.targets.clear(),
    }
    let mut bytes = bytes_of(&envelope_fields(&envelope));
    if random.chance(1, 10) {
        // Something left over comes before a relation without kept column.
        bytes.push(random.word() as u8);
    }
    bytes
}

/// A join of a column with itself, or of two columns that should be of two domains.
fn spoil_clause(random: &mut Random, envelope: &mut Envelope, with_itself: bool) {
    let left = any_column(random, envelope);
    let domain = envelope.column(left).domain;
    let apart = envelope
        .column_names()
        .into_iter()
        .filter(|&other| envelope.column(other).domain != domain);
    let apart: Vec<_> = apart.collect();
    let right = match apart.is_empty() {
        false if !with_itself => random.pick(&apart),
        _ => left,
    };
    let place = random.below(envelope.clauses.len() + 1);
    envelope.clauses.insert(place, Clause::Join { left, right });
}

/// Takes a relation out of all clauses and targets.
fn unkeep_a_relation(random: &mut Random, envelope: &mut Envelope) {
    let relation = random.below(envelope.relations.len());
    envelope
        .clauses
        .retain(|clause| clause.columns().iter().all(|column| column.relation != relation));
    envelope.targets.retain(|target| target.relation != relation);
    if envelope.targets.is_empty() {
        let other = random.below(envelope.relations.len());
        envelope.targets.push(name(other, 0));
    }
}

/// One thing more than the sizes allow, with all its bytes there.
fn too_many(random: &mut Random, envelope: &mut Envelope) {
    let target = any_column(random, envelope);
    let clause = Clause::Selection {
        column: target,
        value: 1,
    };
    let column = envelope.relations[0].columns[0].clone();
    match random.below(5) {
        0 => envelope.clauses.resize(13, clause),
        1 => envelope.targets.resize(17, target),
        2 => envelope.domains.resize(17, 1),
        3 => envelope.relations[0].columns.resize(9, column),
        _ => envelope.relations.resize(
            9,
            Relation {
                site: 0,
                rows: 0,
                columns: vec![empty_column()],
            },
        ),
    }
}

fn empty_column() -> Column {
    Column {
        domain: 0,
        width: 1,
        distinct: 0,
    }
}

/// A distinct count that its rows or its domain do not allow.
fn spoil_distinct(random: &mut Random, envelope: &mut Envelope) {
    let place = any_column(random, envelope);
    let domain = envelope.domain_size(place);
    let rows = envelope.relations[place.relation].rows;
    let distinct = random.pick(&[0, 1, rows.wrapping_add(1), domain.wrapping_add(1), u32::MAX]);
    envelope.relations[place.relation].columns[place.column].distinct = distinct;
}
