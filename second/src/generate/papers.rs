//! Calls on papers alone: reading, planning and estimating, on sound and damaged ones.

use crate::calls::{Argument, Call, ESTIMATE, PLAN, READ_ENVELOPE, READ_PROGRAM};
use crate::envelope::{write_envelope, Envelope};
use crate::generate::damage::{damaged_bytes, damaged_fields, spoiled_envelope};
use crate::generate::scene::{with_room, with_short_room};
use crate::generate::{envelopes, programs, Record};
use crate::program::{program_fields, write_program};
use crate::random::Random;
use Argument::{Bytes, Words};

pub fn read_envelope(envelope: &[u8]) -> Call {
    Call {
        number: READ_ENVELOPE,
        arguments: vec![Bytes(envelope.to_vec())],
    }
}

pub fn read_program(envelope: &[u8], program: &[u8]) -> Call {
    Call {
        number: READ_PROGRAM,
        arguments: vec![Bytes(envelope.to_vec()), Bytes(program.to_vec())],
    }
}

/// A plan into a room still to be lent.
pub fn plan(envelope: &[u8]) -> Call {
    Call {
        number: PLAN,
        arguments: vec![Bytes(envelope.to_vec()), Bytes(Vec::new())],
    }
}

/// An estimate into a room still to be lent.
pub fn estimate(envelope: &[u8], program: &[u8]) -> Call {
    let arguments = vec![Bytes(envelope.to_vec()), Bytes(program.to_vec()), Words(Vec::new())];
    Call {
        number: ESTIMATE,
        arguments,
    }
}

/// One envelope, sound and damaged, with programs for it, sound and damaged.
pub fn some_papers(random: &mut Random, record: &mut Record) {
    let envelope = envelopes::envelope(random);
    let bytes = write_envelope(&envelope);
    record.ask(read_envelope(&bytes));
    let call = lent(random, plan(&bytes));
    record.ask(call);
    for _ in 0..2 {
        record.ask(read_envelope(&spoiled_envelope(random, &envelope)));
        record.ask(read_envelope(&damaged_bytes(random, &bytes)));
    }
    let spoiled = spoiled_envelope(random, &envelope);
    let call = lent(random, plan(&spoiled));
    record.ask(call);
    some_programs(random, record, &envelope, &bytes);
}

fn some_programs(random: &mut Random, record: &mut Record, envelope: &Envelope, bytes: &[u8]) {
    for _ in 0..2 {
        let sound = write_program(&programs::program(random, envelope));
        record.ask(read_program(bytes, &sound));
        let call = lent(random, estimate(bytes, &sound));
        record.ask(call);
        let spoiled = write_program(&programs::spoiled_program(random, envelope));
        record.ask(read_program(bytes, &spoiled));
        record.ask(read_program(bytes, &damaged_bytes(random, &sound)));
    }
    let program = programs::program(random, envelope);
    record.ask(read_program(bytes, &damaged_fields(random, &program_fields(&program))));
    // Both papers damaged: the envelope's refusal comes first.
    let (envelope, program) = (
        damaged_bytes(random, bytes),
        damaged_bytes(random, &write_program(&program)),
    );
    record.ask(read_program(&envelope, &program));
    let call = lent(random, estimate(&envelope, &program));
    record.ask(call);
}

fn lent(random: &mut Random, call: Call) -> Call {
    if random.chance(1, 4) {
        with_short_room(random, call)
    } else {
        with_room(random, call)
    }
}

/// One envelope cut at every position.
pub fn cut_envelope(random: &mut Random, record: &mut Record) {
    let bytes = write_envelope(&envelopes::envelope_for_tables(random));
    for length in 0..bytes.len() {
        record.ask(read_envelope(&bytes[..length]));
    }
}

/// One program cut at every position.
pub fn cut_program(random: &mut Random, record: &mut Record) {
    let envelope = envelopes::envelope_for_tables(random);
    let program = write_program(&programs::program(random, &envelope));
    let bytes = write_envelope(&envelope);
    for length in 0..program.len().min(80) {
        record.ask(read_program(&bytes, &program[..length]));
    }
}
