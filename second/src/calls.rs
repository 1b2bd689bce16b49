//! A call as a value: its number and its arguments; and its outcome, a pure function of these.

use crate::boundary;
use crate::refusal::Refusal;

#[derive(Clone, Debug, PartialEq, Eq)]
pub enum Argument {
    Number(u32),
    Bytes(Vec<u8>),
    Words(Vec<u32>),
}

#[derive(Clone, Copy, Debug, PartialEq, Eq)]
pub enum Kind {
    Number,
    Bytes,
    Words,
    /// Lent for writing: part of the outcome.
    BytesOut,
    WordsOut,
}

impl Kind {
    pub fn is_out(self) -> bool {
        matches!(self, Kind::BytesOut | Kind::WordsOut)
    }

    pub fn is_bytes(self) -> bool {
        matches!(self, Kind::Bytes | Kind::BytesOut)
    }
}

pub struct Signature {
    pub name: &'static str,
    pub arguments: &'static [(&'static str, Kind)],
}

use Argument::{Bytes as B, Number as N, Words as W};
use Kind::{Bytes, BytesOut, Number, Words, WordsOut};

/// The calls in order of number, from 1.
pub const SIGNATURES: [Signature; 11] = [
    Signature {
        name: "read_envelope",
        arguments: &[("envelope", Bytes)],
    },
    Signature {
        name: "read_program",
        arguments: &[("envelope", Bytes), ("program", Bytes)],
    },
    Signature {
        name: "plan",
        arguments: &[("envelope", Bytes), ("room", BytesOut)],
    },
    Signature {
        name: "run_in_one_place",
        arguments: &[
            ("envelope", Bytes),
            ("program", Bytes),
            ("tables", Words),
            ("marks", BytesOut),
        ],
    },
    Signature {
        name: "answer",
        arguments: &[("envelope", Bytes), ("tables", Words), ("room", WordsOut)],
    },
    Signature {
        name: "open",
        arguments: &[
            ("envelope", Bytes),
            ("program", Bytes),
            ("site", Number),
            ("run", Number),
            ("tables", Words),
            ("marks", BytesOut),
            ("state", WordsOut),
        ],
    },
    Signature {
        name: "make_values",
        arguments: &[
            ("envelope", Bytes),
            ("program", Bytes),
            ("state", Words),
            ("tables", Words),
            ("marks", Bytes),
            ("step", Number),
            ("room", WordsOut),
        ],
    },
    Signature {
        name: "make_rows",
        arguments: &[
            ("envelope", Bytes),
            ("program", Bytes),
            ("state", Words),
            ("tables", Words),
            ("marks", Bytes),
            ("relation", Number),
            ("room", WordsOut),
        ],
    },
    Signature {
        name: "receive",
        arguments: &[
            ("envelope", Bytes),
            ("program", Bytes),
            ("state", WordsOut),
            ("tables", Words),
            ("marks", BytesOut),
            ("store", WordsOut),
            ("message", Words),
        ],
    },
    Signature {
        name: "answer_at_end",
        arguments: &[
            ("envelope", Bytes),
            ("program", Bytes),
            ("state", Words),
            ("store", Words),
            ("room", WordsOut),
        ],
    },
    Signature {
        name: "estimate",
        arguments: &[("envelope", Bytes), ("program", Bytes), ("room", WordsOut)],
    },
];

pub const READ_ENVELOPE: u32 = 1;
pub const READ_PROGRAM: u32 = 2;
pub const PLAN: u32 = 3;
pub const RUN_IN_ONE_PLACE: u32 = 4;
pub const ANSWER: u32 = 5;
pub const OPEN: u32 = 6;
pub const MAKE_VALUES: u32 = 7;
pub const MAKE_ROWS: u32 = 8;
pub const RECEIVE: u32 = 9;
pub const ANSWER_AT_END: u32 = 10;
pub const ESTIMATE: u32 = 11;

pub fn signature(number: u32) -> Option<&'static Signature> {
    SIGNATURES.get((number as usize).checked_sub(1)?)
}

#[derive(Clone, Debug, PartialEq, Eq)]
pub struct Call {
    pub number: u32,
    pub arguments: Vec<Argument>,
}

#[derive(Clone, Debug, PartialEq, Eq)]
pub struct Outcome {
    pub number: u32,
    pub value: u32,
    /// Each buffer lent for writing, in order, as it is afterwards.
    pub buffers: Vec<Argument>,
}

impl Call {
    pub fn signature(&self) -> &'static Signature {
        signature(self.number).expect("a call of the list")
    }

    /// The place of the argument of that name, if the call has one.
    pub fn place(&self, name: &str) -> Option<usize> {
        self.signature().arguments.iter().position(|&(own, _)| own == name)
    }

    pub fn words(&self, name: &str) -> &[u32] {
        match self.place(name).map(|place| &self.arguments[place]) {
            Some(W(words)) => words,
            _ => panic!("call {} has no words named {name}", self.number),
        }
    }

    pub fn bytes(&self, name: &str) -> &[u8] {
        match self.place(name).map(|place| &self.arguments[place]) {
            Some(B(bytes)) => bytes,
            _ => panic!("call {} has no bytes named {name}", self.number),
        }
    }
}

/// The outcome of a call, which itself stays as it is.
pub fn perform(call: &Call) -> Outcome {
    let mut lent = call.arguments.clone();
    let taken = match (call.number, lent.as_mut_slice()) {
        (READ_ENVELOPE, [B(envelope)]) => boundary::read_envelope(envelope),
        (READ_PROGRAM, [B(envelope), B(program)]) => boundary::read_program(envelope, program),
        (PLAN, [B(envelope), B(room)]) => boundary::plan(envelope, room),
        (RUN_IN_ONE_PLACE, [B(envelope), B(program), W(tables), B(marks)]) => {
            boundary::run_in_one_place(envelope, program, tables, marks)
        }
        (ANSWER, [B(envelope), W(tables), W(room)]) => boundary::answer(envelope, tables, room),
        (OPEN, [B(envelope), B(program), N(site), N(run), W(tables), B(marks), W(state)]) => {
            boundary::open(envelope, program, *site, *run, tables, marks, state)
        }
        (MAKE_VALUES, [B(envelope), B(program), W(state), W(tables), B(marks), N(step), W(room)]) => {
            boundary::make_values(envelope, program, state, tables, marks, *step, room)
        }
        (MAKE_ROWS, [B(envelope), B(program), W(state), W(tables), B(marks), N(relation), W(room)]) => {
            boundary::make_rows(envelope, program, state, tables, marks, *relation, room)
        }
        (RECEIVE, [B(envelope), B(program), W(state), W(tables), B(marks), W(store), W(message)]) => {
            boundary::receive(envelope, program, state, tables, marks, store, message)
        }
        (ANSWER_AT_END, [B(envelope), B(program), W(state), W(store), W(room)]) => {
            boundary::answer_at_end(envelope, program, state, store, room)
        }
        (ESTIMATE, [B(envelope), B(program), W(room)]) => boundary::estimate(envelope, program, room),
        _ => panic!("call {} is not of its signature", call.number),
    };
    let kinds = call.signature().arguments.iter();
    let buffers = lent
        .into_iter()
        .zip(kinds)
        .filter(|(_, (_, kind))| kind.is_out())
        .map(|(lent, _)| lent)
        .collect();
    match taken {
        Ok(value) => Outcome {
            number: 0,
            value,
            buffers,
        },
        Err(Refusal { number, with }) => Outcome {
            number,
            value: with,
            buffers,
        },
    }
}
