//! The script of calls and the stream of outcomes: 32-bit words, little end first. A number is one word; a
//! slice is its length and then its elements, one word each.

use crate::calls::{perform, signature, Argument, Call, Kind, Outcome};

pub const LONGEST_SLICE: u32 = 40_960;

/// Why a script cannot be read further.
#[derive(Clone, Copy, Debug, PartialEq, Eq)]
pub enum Damage {
    UnknownCall(u32),
    LengthAboveLimit(u32),
    ByteAbove255(u32),
    EndsInside,
}

/// Words taken one by one from bytes.
pub struct Words<'a> {
    bytes: &'a [u8],
    position: usize,
}

impl<'a> Words<'a> {
    pub fn new(bytes: &'a [u8]) -> Words<'a> {
        Words { bytes, position: 0 }
    }

    pub fn position(&self) -> usize {
        self.position
    }

    pub fn is_at_end(&self) -> bool {
        self.position == self.bytes.len()
    }

    pub fn word(&mut self) -> Result<u32, Damage> {
        let word = self
            .bytes
            .get(self.position..self.position + 4)
            .ok_or(Damage::EndsInside)?;
        self.position += 4;
        Ok(u32::from_le_bytes(word.try_into().expect("four bytes")))
    }

    fn slice(&mut self) -> Result<Vec<u32>, Damage> {
        let length = self.word()?;
        if length > LONGEST_SLICE {
            return Err(Damage::LengthAboveLimit(length));
        }
        (0..length).map(|_| self.word()).collect()
    }

    fn argument(&mut self, kind: Kind) -> Result<Argument, Damage> {
        if kind == Kind::Number {
            return Ok(Argument::Number(self.word()?));
        }
        let words = self.slice()?;
        if !kind.is_bytes() {
            return Ok(Argument::Words(words));
        }
        let narrow = |word: u32| u8::try_from(word).map_err(|_| Damage::ByteAbove255(word));
        Ok(Argument::Bytes(
            words.into_iter().map(narrow).collect::<Result<_, _>>()?,
        ))
    }

    pub fn call(&mut self) -> Result<Call, Damage> {
        let number = self.word()?;
        let signature = signature(number).ok_or(Damage::UnknownCall(number))?;
        let kinds = signature.arguments.iter();
        let arguments = kinds.map(|&(_, kind)| self.argument(kind)).collect::<Result<_, _>>()?;
        Ok(Call { number, arguments })
    }

    /// The outcome of a call, as the program under test wrote it.
    pub fn outcome(&mut self, call: &Call) -> Result<Outcome, Damage> {
        let (number, value) = (self.word()?, self.word()?);
        let kinds = call.signature().arguments.iter().filter(|(_, kind)| kind.is_out());
        let buffers = kinds.map(|&(_, kind)| self.argument(kind)).collect::<Result<_, _>>()?;
        Ok(Outcome { number, value, buffers })
    }
}

fn push_argument(bytes: &mut Vec<u8>, argument: &Argument) {
    let mut push = |word: u32| bytes.extend(word.to_le_bytes());
    match argument {
        Argument::Number(number) => push(*number),
        Argument::Bytes(elements) => {
            push(elements.len() as u32);
            elements.iter().for_each(|&element| push(u32::from(element)));
        }
        Argument::Words(elements) => {
            push(elements.len() as u32);
            elements.iter().for_each(|&element| push(element));
        }
    }
}

pub fn push_call(bytes: &mut Vec<u8>, call: &Call) {
    bytes.extend(call.number.to_le_bytes());
    call.arguments
        .iter()
        .for_each(|argument| push_argument(bytes, argument));
}

pub fn push_outcome(bytes: &mut Vec<u8>, outcome: &Outcome) {
    bytes.extend(outcome.number.to_le_bytes());
    bytes.extend(outcome.value.to_le_bytes());
    outcome.buffers.iter().for_each(|buffer| push_argument(bytes, buffer));
}

pub fn script_of<'a>(calls: impl IntoIterator<Item = &'a Call>) -> Vec<u8> {
    let mut bytes = Vec::new();
    calls.into_iter().for_each(|call| push_call(&mut bytes, call));
    bytes
}

/// What the program `calls` writes for a script, and the damage that stopped it, if any. The outcome of each
/// call is given by a function, so that a test can put a faulty one in its place.
pub fn run_script(script: &[u8], outcome_of: impl Fn(&Call) -> Outcome) -> (Vec<u8>, Option<Damage>) {
    let mut words = Words::new(script);
    let mut outcomes = Vec::new();
    while !words.is_at_end() {
        match words.call() {
            Ok(call) => push_outcome(&mut outcomes, &outcome_of(&call)),
            Err(damage) => return (outcomes, Some(damage)),
        }
    }
    (outcomes, None)
}

pub fn run_script_soundly(script: &[u8]) -> (Vec<u8>, Option<Damage>) {
    run_script(script, perform)
}
