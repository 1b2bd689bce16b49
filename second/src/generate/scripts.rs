//! Scripts damaged in the ways that the protocol names, and a few that are sound to the last word.

use crate::calls::{Argument, Call, READ_ENVELOPE};
use crate::generate::{papers, places, Record};
use crate::random::Random;
use crate::script::{push_call, script_of, LONGEST_SLICE};

/// The first few numbers give each kind of damage once; the others a random one.
pub fn damaged_script(random: &mut Random, number: usize) -> Vec<u8> {
    let mut record = Record::default();
    papers::some_papers(random, &mut record);
    places::one_place(random, &mut record);
    record.calls.truncate(random.below(8));
    let script = script_of(record.calls.iter().map(|(call, _)| call));
    let kind = if number < 12 { number } else { random.below(12) };
    let more = match kind {
        0 => return Vec::new(),
        1 => return script,
        2 => words(&[0]),
        3 => words(&[12, 0]),
        4 => words(&[u32::MAX]),
        5 => words(&[READ_ENVELOPE, LONGEST_SLICE + 1]),
        6 => words(&[READ_ENVELOPE, 3, 67, 256, 78]),
        7 => longest_call(),
        8 => vec![random.word() as u8; random.between(1, 3) as usize],
        9 => words(&[READ_ENVELOPE, u32::MAX]),
        10 => words(&[READ_ENVELOPE]),
        _ => return cut(random, script),
    };
    let mut damaged = [script, more].concat();
    if random.chance(1, 2) {
        // What stands behind the damage is not looked at any more.
        push_call(&mut damaged, &empty_call());
    }
    damaged
}

fn words(words: &[u32]) -> Vec<u8> {
    words.iter().flat_map(|word| word.to_le_bytes()).collect()
}

fn empty_call() -> Call {
    Call {
        number: READ_ENVELOPE,
        arguments: vec![Argument::Bytes(Vec::new())],
    }
}

/// A slice exactly as long as the limit allows.
fn longest_call() -> Vec<u8> {
    let argument = Argument::Bytes(vec![67; LONGEST_SLICE as usize]);
    script_of([&Call {
        number: READ_ENVELOPE,
        arguments: vec![argument],
    }])
}

fn cut(random: &mut Random, script: Vec<u8>) -> Vec<u8> {
    let length = random.below(script.len() + 1);
    script[..length].to_vec()
}
