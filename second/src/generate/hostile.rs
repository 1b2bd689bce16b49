//! Hostile ways to make a call: one or two of its arguments changed, each by what it is called.

use crate::boundary::{APPLIED, ARRIVED, RUN, SITE, STATE_WORDS, USED};
use crate::calls::{Argument, Call, Outcome};
use crate::envelope::read_envelope;
use crate::generate::damage::{damaged_bytes, spoiled_envelope};
use crate::generate::programs::spoiled_program;
use crate::generate::scene::lend_room;
use crate::generate::tables::misshapen;
use crate::program::write_program;
use crate::random::Random;
use crate::sizes;

/// The call with one argument changed, in some cases two. The outcome is that of the call as it was.
pub fn probe(random: &mut Random, call: &Call, outcome: &Outcome) -> Call {
    let mut changed = change(random, call.clone(), outcome);
    // Two faults at once show which is judged first.
    if random.chance(1, 3) {
        changed = change(random, changed, outcome);
    }
    changed
}

fn change(random: &mut Random, call: Call, outcome: &Outcome) -> Call {
    let names = call.signature().arguments;
    let weights: Vec<usize> = names.iter().map(|&(name, _)| weight(name)).collect();
    let place = random.weighted(&weights);
    let name = names[place].0;
    if name == "room" {
        let length = room_length(random, outcome);
        return lend_room(random, call, place, length);
    }
    let mut call = call;
    call.arguments[place] = match call.arguments[place].clone() {
        Argument::Number(number) => Argument::Number(changed_number(random, number)),
        Argument::Bytes(bytes) if name == "marks" => Argument::Bytes(changed_marks(random, bytes)),
        Argument::Bytes(bytes) => Argument::Bytes(changed_paper(random, &call, name, &bytes)),
        Argument::Words(words) => Argument::Words(match name {
            "tables" => misshapen(random, &words),
            "state" => changed_state(random, words),
            "store" => changed_store(random, &call, words),
            _ => changed_message(random, words),
        }),
    };
    call
}

/// A paper damaged as bytes, or another one that breaks a rule where the envelope is still one.
fn changed_paper(random: &mut Random, call: &Call, name: &str, bytes: &[u8]) -> Vec<u8> {
    match read_envelope(call.bytes("envelope")) {
        Ok(envelope) if random.chance(2, 3) => match name {
            "envelope" => spoiled_envelope(random, &envelope),
            _ => write_program(&spoiled_program(random, &envelope)),
        },
        _ => damaged_bytes(random, bytes),
    }
}

/// How often an argument of that name is the one changed.
fn weight(name: &str) -> usize {
    match name {
        "envelope" | "program" => 2,
        "tables" | "marks" | "site" | "room" => 3,
        "state" | "step" | "relation" | "store" => 4,
        "message" => 7,
        _ => 1,
    }
}

/// One short of what was written, or none, or any.
fn room_length(random: &mut Random, outcome: &Outcome) -> usize {
    let written = if outcome.number == 0 { outcome.value as usize } else { 0 };
    match random.below(4) {
        0 | 1 => written.saturating_sub(1),
        2 => 0,
        _ => random.below(written + 4),
    }
}

pub fn changed_number(random: &mut Random, number: u32) -> u32 {
    match random.below(5) {
        0 => number.wrapping_add(1),
        1 => number.wrapping_sub(1),
        2 => random.between(0, 12),
        3 => random.pick(&[8, 156, 200, 255, 256, 257, 264, 0x8000_0000, u32::MAX]),
        _ => number.wrapping_add(256),
    }
}

fn changed_marks(random: &mut Random, marks: Vec<u8>) -> Vec<u8> {
    let mut marks = marks;
    match random.below(5) {
        0 | 1 => marks.truncate(marks.len().saturating_sub(1)),
        2 => marks.truncate(random.below(marks.len() + 1)),
        3 => marks.extend(random.bytes(3)),
        _ => marks.iter_mut().for_each(|mark| *mark = random.pick(&[0, 1, 5, 255])),
    }
    marks
}

fn changed_state(random: &mut Random, state: Vec<u32>) -> Vec<u32> {
    let mut state = state;
    if state.len() < STATE_WORDS {
        return random.words(STATE_WORDS);
    }
    let relation = random.pick(&[0, 0, 1, 1, 2, 3, 4, 5, 6, 7]);
    match random.weighted(&[2, 1, 2, 1, 3, 4, 4]) {
        0 => state.truncate(random.pick(&[0, 1, 3, 18, 18, 18])),
        1 => state.extend(random.words(2)),
        2 => state[SITE] = random.pick(&[0, 1, 2, 3, 4, 5, 6, 7, 8, 200, 257, state[SITE].wrapping_add(256)]),
        3 => state[RUN] = state[RUN].wrapping_add(1),
        4 => state[USED] = changed_used(random, state[USED]),
        5 => state[APPLIED + relation] = random.pick(&[0, 0, 1, 1, 2, 3, 157, u32::MAX]),
        _ => state[ARRIVED + relation] = random.pick(&[0, 0, 1, 1, 1, 2, 256, u32::MAX]),
    }
    state
}

fn changed_used(random: &mut Random, used: u32) -> u32 {
    match random.below(7) {
        0 | 1 => used.wrapping_add(1),
        2 | 3 => used.wrapping_sub(1),
        4 => 0,
        // So far behind the store that used plus a message's length wraps in 32 bits.
        _ => random.pick(&[16_400, 0x7FFF_FFFF, u32::MAX - 2, u32::MAX]),
    }
}

/// A store one word too short for the message, cut, or with a word changed.
fn changed_store(random: &mut Random, call: &Call, store: Vec<u32>) -> Vec<u32> {
    let mut store = store;
    let used = call.words("state").get(USED).map_or(0, |&used| used as usize);
    let message = if call.place("message").is_some() {
        call.words("message").len()
    } else {
        0
    };
    match random.below(6) {
        0 | 1 => store.truncate(used.saturating_add(message).saturating_sub(1)),
        2 => store.truncate(random.below(store.len() + 1)),
        3 | 4 if !store.is_empty() => {
            let place = random.below(store.len().min(used.max(3)));
            store[place] = changed_number(random, store[place]);
        }
        _ => store.extend(random.words(2)),
    }
    store
}

/// A message cut, lengthened, or with its run, kind, count or values changed.
pub fn changed_message(random: &mut Random, message: Vec<u32>) -> Vec<u32> {
    let mut words = message;
    if words.len() < 3 {
        return random.words(4);
    }
    match random.weighted(&[2, 3, 5, 4, 2, 2, 4]) {
        0 => words.truncate(random.below(3)),
        1 => words[0] = words[0].wrapping_add(1),
        2 => words[1] = changed_kind(random, words[1]),
        3 => words[2] = changed_count(random, words[2]),
        4 => words.truncate(words.len() - 1),
        5 => words.push(random.word()),
        _ => disturb_values(random, &mut words[3..]),
    }
    words
}

fn changed_kind(random: &mut Random, kind: u32) -> u32 {
    match random.below(5) {
        0 => kind.wrapping_add(1),
        1 => kind.wrapping_sub(1),
        2 => random.between(0, 12),
        3 => 256 + random.between(0, 8),
        _ => random.pick(&[156, 255, 256, 264, 512, 0x8000_0000, u32::MAX]),
    }
}

fn changed_count(random: &mut Random, count: u32) -> u32 {
    match random.below(4) {
        0 => count.wrapping_add(1),
        1 => count.wrapping_sub(1),
        // Counts that fit a short message again once a product of 32 bits has wrapped.
        2 => count.wrapping_add(random.pick(&[0x2000_0000, 0x4000_0000, 0x8000_0000])),
        _ => random.pick(&[0, sizes::TRUE_ROWS, sizes::TRUE_ROWS + 1, u32::MAX]),
    }
}

fn disturb_values(random: &mut Random, values: &mut [u32]) {
    if values.len() < 2 {
        return;
    }
    let place = random.below(values.len() - 1);
    if random.chance(1, 2) {
        values.swap(place, place + 1);
    } else {
        values[place + 1] = values[place];
    }
}
