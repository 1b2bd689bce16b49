//! A scene: an envelope, an accepted program for it and tables, with the calls that can be made of them.

use crate::boundary::STATE_WORDS;
use crate::calls::*;
use crate::envelope::{write_envelope, Envelope};
use crate::generate::{envelopes, programs, tables};
use crate::program::{write_program, Program};
use crate::random::Random;
use crate::script::LONGEST_SLICE;
use Argument::{Bytes, Number, Words};

pub struct Scene {
    pub envelope: Envelope,
    pub program: Program,
    pub tables: Vec<u32>,
    envelope_bytes: Vec<u8>,
    program_bytes: Vec<u8>,
}

/// What one station lends and gets back.
#[derive(Clone)]
pub struct Station {
    pub tables: Vec<u32>,
    pub marks: Vec<u8>,
    pub state: Vec<u32>,
}

impl Station {
    /// A station with its tables, and marks and a state that hold anything.
    pub fn unopened(random: &mut Random, scene: &Scene, site: u32) -> Station {
        let tables = tables::tables_at(random, &scene.envelope, &scene.tables, site);
        let marks = scene.row_count(&tables) + random.pick(&[0, 0, 0, 2]);
        let state = STATE_WORDS + random.pick(&[0, 0, 0, 2]);
        Station {
            tables,
            marks: random.bytes(marks),
            state: random.words(state),
        }
    }

    /// Marks and state as opening left them.
    pub fn take_back_opened(&mut self, outcome: Outcome) {
        match outcome.buffers.as_slice() {
            [Bytes(marks), Words(state)] => (self.marks, self.state) = (marks.clone(), state.clone()),
            _ => unreachable!("opening has marks and state"),
        }
    }

    /// State and marks as receiving left them, and its store.
    pub fn take_back_received(&mut self, outcome: Outcome) -> Vec<u32> {
        match outcome.buffers.as_slice() {
            [Words(state), Bytes(marks), Words(store)] => {
                (self.marks, self.state) = (marks.clone(), state.clone());
                store.clone()
            }
            _ => unreachable!("receiving has state, marks and store"),
        }
    }
}

impl Scene {
    pub fn new(random: &mut Random) -> Scene {
        let envelope = envelopes::envelope_for_tables(random);
        let program = programs::program(random, &envelope);
        let tables = tables::tables(random, &envelope);
        Scene::of(envelope, program, tables)
    }

    /// Mostly several steps, tables that they reduce and an answer with rows; else whatever comes.
    pub fn for_run(random: &mut Random) -> Scene {
        if random.chance(1, 8) {
            return Scene::new(random);
        }
        let envelope = envelopes::envelope_for_runs(random);
        let program = programs::program_for_runs(random, &envelope);
        let tables = tables::tables_with_answer(random, &envelope);
        Scene::of(envelope, program, tables)
    }

    pub fn of(envelope: Envelope, program: Program, tables: Vec<u32>) -> Scene {
        let (envelope_bytes, program_bytes) = (write_envelope(&envelope), write_program(&program));
        Scene {
            envelope,
            program,
            tables,
            envelope_bytes,
            program_bytes,
        }
    }

    /// How many rows, and so marks, tables of the right shape have.
    pub fn row_count(&self, tables: &[u32]) -> usize {
        tables[..self.envelope.relations.len()]
            .iter()
            .map(|&count| count as usize)
            .sum()
    }

    /// The place of a relation's first mark, for tables of the right shape.
    pub fn first_mark(&self, tables: &[u32], relation: usize) -> usize {
        tables[..relation].iter().map(|&count| count as usize).sum()
    }

    fn call(&self, number: u32, rest: Vec<Argument>) -> Call {
        let papers = [Bytes(self.envelope_bytes.clone()), Bytes(self.program_bytes.clone())];
        Call {
            number,
            arguments: papers.into_iter().chain(rest).collect(),
        }
    }

    pub fn run_in_one_place(&self, marks: Vec<u8>) -> Call {
        self.call(RUN_IN_ONE_PLACE, vec![Words(self.tables.clone()), Bytes(marks)])
    }

    /// The answer on the tables, into a room still to be lent.
    pub fn answer(&self) -> Call {
        let arguments = vec![
            Bytes(self.envelope_bytes.clone()),
            Words(self.tables.clone()),
            Words(Vec::new()),
        ];
        Call {
            number: ANSWER,
            arguments,
        }
    }

    pub fn open(&self, site: u32, run: u32, station: &Station) -> Call {
        let lent = [
            Words(station.tables.clone()),
            Bytes(station.marks.clone()),
            Words(station.state.clone()),
        ];
        self.call(OPEN, [Number(site), Number(run)].into_iter().chain(lent).collect())
    }

    /// A message made at a station, into a room still to be lent: `number` is MAKE_VALUES or MAKE_ROWS.
    pub fn make(&self, number: u32, station: &Station, named: u32) -> Call {
        let (state, tables) = (Words(station.state.clone()), Words(station.tables.clone()));
        let marks = Bytes(station.marks.clone());
        self.call(number, vec![state, tables, marks, Number(named), Words(Vec::new())])
    }

    pub fn receive(&self, station: &Station, store: &[u32], message: &[u32]) -> Call {
        let (state, tables) = (Words(station.state.clone()), Words(station.tables.clone()));
        let marks = Bytes(station.marks.clone());
        self.call(
            RECEIVE,
            vec![state, tables, marks, Words(store.to_vec()), Words(message.to_vec())],
        )
    }

    pub fn answer_at_end(&self, state: &[u32], store: &[u32]) -> Call {
        self.call(
            ANSWER_AT_END,
            vec![Words(state.to_vec()), Words(store.to_vec()), Words(Vec::new())],
        )
    }
}

/// The length that a call with a room writes when the room is the longest, or nothing if it is refused.
fn needed(call: &Call, place: usize) -> Option<usize> {
    let mut roomy = call.clone();
    let longest = LONGEST_SLICE as usize;
    roomy.arguments[place] = match roomy.arguments[place] {
        Bytes(_) => Bytes(vec![0; longest]),
        _ => Words(vec![0; longest]),
    };
    let outcome = perform(&roomy);
    (outcome.number == 0).then_some(outcome.value as usize)
}

/// Lends the call a room that is just long enough or a little longer, with something in it.
pub fn with_room(random: &mut Random, call: Call) -> Call {
    let more = if random.chance(1, 2) { 0 } else { random.below(4) };
    with_room_of(random, call, more)
}

/// Lends the call a room one short of what it needs, where it needs any.
pub fn with_short_room(random: &mut Random, call: Call) -> Call {
    let place = call.place("room").expect("a call with a room");
    let length = needed(&call, place).unwrap_or(0).saturating_sub(1);
    lend_room(random, call, place, length)
}

fn with_room_of(random: &mut Random, call: Call, more: usize) -> Call {
    let place = call.place("room").expect("a call with a room");
    let length = needed(&call, place).unwrap_or(3) + more;
    lend_room(random, call, place, length.min(LONGEST_SLICE as usize))
}

pub fn lend_room(random: &mut Random, mut call: Call, place: usize, length: usize) -> Call {
    call.arguments[place] = match call.arguments[place] {
        Bytes(_) => Bytes(random.bytes(length)),
        _ => Words(random.words(length)),
    };
    call
}
