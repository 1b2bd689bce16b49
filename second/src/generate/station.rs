//! Hostile ends: states that no opening made, with stores that bear them out or not, and calls on them.

use crate::boundary::{APPLIED, ARRIVED, RUN, SITE, STATE_WORDS, USED};
use crate::calls::{MAKE_ROWS, MAKE_VALUES};
use crate::generate::envelopes::CONSTANTS;
use crate::generate::hostile::changed_message;
use crate::generate::scene::{with_room, with_short_room, Scene, Station};
use crate::generate::tables::tables_at;
use crate::generate::Record;
use crate::random::Random;

const RUN_NUMBER: u32 = 3;

pub fn hostile_end(random: &mut Random, record: &mut Record) {
    let scene = Scene::for_run(random);
    let (station, store) = invented_end(random, &scene);
    for _ in 0..2 {
        let step = random.below(scene.program.steps.len() + 1) as u32;
        let call = with_room(random, scene.make(MAKE_VALUES, &station, step));
        record.ask_and_probe(random, call, 1);
        let relation = random.below(scene.envelope.relations.len() + 1) as u32;
        let call = with_room(random, scene.make(MAKE_ROWS, &station, relation));
        record.ask_and_probe(random, call, 1);
    }
    for _ in 0..3 {
        let mut message = invented_message(random, &scene, station.state[SITE]);
        if random.chance(1, 4) {
            message = changed_message(random, message);
        }
        record.ask_and_probe(random, scene.receive(&station, &store, &message), 2);
    }
    let call = with_room(random, scene.answer_at_end(&station.state, &store));
    record.ask_and_probe(random, call, 3);
    let call = with_short_room(random, scene.answer_at_end(&station.state, &store));
    record.ask(call);
}

/// An end at some site, mostly the assembly site, with marks of any kept byte, some steps applied and some
/// relations arrived; its store bears it out, mostly.
fn invented_end(random: &mut Random, scene: &Scene) -> (Station, Vec<u32>) {
    let relations = scene.envelope.relations.len();
    let sites = scene.envelope.sites();
    let site = if random.chance(2, 3) {
        scene.program.site
    } else {
        random.pick(&sites)
    };
    let tables = tables_at(random, &scene.envelope, &scene.tables, site);
    let marks = (0..scene.row_count(&tables))
        .map(|_| random.pick(&[0, 1, 1, 5, 255]))
        .collect();
    let mut state = random.words(STATE_WORDS);
    // Arrived words behind the last relation must be 0 or 1 and mean nothing; applied words there are anything.
    state[ARRIVED..]
        .iter_mut()
        .for_each(|word| *word = random.between(0, 1));
    state[SITE] = site;
    state[RUN] = RUN_NUMBER;
    for relation in 0..relations {
        state[APPLIED + relation] = random.below(scene.program.steps_of(relation).len() + 1) as u32;
    }
    if random.chance(1, 2) {
        state[ARRIVED..ARRIVED + relations].fill(1);
    }
    let mut store = store_for(random, scene, &state);
    state[USED] = if random.chance(1, 10) {
        u32::MAX - random.between(0, 4)
    } else {
        store.len() as u32
    };
    let behind = random.pick(&[0, 0, 1, 8, 40]);
    store.extend(random.words(behind));
    (Station { tables, marks, state }, store)
}

/// One row message for each relation marked as arrived, in any order; in some cases one too many or too few.
fn store_for(random: &mut Random, scene: &Scene, state: &[u32]) -> Vec<u32> {
    let relations = scene.envelope.relations.len();
    let mut arrived: Vec<usize> = (0..relations)
        .filter(|relation| state[ARRIVED + relation] == 1)
        .collect();
    random.shuffle(&mut arrived);
    match random.below(12) {
        0 => arrived.push(random.below(relations)),
        1 => drop(arrived.pop()),
        _ => {}
    }
    arrived
        .into_iter()
        .flat_map(|relation| row_message(random, scene, relation))
        .collect()
}

fn row_message(random: &mut Random, scene: &Scene, relation: usize) -> Vec<u32> {
    // Few rows: with eight relations the answerer may have to try every combination.
    let most = if scene.envelope.relations.len() > 4 { 2 } else { 4 };
    let count = random.between(0, most);
    let length = count as usize * scene.envelope.kept_columns(relation).len();
    let rows = (0..length).map(|_| random.pick(&CONSTANTS[..3]));
    [RUN_NUMBER, 256 + relation as u32, count]
        .into_iter()
        .chain(rows)
        .collect()
}

fn value_message(random: &mut Random, step: u32) -> Vec<u32> {
    let values: Vec<u32> = CONSTANTS.into_iter().filter(|_| random.chance(1, 2)).collect();
    [vec![RUN_NUMBER, step, values.len() as u32], values].concat()
}

/// A message, mostly for the site, with some steps before or behind their turn.
fn invented_message(random: &mut Random, scene: &Scene, site: u32) -> Vec<u32> {
    let steps = scene.program.steps.iter().enumerate();
    let anywhere = random.chance(1, 4);
    let mut numbers = Vec::new();
    for (number, step) in steps {
        if anywhere || scene.envelope.relations[step.left.relation].site == site {
            numbers.push(number as u32);
        }
    }
    if !numbers.is_empty() && random.chance(2, 3) {
        let step = random.pick(&numbers);
        return value_message(random, step);
    }
    let relation = random.below(scene.envelope.relations.len());
    row_message(random, scene, relation)
}
