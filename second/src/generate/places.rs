//! Calls on tables in one place: the one-place run and the answer, on small tables and on the largest.

use crate::boundary::{ARRIVED, USED};
use crate::envelope::Envelope;
use crate::generate::scene::{with_room, with_short_room, Scene, Station};
use crate::generate::{envelopes, programs, tables, Record};
use crate::random::Random;
use crate::sizes;

const RUN_NUMBER: u32 = 7;

pub fn one_place(random: &mut Random, record: &mut Record) {
    let scene = match random.chance(1, 2) {
        true => Scene::for_run(random),
        false => Scene::new(random),
    };
    let marks = scene.row_count(&scene.tables) + random.pick(&[0, 0, 1, 3]);
    let call = scene.run_in_one_place(random.bytes(marks));
    record.ask_and_probe(random, call, 3);
    let call = with_room(random, scene.answer());
    record.ask_and_probe(random, call, 2);
    let call = with_short_room(random, scene.answer());
    record.ask(call);
}

/// Tables that fill the sizes, and one row more than they allow; messages of 4,096 and one more.
pub fn large_tables(random: &mut Random, record: &mut Record) {
    let scene = large_scene(random);
    let marks = scene.row_count(&scene.tables);
    record.ask(scene.run_in_one_place(random.bytes(marks)));
    let call = with_room(random, scene.answer());
    record.ask(call);
    let beyond = with_a_row_more(&scene);
    record.ask(beyond.run_in_one_place(random.bytes(marks + 1)));
    large_messages(random, record, &scene);
}

/// Two relations, one with tables as large as can be, the other short.
fn large_scene(random: &mut Random) -> Scene {
    // With a relation of one column beside a wide one the words can be filled to the last.
    let exactly = random.chance(2, 3);
    let envelope = loop {
        let envelope = envelopes::envelope_for_tables(random);
        let columns: Vec<usize> = envelope
            .relations
            .iter()
            .map(|relation| relation.columns.len())
            .collect();
        match columns[..] {
            [one, other] if !exactly || one.min(other) == 1 && one.max(other) >= 4 => break envelope,
            _ => {}
        }
    };
    let program = programs::program(random, &envelope);
    let counts = large_counts(&envelope);
    let mut words = tables::tables_with(random, &envelope, &counts);
    // Values of their own in half of the places, so that messages get long.
    for word in &mut words[2..] {
        if random.chance(1, 2) {
            *word = random.word();
        }
    }
    Scene::of(envelope, program, words)
}

/// As many rows of the wider relation as the sizes allow; the other takes the words left, if they are few.
fn large_counts(envelope: &Envelope) -> [u32; 2] {
    let columns = |relation: usize| envelope.relations[relation].columns.len();
    let narrow = narrow_relation(envelope);
    let wide = 1 - narrow;
    let left = sizes::TABLE_WORDS - 2;
    let mut counts = [0; 2];
    counts[wide] = (left / columns(wide)).min(sizes::TRUE_ROWS as usize);
    counts[narrow] = ((left - counts[wide] * columns(wide)) / columns(narrow)).min(8);
    counts.map(|count| count as u32)
}

fn narrow_relation(envelope: &Envelope) -> usize {
    usize::from(envelope.relations[1].columns.len() < envelope.relations[0].columns.len())
}

/// The scene with one row more of the narrow relation, or of the wide one where that has the most rows.
fn with_a_row_more(scene: &Scene) -> Scene {
    let narrow = narrow_relation(&scene.envelope);
    let full = scene.tables[1 - narrow] == sizes::TRUE_ROWS;
    let relation = if full { 1 - narrow } else { narrow };
    let mut tables = scene.tables.clone();
    tables[relation] += 1;
    let row = vec![0; scene.envelope.relations[relation].columns.len()];
    // Relation 0's rows stand right behind the two counts, relation 1's at the end.
    let place = if relation == 0 { 2 } else { tables.len() };
    tables.splice(place..place, row);
    Scene::of(scene.envelope.clone(), scene.program.clone(), tables)
}

/// Messages of the most values or rows and of one more, at the assembly site; and a store that holds such.
fn large_messages(random: &mut Random, record: &mut Record, scene: &Scene) {
    let site = scene.program.site;
    let mut opened = Station::unopened(random, scene, site);
    let outcome = record.ask(scene.open(site, RUN_NUMBER, &opened));
    opened.take_back_opened(outcome);
    for count in [sizes::TRUE_ROWS, sizes::TRUE_ROWS + 1] {
        let values: Vec<u32> = (0..count).map(|value| value * 0x000F_0001).collect();
        let step = random.below(scene.program.steps.len() + 1) as u32;
        record.ask(scene.receive(&opened, &[], &[vec![RUN_NUMBER, step, count], values].concat()));
        let message = row_message(random, scene, 0, count);
        let more = random.below(2);
        let store = random.words(message.len() + more);
        record.ask(scene.receive(&opened, &store, &message));
        let store = [message, row_message(random, scene, 1, 1)].concat();
        let state = with_all_arrived(&opened.state, store.len());
        let call = with_room(random, scene.answer_at_end(&state, &store));
        record.ask(call);
    }
}

fn row_message(random: &mut Random, scene: &Scene, relation: usize, count: u32) -> Vec<u32> {
    let length = count as usize * scene.envelope.kept_columns(relation).len();
    let rows = (0..length).map(|_| random.between(0, 1));
    [RUN_NUMBER, 256 + relation as u32, count]
        .into_iter()
        .chain(rows)
        .collect()
}

fn with_all_arrived(state: &[u32], used: usize) -> Vec<u32> {
    let mut state = state.to_vec();
    state[USED] = used as u32;
    state[ARRIVED..ARRIVED + 2].fill(1);
    state
}
