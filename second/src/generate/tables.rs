//! Tables for an envelope: of its shape with values that meet, and of a wrong shape.

use crate::envelope::{name, Envelope};
use crate::generate::envelopes::CONSTANTS;
use crate::paths::{Class, Paths};
use crate::random::Random;
use crate::sizes;

/// At most this many combinations of rows, so that an answerer that tries every one still ends soon.
const MOST_COMBINATIONS: u64 = 2_500;

/// Tables of the envelope's shape, small, with values that join.
pub fn tables(random: &mut Random, envelope: &Envelope) -> Vec<u32> {
    let counts = row_counts(random, envelope.relations.len());
    tables_with(random, envelope, &counts)
}

fn row_counts(random: &mut Random, relations: usize) -> Vec<u32> {
    let mut combinations = 1;
    let mut counts = Vec::new();
    for _ in 0..relations {
        let most = if random.chance(1, 8) { 40 } else { 7 };
        let wanted = if random.chance(1, 14) {
            0
        } else {
            random.between(1, most)
        };
        let count = if combinations * u64::from(wanted) > MOST_COMBINATIONS {
            1
        } else {
            wanted
        };
        combinations *= u64::from(count.max(1));
        counts.push(count);
    }
    random.shuffle(&mut counts);
    counts
}

/// Tables of which one combination of rows meets all clauses, where no class has two constants, and most do not.
pub fn tables_with_answer(random: &mut Random, envelope: &Envelope) -> Vec<u32> {
    let classes = Paths::of(envelope).classes;
    // Many different values, so that a row may well have no partner.
    let more = random.below(9);
    let pool = [CONSTANTS.to_vec(), random.words(more)].concat();
    let shared = value_of_each(random, &classes, &pool);
    let counts = several_rows(row_counts(random, envelope.relations.len()));
    let mut words = counts.clone();
    for (relation, &count) in counts.iter().enumerate() {
        let mut rows = Vec::new();
        for row in 0..count {
            let values = match if row == 0 { 0 } else { random.weighted(&[2, 5, 1]) } {
                0 => shared.clone(),
                1 => value_of_each(random, &classes, &pool),
                _ => Vec::new(),
            };
            let mut value = |column: usize| {
                let own = |class: &Class| class.columns.contains(&name(relation, column));
                let class = classes.iter().position(own);
                let value = class.and_then(|class| values.get(class).copied());
                value.unwrap_or(random.pick(&pool))
            };
            let columns = 0..envelope.relations[relation].columns.len();
            rows.push(columns.map(&mut value).collect::<Vec<_>>());
        }
        random.shuffle(&mut rows);
        words.extend(rows.concat());
    }
    words
}

/// A relation of one row, or of none, gives a step little to do: it gets two where the combinations allow it.
fn several_rows(counts: Vec<u32>) -> Vec<u32> {
    let mut combinations: u64 = counts.iter().map(|&count| u64::from(count.max(1))).product();
    let mut several = |count: u32| {
        if count < 2 && combinations * 2 <= MOST_COMBINATIONS {
            combinations *= 2;
            return 2;
        }
        count.max(1)
    };
    counts.into_iter().map(&mut several).collect()
}

/// One value for each class: its constant, where it has one.
fn value_of_each(random: &mut Random, classes: &[Class], pool: &[u32]) -> Vec<u32> {
    let value = |class: &Class| match class.constants.as_slice() {
        [] => random.pick(pool),
        constants => random.pick(constants),
    };
    classes.iter().map(value).collect()
}

pub fn tables_with(random: &mut Random, envelope: &Envelope, counts: &[u32]) -> Vec<u32> {
    let values = Values::new(random, envelope);
    let mut words = counts.to_vec();
    for (relation, &count) in counts.iter().enumerate() {
        for _ in 0..count {
            let columns = 0..envelope.relations[relation].columns.len();
            words.extend(columns.map(|column| values.draw(random, name(relation, column))));
        }
    }
    words
}

/// Where values come from: a small pool, and for each class one value that its columns favour.
struct Values {
    paths: Paths,
    favoured: Vec<u32>,
    pool: Vec<u32>,
    /// How many of 8 values are the favoured one.
    favour: usize,
}

impl Values {
    fn new(random: &mut Random, envelope: &Envelope) -> Values {
        let paths = Paths::of(envelope);
        let size = random.between(1, 4) as usize;
        let pool: Vec<u32> = (0..size).map(|_| random.pick(&CONSTANTS)).collect();
        let favourite = |random: &mut Random, constants: &[u32]| match constants {
            [] => random.pick(&pool),
            constants => random.pick(constants),
        };
        let favoured = paths
            .classes
            .iter()
            .map(|class| favourite(random, &class.constants))
            .collect();
        Values {
            paths,
            favoured,
            pool,
            favour: random.between(2, 7) as usize,
        }
    }

    fn draw(&self, random: &mut Random, column: crate::envelope::ColumnName) -> u32 {
        let class = self
            .paths
            .classes
            .iter()
            .position(|class| class.columns.contains(&column));
        match class {
            Some(class) if random.chance(self.favour, 8) => self.favoured[class],
            _ => random.pick(&self.pool),
        }
    }
}

/// The tables that a site lends: its own relations, and those of others empty or whole.
pub fn tables_at(random: &mut Random, envelope: &Envelope, all: &[u32], site: u32) -> Vec<u32> {
    let whole = random.chance(1, 5);
    let relations = envelope.relations.len();
    let mut counts = all[..relations].to_vec();
    let mut rows = Vec::new();
    let mut start = relations;
    for (relation, it) in envelope.relations.iter().enumerate() {
        let length = all[relation] as usize * it.columns.len();
        if it.site == site || whole {
            rows.extend(&all[start..start + length]);
        } else {
            counts[relation] = 0;
        }
        start += length;
    }
    [counts, rows].concat()
}

/// Tables that are not of the shape, mostly.
pub fn misshapen(random: &mut Random, tables: &[u32]) -> Vec<u32> {
    let mut words = tables.to_vec();
    match random.below(6) {
        0 => words.truncate(tables.len().saturating_sub(1)),
        1 => words.push(random.word()),
        2 => words.truncate(random.below(9)),
        3 => {
            let place = random.below(words.len().clamp(1, 8));
            change_count(random, &mut words, place);
        }
        4 => {
            change_count(random, &mut words, 0);
            words.push(0);
        }
        _ => words.clear(),
    }
    words
}

fn change_count(random: &mut Random, words: &mut [u32], place: usize) {
    if let Some(count) = words.get_mut(place) {
        let large = [
            sizes::TRUE_ROWS,
            sizes::TRUE_ROWS + 1,
            0x2000_0000,
            0x8000_0000,
            u32::MAX,
        ];
        *count = match random.below(3) {
            0 => count.wrapping_add(1),
            1 => count.wrapping_sub(1),
            _ => random.pick(&large),
        };
    }
}
