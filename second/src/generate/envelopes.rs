//! Random envelopes, all within the rules. Their numbers are skewed so that plans have steps, ties, drops
//! and fallbacks, and so that sizes reach their limits.

use crate::envelope::{name, Clause, Column, ColumnName, Envelope, Relation};
use crate::paths::{Class, Paths};
use crate::random::Random;
use crate::sizes;

/// Constants of selections and values of tables are drawn from these, so that they meet.
pub const CONSTANTS: [u32; 8] = [0, 1, 2, 5, 256, 0x7FFF_FFFF, 0x8000_0000, u32::MAX];

/// What the numbers of an envelope are like.
#[derive(Clone, Copy, PartialEq, Eq)]
enum Manner {
    Ordinary,
    /// Few different numbers, so that benefits tie.
    Even,
    /// Numbers of which steps are profitable but the total is not, or hardly.
    Narrow,
    Largest,
}

pub fn envelope(random: &mut Random) -> Envelope {
    let manner = random.pick(&[
        Manner::Ordinary,
        Manner::Ordinary,
        Manner::Even,
        Manner::Even,
        Manner::Narrow,
    ]);
    let manner = if random.chance(1, 25) { Manner::Largest } else { manner };
    let most = if random.chance(1, 6) { sizes::RELATIONS } else { 4 };
    envelope_of(random, manner, most)
}

/// The longest paper there can be: every count at its limit and every clause a selection.
pub fn longest_envelope() -> Envelope {
    let all = |count: u32| 0..count as usize;
    let column = |domain: usize| Column {
        domain,
        width: sizes::WIDTH,
        distinct: sizes::ESTIMATED_ROWS,
    };
    let relation = |site: usize| Relation {
        site: site as u32,
        rows: sizes::ESTIMATED_ROWS,
        columns: all(sizes::COLUMNS).map(column).collect(),
    };
    let selection = |value: usize| Clause::Selection {
        column: name(value % 8, value / 8),
        value: value as u32,
    };
    Envelope {
        domains: vec![sizes::DOMAIN_SIZE; sizes::DOMAINS as usize],
        relations: all(sizes::RELATIONS).map(relation).collect(),
        clauses: all(sizes::CLAUSES).map(selection).collect(),
        targets: vec![name(7, 7); sizes::TARGETS as usize],
    }
}

/// An envelope whose tables stay small enough to be combined.
pub fn envelope_for_tables(random: &mut Random) -> Envelope {
    let most = if random.chance(1, 12) { sizes::RELATIONS } else { 4 };
    envelope_of(random, Manner::Even, most)
}

/// An envelope for tables with a class over two relations, and none with two constants: there are legal steps, and
/// the answer need not be empty. Mostly a class over two relations has no constant, so that steps remove rows.
pub fn envelope_for_runs(random: &mut Random) -> Envelope {
    let most = if random.chance(3, 4) { 0 } else { 1 };
    loop {
        let envelope = envelope_for_tables(random);
        let classes = Paths::of(&envelope).classes;
        let joined = |class: &Class| {
            class
                .columns
                .iter()
                .any(|one| one.relation != class.columns[0].relation)
        };
        let may_answer = classes.iter().all(|class| class.constants.len() < 2);
        if may_answer
            && classes
                .iter()
                .any(|class| joined(class) && class.constants.len() <= most)
        {
            return envelope;
        }
    }
}

fn envelope_of(random: &mut Random, manner: Manner, most_relations: u32) -> Envelope {
    let largest = manner == Manner::Largest;
    let few = random.pick(&[1, 1, 2, 2, 3, 5]);
    let domain_count = if largest && random.chance(1, 2) {
        sizes::DOMAINS
    } else {
        few
    };
    let domains: Vec<u32> = (0..domain_count).map(|_| domain_size(random, manner)).collect();
    let relation_count = if largest {
        sizes::RELATIONS
    } else {
        random.between(1, most_relations)
    };
    let mut relations: Vec<Relation> = Vec::new();
    for _ in 0..relation_count {
        let site = site(random, &relations);
        relations.push(relation(random, manner, &domains, site));
    }
    let mut envelope = Envelope {
        domains,
        relations,
        clauses: Vec::new(),
        targets: Vec::new(),
    };
    add_clauses(random, &mut envelope, largest);
    add_targets(random, &mut envelope, largest);
    envelope
}

fn domain_size(random: &mut Random, manner: Manner) -> u32 {
    match manner {
        Manner::Ordinary => random.skewed(1, sizes::DOMAIN_SIZE),
        Manner::Even => random.pick(&[1, 10, 100, 1000]),
        Manner::Narrow => random.pick(&[20, 50, 100]),
        Manner::Largest => random.pick(&[sizes::DOMAIN_SIZE, sizes::ESTIMATED_ROWS, 1]),
    }
}

/// A new site, or one that holds a relation already.
fn site(random: &mut Random, relations: &[Relation]) -> u32 {
    match relations.last() {
        Some(last) if random.chance(1, 3) => last.site,
        _ => random.between(0, sizes::LAST_SITE),
    }
}

fn relation(random: &mut Random, manner: Manner, domains: &[u32], site: u32) -> Relation {
    let count = match manner {
        Manner::Largest => sizes::COLUMNS,
        _ if random.chance(1, 10) => random.between(1, sizes::COLUMNS),
        _ => random.between(1, 3),
    };
    let rows = match manner {
        _ if random.chance(1, 12) => 0,
        Manner::Ordinary => random.skewed(1, sizes::ESTIMATED_ROWS),
        Manner::Even => random.pick(&[1, 10, 100, 1000, 10_000]),
        Manner::Narrow => random.between(20, 200),
        Manner::Largest => sizes::ESTIMATED_ROWS,
    };
    let columns = (0..count).map(|_| column(random, manner, domains, rows)).collect();
    Relation { site, rows, columns }
}

fn column(random: &mut Random, manner: Manner, domains: &[u32], rows: u32) -> Column {
    let domain = random.below(domains.len());
    let most = rows.min(domains[domain]);
    let distinct = match (manner, most) {
        (_, 0) => 0,
        (Manner::Even, _) => random.pick(&[1, most.div_ceil(10), most.div_ceil(2), most]),
        (Manner::Ordinary, _) => random.skewed(1, most),
        _ if random.chance(1, 2) => most,
        _ => random.between(1, most),
    };
    let width = match manner {
        Manner::Largest => sizes::WIDTH,
        Manner::Even => random.between(1, 2),
        _ if random.chance(1, 5) => random.between(1, sizes::WIDTH),
        _ => random.between(1, 4),
    };
    Column {
        domain,
        width,
        distinct,
    }
}

fn add_clauses(random: &mut Random, envelope: &mut Envelope, largest: bool) {
    let most = if largest || random.chance(1, 15) {
        sizes::CLAUSES
    } else {
        random.pick(&[0, 1, 2, 3, 4, 5, 7])
    };
    let manner = random.weighted(&[6, 2, 2, 2]);
    // A clause that cannot be made, for want of a second column in the domain, is left out.
    for _ in 0..most {
        let made = match (manner, random.below(4)) {
            (1, _) | (0, 0) => selection(random, envelope),
            (2, _) => chained_join(random, envelope),
            (3, 0 | 1) => same_relation_join(random, envelope),
            (3, 2) => second_constant(random, envelope),
            _ => join(random, envelope),
        };
        envelope.clauses.extend(made);
    }
}

pub fn any_column(random: &mut Random, envelope: &Envelope) -> ColumnName {
    let relation = random.below(envelope.relations.len());
    name(relation, random.below(envelope.relations[relation].columns.len()))
}

fn selection(random: &mut Random, envelope: &Envelope) -> Option<Clause> {
    let column = any_column(random, envelope);
    let value = if random.chance(1, 20) {
        random.word()
    } else {
        random.pick(&CONSTANTS[..4])
    };
    Some(Clause::Selection { column, value })
}

/// A column that some clause names already gets one more constant, so that its class may have two.
fn second_constant(random: &mut Random, envelope: &Envelope) -> Option<Clause> {
    let named: Vec<ColumnName> = envelope.clauses.iter().flat_map(|clause| clause.columns()).collect();
    if named.is_empty() {
        return selection(random, envelope);
    }
    Some(Clause::Selection {
        column: random.pick(&named),
        value: random.pick(&CONSTANTS),
    })
}

fn join(random: &mut Random, envelope: &Envelope) -> Option<Clause> {
    let left = any_column(random, envelope);
    join_from(random, envelope, left, |right| right.relation != left.relation)
}

/// A join that goes on from the last clause, so that paths grow long.
fn chained_join(random: &mut Random, envelope: &Envelope) -> Option<Clause> {
    let Some(last) = envelope.clauses.last() else {
        return join(random, envelope);
    };
    let left = random.pick(&last.columns());
    join_from(random, envelope, left, |right| right.relation != left.relation)
}

fn same_relation_join(random: &mut Random, envelope: &Envelope) -> Option<Clause> {
    let left = any_column(random, envelope);
    join_from(random, envelope, left, |right| right.relation == left.relation)
}

fn join_from(
    random: &mut Random,
    envelope: &Envelope,
    left: ColumnName,
    wanted: impl Fn(ColumnName) -> bool,
) -> Option<Clause> {
    let domain = envelope.column(left).domain;
    let others = envelope.column_names().into_iter();
    let fitting = others.filter(|&right| right != left && envelope.column(right).domain == domain && wanted(right));
    let fitting: Vec<ColumnName> = fitting.collect();
    (!fitting.is_empty()).then(|| Clause::Join {
        left,
        right: random.pick(&fitting),
    })
}

/// Targets so that every relation has a kept column.
fn add_targets(random: &mut Random, envelope: &mut Envelope, largest: bool) {
    for relation in 0..envelope.relations.len() {
        if envelope.kept_columns(relation).is_empty() {
            let column = random.below(envelope.relations[relation].columns.len());
            envelope.targets.push(name(relation, column));
        }
    }
    let more = if largest {
        sizes::TARGETS as usize
    } else {
        random.below(4)
    };
    let wanted = (envelope.targets.len() + more).clamp(1, sizes::TARGETS as usize);
    while envelope.targets.len() < wanted {
        let target = any_column(random, envelope);
        envelope.targets.push(target);
    }
    random.shuffle(&mut envelope.targets);
}
