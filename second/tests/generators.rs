//! The generators give what they are there for: sound papers are accepted, and every kind of case turns up.

use second::envelope::{read_envelope, write_envelope, Clause, Envelope};
use second::generate::runs::Kind;
use second::generate::{batch, envelopes, link, programs, Record};
use second::paths::{Class, Paths};
use second::program::{read_papers, write_program};
use second::random::Random;
use second::refusal::LAST_NUMBER;

const SEED: u64 = 4;

#[test]
fn sound_papers_are_accepted_and_of_every_kind() {
    let mut random = Random::new(SEED);
    let mut counts = [0; KINDS.len()];
    for _ in 0..2_000 {
        let envelope = envelopes::envelope(&mut random);
        let bytes = write_envelope(&envelope);
        assert_eq!(read_envelope(&bytes).as_ref(), Ok(&envelope));
        let program = programs::program(&mut random, &envelope);
        assert_eq!(
            read_papers(&bytes, &write_program(&program)).map(|papers| papers.program),
            Ok(program)
        );
        for (count, (_, holds)) in counts.iter_mut().zip(KINDS) {
            *count += usize::from(holds(&envelope));
        }
    }
    for ((name, _), count) in KINDS.iter().zip(counts) {
        assert!(count >= 20, "{name}: only {count}");
    }
}

type Holds = fn(&Envelope) -> bool;

const KINDS: [(&str, Holds); 9] = [
    ("several relations on one site", |envelope| {
        envelope.sites().len() < envelope.relations.len()
    }),
    ("no clauses", |envelope| envelope.clauses.is_empty()),
    ("a join that is only implied", |envelope| {
        any_class(envelope, |class| class.columns.len() > 2)
    }),
    ("joins through constants", joined_through_constants),
    ("two constants in one class", |envelope| {
        any_class(envelope, |class| class.constants.len() > 1)
    }),
    ("an equality in one relation", |envelope| {
        any_class(envelope, same_relation_twice)
    }),
    ("no rows", |envelope| {
        envelope.relations.iter().any(|relation| relation.rows == 0)
    }),
    ("the largest sizes", |envelope| {
        envelope.relations.len() == 8 && envelope.relations[0].columns.len() == 8
    }),
    ("a target twice", |envelope| {
        (1..envelope.targets.len()).any(|n| envelope.targets[..n].contains(&envelope.targets[n]))
    }),
];

fn any_class(envelope: &Envelope, holds: fn(&Class) -> bool) -> bool {
    Paths::of(envelope).classes.iter().any(holds)
}

fn same_relation_twice(class: &Class) -> bool {
    class
        .columns
        .windows(2)
        .any(|pair| pair[0].relation == pair[1].relation)
}

/// Without its selections the envelope would have fewer legal steps.
fn joined_through_constants(envelope: &Envelope) -> bool {
    let mut joins = envelope.clone();
    joins.clauses.retain(|clause| matches!(clause, Clause::Join { .. }));
    Paths::of(&joins).legal_steps().len() < Paths::of(envelope).legal_steps().len()
}

#[test]
fn the_longest_envelope_is_621_bytes() {
    let bytes = write_envelope(&envelopes::longest_envelope());
    assert_eq!(bytes.len(), 621);
    // Only relation 7 has a target, but every relation has a selection.
    assert!(read_envelope(&bytes).is_ok());
}

#[test]
fn batches_hit_every_number_and_are_the_same_again() {
    let mut hit = [0; LAST_NUMBER + 1];
    for number in 0..3 {
        let record = batch(SEED, number, 2_000);
        record
            .calls
            .iter()
            .for_each(|(_, outcome)| hit[outcome.number as usize] += 1);
        assert!(record.whole_runs.all > 0);
        assert_eq!(record.calls, batch(SEED, number, 2_000).calls);
    }
    assert!(hit.iter().all(|&count| count >= 10), "{hit:?}");
}

#[test]
fn whole_runs_have_what_they_are_there_for() {
    let (mut random, mut record) = (Random::new(SEED), Record::default());
    for _ in 0..400 {
        link::whole_run(&mut random, &mut record);
    }
    let least = [
        (Kind::SeveralSteps, 320),
        (Kind::OneRelationTwice, 240),
        (Kind::WithinOneSite, 100),
        (Kind::RowsRemoved, 240),
        (Kind::Lost, 240),
        (Kind::Repeated, 320),
        (Kind::Reordered, 160),
        (Kind::PartlyAnswered, 300),
    ];
    for (kind, least) in least {
        let count = record.whole_runs.with(kind);
        assert!(count >= least, "{kind:?}: only {count} of 400");
    }
    // Whatever is usual, the other is met too.
    for kind in [Kind::Steps, Kind::Answered] {
        assert!(record.whole_runs.with(kind) < 396, "{kind:?}: nearly always");
    }
}
