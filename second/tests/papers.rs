//! Refusals 1 to 9 with their positions, paths, implied clauses and legal steps.

mod common;

use common::*;
use second::envelope::{name, read_envelope, write_envelope, Clause, Envelope};
use second::estimates::Profile;
use second::paths::Paths;
use second::program::{read_papers, write_program, Program, Step};
use second::refusal::Refusal;

fn refused(bytes: &[u8]) -> (u32, u32) {
    let Refusal { number, with } = read_envelope(bytes).expect_err("refused");
    (number, with)
}

fn refused_program(envelope: &Envelope, program: &[u8]) -> (u32, u32) {
    let found = read_papers(&write_envelope(envelope), program).err();
    found.map(|refusal| (refusal.number, refusal.with)).expect("refused")
}

/// The same-day envelope: domains at 5, relation count at 18, relations at 19 and 37, clauses at 61, targets at 67.
fn bytes() -> Vec<u8> {
    write_envelope(&same_day(0))
}

fn changed(place: usize, byte: u8) -> Vec<u8> {
    let mut bytes = bytes();
    bytes[place] = byte;
    bytes
}

#[test]
fn every_cut_is_1_at_the_field_that_is_missing() {
    let starts = [
        0, 3, 5, 6, 10, 14, 18, 19, 20, 21, 25, 26, 27, 31, 32, 33, 37, 38, 39, 43, 44, 45, 49, 50, 51, 55, 56, 57,
    ];
    let bytes = bytes();
    for length in 0..bytes.len() {
        let (number, with) = refused(&bytes[..length]);
        let last = starts
            .iter()
            .copied()
            .filter(|&start| start <= length)
            .max()
            .unwrap_or(0);
        assert_eq!(number, 1);
        assert!(
            with as usize <= length && (length > 60 || with as usize == last),
            "cut at {length} gave {with}"
        );
    }
}

#[test]
fn mark_and_version() {
    assert_eq!(refused(b"CX"), (1, 0));
    assert_eq!(refused(b"CPM"), (2, 0));
    assert_eq!(refused(&changed(3, 2)), (3, 3));
    assert_eq!(refused(&changed(4, 1)), (3, 3));
}

#[test]
fn numbers_beyond_their_limits() {
    assert_eq!(refused(&changed(5, 0)), (4, 5));
    assert_eq!(refused(&changed(5, 17)), (4, 5));
    assert_eq!(refused(&changed(6, 0)), (4, 6));
    assert_eq!(refused(&changed(9, 1)), (4, 6));
    assert_eq!(refused(&changed(18, 9)), (4, 18));
    assert_eq!(refused(&changed(19, 8)), (4, 19));
    assert_eq!(refused(&changed(20, 0)), (4, 20));
    assert_eq!(refused(&changed(24, 1)), (4, 21));
    assert_eq!(refused(&changed(25, 3)), (4, 25));
    assert_eq!(refused(&changed(26, 0)), (4, 26));
    assert_eq!(refused(&changed(27, 4)), (4, 27));
    assert_eq!(refused(&changed(27, 0)), (4, 27));
    assert_eq!(refused(&changed(62, 3)), (4, 62));
    assert_eq!(refused(&changed(63, 2)[..64]), (4, 63));
    assert_eq!(refused(&changed(64, 2)), (4, 64));
    assert_eq!(refused(&changed(67, 0)), (4, 67));
    assert_eq!(refused(&changed(67, 17)), (4, 67));
}

#[test]
fn joins_left_over_bytes_and_kept_columns() {
    assert_eq!(refused(&changed(66, 1)), (5, 62));
    let mut envelope = same_day(0);
    envelope.clauses[0] = Clause::Join {
        left: name(1, 2),
        right: name(1, 2),
    };
    assert_eq!(refused(&write_envelope(&envelope)), (6, 62));
    let mut long = bytes();
    long.push(0);
    assert_eq!(refused(&long), (7, 72));
    envelope.clauses.clear();
    envelope.targets = vec![name(0, 0)];
    let mut unkept = write_envelope(&envelope);
    assert_eq!(refused(&unkept), (9, 1));
    unkept.push(0);
    assert_eq!(refused(&unkept), (7, unkept.len() as u32 - 1));
}

#[test]
fn programs() {
    let envelope = same_day(0);
    let step = |left, right| Step { left, right };
    let sound = Program {
        site: 1,
        steps: vec![step(name(0, 0), name(1, 0)), step(name(1, 0), name(0, 0))],
    };
    let bytes = write_program(&sound);
    assert_eq!(read_papers(&write_envelope(&envelope), &bytes).unwrap().program, sound);
    assert_eq!(refused_program(&envelope, &bytes[..6]), (1, 6));
    let with = |place: usize, byte: u8| {
        let mut bytes = bytes.clone();
        bytes[place] = byte;
        refused_program(&envelope, &bytes)
    };
    assert_eq!(with(0, 67), (2, 0));
    assert_eq!(with(5, 3), (4, 5));
    assert_eq!(with(7, 2), (4, 7));
    assert_eq!(with(8, 2), (4, 8));
    assert_eq!(with(9, 0), (8, 0));
    assert_eq!(with(14, 1), (8, 1));
    assert_eq!(refused_program(&envelope, &[bytes.clone(), vec![0]].concat()), (7, 15));
}

/// R.A = 5, S.B = 5 in one domain; R.A = T.C; T.C = T.D.
fn joined_through_a_constant() -> Envelope {
    let mut envelope = same_day(0);
    let column = envelope.relations[0].columns[0].clone();
    envelope
        .relations
        .iter_mut()
        .for_each(|relation| relation.columns = vec![column.clone(); 2]);
    let third = envelope.relations[0].clone();
    envelope.relations.push(third);
    envelope.clauses = vec![
        Clause::Selection {
            column: name(0, 0),
            value: 5,
        },
        Clause::Selection {
            column: name(1, 1),
            value: 5,
        },
        Clause::Join {
            left: name(0, 0),
            right: name(2, 0),
        },
        Clause::Join {
            left: name(2, 0),
            right: name(2, 1),
        },
    ];
    envelope
}

#[test]
fn paths_go_through_constants() {
    let mut envelope = joined_through_a_constant();
    let paths = Paths::of(&envelope);
    assert_eq!(paths.classes.len(), 1);
    assert_eq!(paths.implied_selections().len(), 4);
    assert_eq!(paths.legal_steps().len(), 4 * 3 - 2);
    assert!(paths.is_legal(Step {
        left: name(0, 0),
        right: name(1, 1)
    }));
    assert!(!paths.is_legal(Step {
        left: name(2, 0),
        right: name(2, 1)
    }));
    assert!(paths.passes_local(2, &[5, 5]) && !paths.passes_local(2, &[5, 6]) && !paths.passes_local(2, &[6, 6]));
    // In another domain 5 is another node.
    envelope.relations[1].columns[1].domain = 1;
    assert_eq!(Paths::of(&envelope).legal_steps().len(), 4);
}

#[test]
fn two_constants_in_one_class() {
    let mut envelope = joined_through_a_constant();
    envelope.clauses[1] = Clause::Selection {
        column: name(0, 0),
        value: 6,
    };
    let paths = Paths::of(&envelope);
    assert_eq!(paths.classes[0].constants, [5, 6]);
    assert_eq!(paths.implied_selections().len(), 6);
    assert!(!paths.passes_local(0, &[5, 0]) && !paths.passes_local(0, &[6, 0]));
    // 3 rows, 3 distinct: the first selection leaves 1 row, the second goes by d = 1; Y(3,3,1) = 1, Y(1,1,1) = 0.
    let profile = Profile::local(&envelope, &paths);
    assert_eq!(
        (profile.rows[0], profile.distinct[0].as_slice()),
        (1, [1, 0].as_slice())
    );
}
