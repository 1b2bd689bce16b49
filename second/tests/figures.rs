//! The figures of document 01, one by one.

mod common;

use common::*;
use second::boundary;
use second::envelope::{envelope_fields, name, read_envelope, write_envelope, Clause};
use second::estimates::{estimate, y};
use second::paths::Paths;
use second::planner::{listing, plan};
use second::program::{read_papers, write_program, Program, Step};
use second::reader::bytes_of;
use second::refusal::Refusal;

#[test]
fn values_of_y() {
    assert_eq!(y(25, 500, 10), 10);
    assert_eq!(y(1000, 100_000, 500), 500);
    assert_eq!(y(10, 100, 4), 4);
    assert_eq!(y(10, 100, 5), 5);
    assert_eq!(y(10, 100, 19), 9);
    assert_eq!(y(10, 100, 20), 10);
    assert_eq!(y(1, 5, 1), 0);
}

#[test]
fn figure_3_1_listing() {
    let expected = "left column right column benefit cost\n\
                    1 1 2 0 298500 50\n\
                    1 0 0 0 1470 100\n\
                    0 0 1 0 1300 10\n\
                    2 0 1 1 150 10\n\
                    site 2 assembly 0 total 170 local 1450\n";
    assert_eq!(listing(&write_envelope(&figure_3_1())), expected);
}

#[test]
fn figure_3_1_two_step_program() {
    let envelope = figure_3_1();
    let steps = [step(1, 1, 2, 0), step(1, 0, 0, 0)];
    let two = estimate(&envelope, &Paths::of(&envelope), &steps, 1);
    assert_eq!((two.steps[0].benefit, two.steps[0].cost), (298_500, 50));
    assert_eq!((two.steps[1].benefit, two.steps[1].cost), (1470, 100));
    assert_eq!((two.assembly, two.total), (180, 330));
}

#[test]
fn fallback() {
    let envelope = fallback_envelope();
    let paths = Paths::of(&envelope);
    assert_eq!(estimate(&envelope, &paths, &[step(1, 0, 0, 0)], 2).total, 200);
    let plan = plan(&envelope);
    assert_eq!(plan.history.greedy, 1);
    assert_eq!(plan.program, Program { site: 2, steps: vec![] });
    assert_eq!((plan.estimate.total, plan.local_total), (100, 100));
    let printed = "left column right column benefit cost\nsite 2 assembly 100 total 100 local 100\n";
    assert_eq!(listing(&write_envelope(&envelope)), printed);
}

#[test]
fn same_day_joined_on_number() {
    let envelope = write_envelope(&same_day(0));
    let mut out = [9; 8];
    assert_eq!(boundary::answer(&envelope, &SAME_DAY_TABLES, &mut out), Ok(6));
    assert_eq!(out, [11, 5, 12, 7, 12, 7, 9, 9]);
}

#[test]
fn same_day_joined_on_date() {
    let envelope = write_envelope(&same_day(1));
    let mut out = [9; 12];
    assert_eq!(boundary::answer(&envelope, &SAME_DAY_TABLES, &mut out), Ok(12));
    assert_eq!(out, [11, 5, 11, 7, 11, 7, 12, 5, 12, 7, 12, 7]);
    assert_eq!(
        boundary::answer(&envelope, &SAME_DAY_TABLES, &mut out[..11]),
        Err(Refusal { number: 11, with: 0 })
    );
}

#[test]
fn same_day_reduced_on_date() {
    let envelope = write_envelope(&same_day(1));
    let program = write_program(&Program {
        site: 1,
        steps: vec![step(0, 1, 1, 1)],
    });
    let mut marks = [9; 9];
    assert_eq!(
        boundary::run_in_one_place(&envelope, &program, &SAME_DAY_TABLES, &mut marks),
        Ok(0)
    );
    assert_eq!(marks, [1, 1, 0, 1, 1, 1, 1, 9, 9]);
}

#[test]
fn clause_limit() {
    let mut envelope = same_day(0);
    envelope.clauses = vec![
        Clause::Selection {
            column: name(0, 0),
            value: 11
        };
        12
    ];
    envelope.targets.push(name(1, 0));
    assert!(read_envelope(&write_envelope(&envelope)).is_ok());
    envelope.clauses.push(envelope.clauses[0]);
    let fields = envelope_fields(&envelope);
    let count = 5 + 1 + 3 * 4 + 1 + (6 + 2 * 6) + (6 + 3 * 6);
    assert_eq!(
        read_envelope(&bytes_of(&fields)),
        Err(Refusal { number: 4, with: count })
    );
}

#[test]
fn step_limit() {
    let envelope = write_envelope(&same_day(0));
    let of = |count| {
        write_program(&Program {
            site: 1,
            steps: vec![step(0, 0, 1, 0); count],
        })
    };
    assert_eq!(boundary::read_program(&envelope, &of(156)), Ok(0));
    assert_eq!(
        boundary::read_program(&envelope, &of(157)),
        Err(Refusal { number: 4, with: 6 })
    );
}

#[test]
fn empty_file() {
    assert_eq!(listing(&[]), "refused 1 0\n");
    assert_eq!(boundary::read_envelope(&[]), Err(Refusal { number: 1, with: 0 }));
}

#[test]
fn empty_value_message_removes_every_row() {
    let envelope = write_envelope(&same_day(1));
    let program = write_program(&Program {
        site: 1,
        steps: vec![step(0, 1, 1, 1)],
    });
    let (mut marks, mut state) = ([9; 7], [8; 19]);
    boundary::open(&envelope, &program, 1, 5, &SAME_DAY_TABLES, &mut marks, &mut state).unwrap();
    assert_eq!(marks, [1, 1, 1, 0, 0, 0, 0]);
    let mut receive = |message: &[u32]| {
        boundary::receive(
            &envelope,
            &program,
            &mut state,
            &SAME_DAY_TABLES,
            &mut marks,
            &mut [],
            message,
        )
    };
    assert_eq!(receive(&[5, 0, 0]), Ok(0));
    assert_eq!(receive(&[5, 0, 0]), Err(Refusal { number: 16, with: 0 }));
    assert_eq!(marks, [0; 7]);
    assert_eq!(state[3..5], [1, 0]);
}

#[test]
fn the_writers_bytes_read_back() {
    let envelope = write_envelope(&figure_3_1());
    assert_eq!(read_envelope(&envelope).unwrap(), figure_3_1());
    let program = plan(&figure_3_1()).program;
    assert_eq!(
        read_papers(&envelope, &write_program(&program)).unwrap().program,
        program
    );
}

fn step(left: usize, left_column: usize, right: usize, right_column: usize) -> Step {
    Step {
        left: name(left, left_column),
        right: name(right, right_column),
    }
}
