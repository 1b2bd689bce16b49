//! The envelopes of document 01's figures. Each test takes what it needs of them.
#![allow(dead_code)]

use second::envelope::{name, Clause, Column, Envelope, Relation};

fn column(domain: usize, width: u32, distinct: u32) -> Column {
    Column {
        domain,
        width,
        distinct,
    }
}

/// Figure 3.1 of the report with envelope E1. Domain 0 is S#, 1 is P#; every other column has its own.
pub fn figure_3_1() -> Envelope {
    let supplier = vec![
        column(0, 1, 5000),
        column(2, 3, 1),
        column(3, 3, 1),
        column(4, 3, 1),
        column(5, 3, 50),
    ];
    let supply = vec![
        column(0, 1, 1000),
        column(1, 1, 10_000),
        column(6, 1, 1),
        column(7, 1, 1),
    ];
    let part = vec![
        column(1, 1, 10_000),
        column(8, 1, 200),
        column(9, 1, 1),
        column(10, 3, 1),
    ];
    let mut domains = vec![5000; 11];
    domains[1] = 10_000;
    let target = |(relation, columns): (usize, &'static [usize])| columns.iter().map(move |&c| name(relation, c));
    let targets: [(usize, &[usize]); 3] = [(0, &[0, 1, 2, 3, 4]), (1, &[0, 1, 3]), (2, &[0, 1, 2])];
    Envelope {
        domains,
        relations: vec![
            Relation {
                site: 1,
                rows: 5000,
                columns: supplier,
            },
            Relation {
                site: 2,
                rows: 100_000,
                columns: supply,
            },
            Relation {
                site: 3,
                rows: 10_000,
                columns: part,
            },
        ],
        clauses: vec![
            Clause::Selection {
                column: name(0, 4),
                value: 1,
            },
            Clause::Join {
                left: name(0, 0),
                right: name(1, 0),
            },
            Clause::Join {
                left: name(1, 1),
                right: name(2, 0),
            },
            Clause::Selection {
                column: name(2, 1),
                value: 7401,
            },
        ],
        targets: targets.into_iter().flat_map(target).collect(),
    }
}

pub fn fallback_envelope() -> Envelope {
    Envelope {
        domains: vec![1000],
        relations: vec![
            Relation {
                site: 1,
                rows: 100,
                columns: vec![column(0, 1, 100)],
            },
            Relation {
                site: 2,
                rows: 1000,
                columns: vec![column(0, 1, 1000)],
            },
        ],
        clauses: vec![Clause::Join {
            left: name(0, 0),
            right: name(1, 0),
        }],
        targets: vec![name(0, 0)],
    }
}

/// COUPON (number, date) and WEIGH (number, date, loss), joined on column 0 or 1.
pub fn same_day(joined: usize) -> Envelope {
    Envelope {
        domains: vec![100, 100, 100],
        relations: vec![
            Relation {
                site: 1,
                rows: 3,
                columns: vec![column(0, 1, 3), column(1, 1, 2)],
            },
            Relation {
                site: 2,
                rows: 4,
                columns: vec![column(0, 1, 3), column(1, 1, 2), column(2, 1, 3)],
            },
        ],
        clauses: vec![Clause::Join {
            left: name(0, joined),
            right: name(1, joined),
        }],
        targets: vec![name(0, 0), name(1, 2)],
    }
}

pub const SAME_DAY_TABLES: [u32; 20] = [3, 4, 11, 20, 12, 20, 13, 21, 11, 20, 5, 12, 20, 7, 12, 20, 7, 14, 22, 3];
