//! Estimates: the profile of an envelope's relations, and what steps and assembly cost by it.
//! Divisions round down. Every number fits 64 bits (OPEN-POINTS, part F).

use crate::envelope::{name, ColumnName, Envelope};
use crate::paths::Paths;
use crate::program::Step;

/// How many of m colours are hit when r of n objects are drawn; n plays no part in the approximation.
pub fn y(m: u64, _n: u64, r: u64) -> u64 {
    if 2 * r < m {
        r
    } else if r < 2 * m {
        (r + m) / 3
    } else {
        m
    }
}

/// Estimated rows of each relation and distinct counts of each of its columns.
#[derive(Clone, Debug, PartialEq, Eq)]
pub struct Profile {
    pub rows: Vec<u64>,
    pub distinct: Vec<Vec<u64>>,
}

impl Profile {
    pub fn of(envelope: &Envelope) -> Profile {
        let rows = envelope
            .relations
            .iter()
            .map(|relation| u64::from(relation.rows))
            .collect();
        let counts = envelope.relations.iter().map(|relation| {
            let columns = relation.columns.iter();
            columns.map(|column| u64::from(column.distinct)).collect()
        });
        Profile {
            rows,
            distinct: counts.collect(),
        }
    }

    /// The profile after the local operations. R.A = R.B leaves the estimate as it is.
    pub fn local(envelope: &Envelope, paths: &Paths) -> Profile {
        let selections = paths.implied_selections();
        let start = Profile::of(envelope);
        selections
            .iter()
            .fold(start, |profile, selection| profile.after_selection(selection.column))
    }

    pub fn count(&self, column: ColumnName) -> u64 {
        self.distinct[column.relation][column.column]
    }

    pub fn after_selection(&self, column: ColumnName) -> Profile {
        let rows = self.rows[column.relation].checked_div(self.count(column)).unwrap_or(0);
        self.reduced(column, rows, rows.min(1))
    }

    pub fn after_step(&self, envelope: &Envelope, step: Step) -> Profile {
        let domain = u64::from(envelope.domain_size(step.left));
        let matching = self.count(step.right);
        let rows = self.rows[step.left.relation] * matching / domain;
        self.reduced(step.left, rows, self.count(step.left) * matching / domain)
    }

    /// The relation of `column` has new rows, the column a new count, the other columns theirs by Y.
    fn reduced(&self, column: ColumnName, rows: u64, count: u64) -> Profile {
        let mut reduced = self.clone();
        let relation = column.relation;
        reduced.rows[relation] = rows;
        for other in 0..self.distinct[relation].len() {
            let old = self.count(name(relation, other));
            reduced.distinct[relation][other] = y(old, self.rows[relation], rows);
        }
        reduced.distinct[relation][column.column] = count;
        reduced
    }

    pub fn benefit(&self, envelope: &Envelope, step: Step) -> u64 {
        let relation = step.left.relation;
        let lost = self.rows[relation] - self.after_step(envelope, step).rows[relation];
        relation_width(envelope, relation) * lost
    }

    pub fn cost(&self, envelope: &Envelope, step: Step) -> u64 {
        let site = |column: ColumnName| envelope.relations[column.relation].site;
        if site(step.left) == site(step.right) {
            return 0;
        }
        self.count(step.right) * u64::from(envelope.column(step.right).width)
    }

    pub fn assembly(&self, envelope: &Envelope, site: u32) -> u64 {
        let all = 0..envelope.relations.len();
        let elsewhere = all.filter(|&relation| envelope.relations[relation].site != site);
        elsewhere
            .map(|relation| self.rows[relation] * relation_width(envelope, relation))
            .sum()
    }

    /// The cheapest site that holds a relation, the lowest number on a tie.
    pub fn cheapest_site(&self, envelope: &Envelope) -> u32 {
        let sites = envelope.sites().into_iter();
        let cheapest = sites.min_by_key(|&site| (self.assembly(envelope, site), site));
        cheapest.expect("an envelope has a relation, so some site holds one")
    }
}

/// The width of a relation: the sum of its kept columns' widths.
pub fn relation_width(envelope: &Envelope, relation: usize) -> u64 {
    let kept = envelope.kept_columns(relation).into_iter();
    kept.map(|column| u64::from(envelope.relations[relation].columns[column].width))
        .sum()
}

#[derive(Clone, Copy, Debug, PartialEq, Eq)]
pub struct StepEstimate {
    pub benefit: u64,
    pub cost: u64,
}

#[derive(Clone, Debug, PartialEq, Eq)]
pub struct Estimate {
    pub steps: Vec<StepEstimate>,
    pub assembly: u64,
    pub total: u64,
}

/// What the steps and the assembly at a site come to, from the local operations on.
pub fn estimate(envelope: &Envelope, paths: &Paths, steps: &[Step], site: u32) -> Estimate {
    let mut profile = Profile::local(envelope, paths);
    let mut each = Vec::new();
    for &step in steps {
        each.push(StepEstimate {
            benefit: profile.benefit(envelope, step),
            cost: profile.cost(envelope, step),
        });
        profile = profile.after_step(envelope, step);
    }
    let assembly = profile.assembly(envelope, site);
    let total = assembly + each.iter().map(|step| step.cost).sum::<u64>();
    Estimate {
        steps: each,
        assembly,
        total,
    }
}
