//! Columns and constants are nodes, clauses are edges; everything joined by a path is equal.
//! Implied clauses and legal steps follow from the classes of nodes so joined.

use crate::envelope::{Clause, ColumnName, Envelope};
use crate::program::Step;

#[derive(Clone, Copy, PartialEq, Eq)]
enum Node {
    Column(ColumnName),
    /// A constant belongs to its column's domain, so 5 in two domains is two nodes.
    Constant {
        domain: usize,
        value: u32,
    },
}

/// One class of equal things: its columns and its constants, both rising and each once.
#[derive(Clone, Debug, Default, PartialEq, Eq)]
pub struct Class {
    pub columns: Vec<ColumnName>,
    pub constants: Vec<u32>,
}

pub struct Paths {
    pub classes: Vec<Class>,
}

/// R.A = k.
#[derive(Clone, Copy, Debug, PartialEq, Eq, PartialOrd, Ord)]
pub struct ImpliedSelection {
    pub column: ColumnName,
    pub value: u32,
}

impl Paths {
    pub fn of(envelope: &Envelope) -> Paths {
        let mut groups: Vec<Vec<Node>> = Vec::new();
        for clause in &envelope.clauses {
            add_edge(&mut groups, ends_of(envelope, clause));
        }
        Paths {
            classes: groups.into_iter().map(class_of).collect(),
        }
    }

    pub fn on_a_path(&self, one: ColumnName, other: ColumnName) -> bool {
        let holds_both = |class: &Class| class.columns.contains(&one) && class.columns.contains(&other);
        self.classes.iter().any(holds_both)
    }

    pub fn is_legal(&self, step: Step) -> bool {
        step.left.relation != step.right.relation && self.on_a_path(step.left, step.right)
    }

    /// Every legal step once, in the order for ties.
    pub fn legal_steps(&self) -> Vec<Step> {
        let mut steps = Vec::new();
        for class in &self.classes {
            for &left in &class.columns {
                let all = class.columns.iter().map(|&right| Step { left, right });
                steps.extend(all.filter(|&step| self.is_legal(step)));
            }
        }
        steps.sort();
        steps
    }

    /// Every implied selection once, in order of relation, column, value.
    pub fn implied_selections(&self) -> Vec<ImpliedSelection> {
        let mut all = Vec::new();
        for class in &self.classes {
            for &column in &class.columns {
                all.extend(class.constants.iter().map(|&value| ImpliedSelection { column, value }));
            }
        }
        all.sort();
        all
    }

    /// The local operations of one relation on one true row: all R.A = k and all R.A = R.B.
    pub fn passes_local(&self, relation: usize, row: &[u32]) -> bool {
        self.classes.iter().all(|class| {
            let of_relation = class.columns.iter().filter(|name| name.relation == relation);
            let mut values = of_relation.map(|name| row[name.column]);
            match values.next() {
                None => true,
                Some(first) => values.all(|value| value == first) && class.constants.iter().all(|&k| k == first),
            }
        })
    }
}

fn ends_of(envelope: &Envelope, clause: &Clause) -> [Node; 2] {
    match *clause {
        Clause::Selection { column, value } => {
            let domain = envelope.column(column).domain;
            [Node::Column(column), Node::Constant { domain, value }]
        }
        Clause::Join { left, right } => [Node::Column(left), Node::Column(right)],
    }
}

/// Joins the groups that hold either end into one, with both ends in it.
fn add_edge(groups: &mut Vec<Vec<Node>>, ends: [Node; 2]) {
    let touched = |group: &Vec<Node>| group.iter().any(|node| ends.contains(node));
    let (joined, apart): (Vec<_>, Vec<_>) = groups.drain(..).partition(touched);
    let mut group: Vec<Node> = joined.concat();
    for end in ends {
        if !group.contains(&end) {
            group.push(end);
        }
    }
    *groups = apart;
    groups.push(group);
}

fn class_of(group: Vec<Node>) -> Class {
    let mut class = Class::default();
    for node in group {
        match node {
            Node::Column(name) => class.columns.push(name),
            Node::Constant { value, .. } => class.constants.push(value),
        }
    }
    class.columns.sort();
    class.constants.sort();
    class
}
