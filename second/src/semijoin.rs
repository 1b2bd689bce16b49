//! The semi-join on marks, and the one-place run made of it. A mark is a byte per row; nonzero is kept.

use crate::envelope::ColumnName;
use crate::paths::Paths;
use crate::program::Papers;
use crate::tables::Tables;
use std::collections::BTreeSet;

/// Stores 1 where a row of a chosen relation passes the local operations and 0 at every other row.
pub fn open_marks(paths: &Paths, tables: &Tables, chosen: impl Fn(usize) -> bool, marks: &mut [u8]) {
    for relation in 0..tables.relation_count() {
        for (mark, row) in tables.rows(relation) {
            marks[mark] = u8::from(chosen(relation) && paths.passes_local(relation, row));
        }
    }
}

/// The distinct values of a column in its relation's kept rows, rising.
pub fn kept_values(tables: &Tables, marks: &[u8], column: ColumnName) -> BTreeSet<u32> {
    let kept = tables.rows(column.relation).filter(|&(mark, _)| marks[mark] != 0);
    kept.map(|(_, row)| row[column.column]).collect()
}

/// Stores 0 at each row of the column's relation whose value is not among the given; the rest stays.
pub fn keep_only(tables: &Tables, marks: &mut [u8], column: ColumnName, values: &BTreeSet<u32>) {
    for (mark, row) in tables.rows(column.relation) {
        if !values.contains(&row[column.column]) {
            marks[mark] = 0;
        }
    }
}

/// Local operations for all relations, then every step in order.
pub fn run_in_one_place(papers: &Papers, tables: &Tables, marks: &mut [u8]) {
    open_marks(&papers.paths, tables, |_| true, marks);
    for step in &papers.program.steps {
        let values = kept_values(tables, marks, step.right);
        keep_only(tables, marks, step.left, &values);
    }
}
