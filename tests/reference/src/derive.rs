//! Derive: whether a row of a table is derivable from listed rows.

use crate::knowledge::Knowledge;
use crate::refusal::{refused, Refusal};
use crate::table::Table;
use crate::term::{Store, TermId};

/// "a table, a list of rows (one byte each, any order, repeats allowed) and a target, role-level
/// terms being atoms. 4 and 5 as Open, with places in the table; then 11, a listed row absent,
/// place in the list, or the target absent, place the list's length."
pub fn derive(table: &[u8], list: &[u8], target: u8) -> Result<bool, Refusal> {
    let table = Table::read(table)?;
    let absent = |row: u8| !table.has(row.into());
    if let Some(place) = list.iter().position(|&row| absent(row)) {
        return refused(11, place);
    }
    if absent(target) {
        return refused(11, list.len());
    }
    let mut store = Store::default();
    let terms = table.terms(&mut store);
    let known: Vec<TermId> = list.iter().map(|&row| terms[usize::from(row)]).collect();
    Ok(Knowledge::of(&mut store, &known).derives(&store, terms[usize::from(target)]))
}
