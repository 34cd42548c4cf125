//! The table of terms: its rows, what lies beneath a row, and refusals 4 and 5.

use crate::refusal::{refused, Refusal};
use crate::term::{Store, Term, TermId};
use std::collections::BTreeSet;

pub const MOST_ROWS: usize = 96;
pub const MOST_VARIABLES: usize = 8;
pub const ROW_BYTES: usize = 3;

pub const TRUSTED_AGENT: u8 = 1;
pub const UNTRUSTED_AGENT: u8 = 2;
pub const GLOBAL_CONSTANT: u8 = 3;
pub const INTRUDER_CONSTANT: u8 = 4;
pub const ROLE_NAME: u8 = 5;
pub const VARIABLE: u8 = 6;
pub const LOCAL_CONSTANT: u8 = 7;
pub const PUBLIC_KEY: u8 = 8;
pub const SECRET_KEY: u8 = 9;
pub const SHARED_KEY: u8 = 10;
pub const PAIR: u8 = 11;
pub const ENCRYPTION: u8 = 12;

/// A variable's type, its right byte.
pub const AGENT_TYPE: u8 = 0;
pub const FRESH_TYPE: u8 = 1;

#[derive(Clone, Copy, Debug, PartialEq, Eq)]
pub struct Row {
    pub kind: u8,
    pub left: u8,
    pub right: u8,
}

impl Row {
    /// The rows it refers to.
    pub fn references(self) -> Vec<usize> {
        match self.kind {
            PUBLIC_KEY | SECRET_KEY => vec![self.left.into()],
            SHARED_KEY | PAIR | ENCRYPTION => vec![self.left.into(), self.right.into()],
            _ => vec![],
        }
    }

    pub fn is_agent(self) -> bool {
        self.kind == TRUSTED_AGENT || self.kind == UNTRUSTED_AGENT
    }

    /// "Agent-like rows have kind 1, 2 or 5, or are variables of type 0."
    fn is_agent_like(self) -> bool {
        self.is_agent()
            || self.kind == ROLE_NAME
            || (self.kind == VARIABLE && self.right == AGENT_TYPE)
    }
}

#[derive(Clone, Debug, Default)]
pub struct Table {
    rows: Vec<Row>,
}

impl Table {
    /// The table that `bytes` state, or refusal 4 or 5 with its place in `bytes`. Rows are judged
    /// one after another, each for 4 and then for 5.
    pub fn read(bytes: &[u8]) -> Result<Table, Refusal> {
        let mut table = Table::default();
        for (number, bytes) in bytes.chunks(ROW_BYTES).enumerate() {
            let place = number * ROW_BYTES;
            let Some(row) = table.next_row(bytes) else {
                return refused(4, place);
            };
            if table.rows.contains(&row) {
                return refused(5, place);
            }
            table.rows.push(row);
        }
        Ok(table)
    }

    /// The row that may follow those before it; none if it is "incomplete, a 97th row, a ninth
    /// variable, or against the table above".
    fn next_row(&self, bytes: &[u8]) -> Option<Row> {
        let &[kind, left, right] = bytes else {
            return None;
        };
        let row = Row { kind, left, right };
        let ninth_variable = kind == VARIABLE && self.variables().count() == MOST_VARIABLES;
        (self.rows.len() < MOST_ROWS && !ninth_variable && self.permits(row)).then_some(row)
    }

    /// Whether the row follows the table of kinds. "Rows referred to are lower than the row
    /// itself": they are among the rows before it.
    fn permits(&self, row: Row) -> bool {
        let left = self.row(row.left.into());
        let right = self.row(row.right.into());
        let agent_like = |row: Option<Row>| row.is_some_and(Row::is_agent_like);
        match row.kind {
            TRUSTED_AGENT | UNTRUSTED_AGENT | GLOBAL_CONSTANT | INTRUDER_CONSTANT
            | LOCAL_CONSTANT => row.right == 0,
            ROLE_NAME => row.left <= 3 && row.right == 0,
            VARIABLE => row.right == AGENT_TYPE || row.right == FRESH_TYPE,
            PUBLIC_KEY | SECRET_KEY => agent_like(left) && row.right == 0,
            SHARED_KEY => agent_like(left) && agent_like(right),
            PAIR => left.is_some_and(|left| left.kind != PAIR) && right.is_some(),
            ENCRYPTION => left.is_some() && right.is_some(),
            _ => false,
        }
    }

    /// The row with that number, if present.
    pub fn row(&self, number: usize) -> Option<Row> {
        self.rows.get(number).copied()
    }

    pub fn has(&self, number: usize) -> bool {
        number < self.rows.len()
    }

    /// The rows of one kind, rising.
    pub fn rows_of_kind(&self, kind: u8) -> impl Iterator<Item = usize> + '_ {
        (0..self.rows.len()).filter(move |&number| self.rows[number].kind == kind)
    }

    fn variables(&self) -> impl Iterator<Item = usize> + '_ {
        self.rows_of_kind(VARIABLE)
    }

    /// The rows beneath a row: every row reached by references, itself and key positions included.
    pub fn beneath(&self, number: usize) -> BTreeSet<usize> {
        let mut beneath = BTreeSet::from([number]);
        for lower in (0..=number).rev() {
            if beneath.contains(&lower) {
                beneath.extend(self.rows[lower].references());
            }
        }
        beneath
    }

    /// Whether a row of one of those kinds lies beneath.
    pub fn has_beneath(&self, number: usize, kinds: &[u8]) -> bool {
        self.beneath(number)
            .into_iter()
            .any(|lower| kinds.contains(&self.rows[lower].kind))
    }

    /// The variables beneath a row, rising.
    pub fn variables_beneath(&self, number: usize) -> Vec<usize> {
        self.beneath(number)
            .into_iter()
            .filter(|&lower| self.rows[lower].kind == VARIABLE)
            .collect()
    }

    /// The role-level term of each row, "role-level terms being atoms".
    pub fn terms(&self, store: &mut Store) -> Vec<TermId> {
        let mut terms: Vec<TermId> = Vec::new();
        for (number, row) in self.rows.iter().enumerate() {
            let part = |number: u8| terms[usize::from(number)];
            let term = match row.kind {
                PUBLIC_KEY => Term::PublicKey(part(row.left)),
                SECRET_KEY => Term::SecretKey(part(row.left)),
                SHARED_KEY => Term::SharedKey(part(row.left), part(row.right)),
                PAIR => Term::Pair(part(row.left), part(row.right)),
                ENCRYPTION => Term::Encryption(part(row.left), part(row.right)),
                _ => self.atom(number),
            };
            terms.push(store.id(term));
        }
        terms
    }

    /// The role-level term of a row of kind 1 to 7.
    pub fn atom(&self, number: usize) -> Term {
        let row = self.rows[number];
        match row.kind {
            TRUSTED_AGENT => Term::TrustedAgent(row.left),
            UNTRUSTED_AGENT => Term::UntrustedAgent(row.left),
            GLOBAL_CONSTANT => Term::GlobalConstant(row.left),
            INTRUDER_CONSTANT => Term::IntruderConstant(row.left),
            ROLE_NAME => Term::RoleName(row.left),
            VARIABLE => Term::Variable(number),
            LOCAL_CONSTANT => Term::LocalConstant(row.left),
            kind => unreachable!("kind {kind} is no atom"),
        }
    }
}
