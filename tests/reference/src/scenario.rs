//! The scenario that a file states, or why there is none: Open, refusals 1 to 9.

use crate::frame::{frame, Block};
use crate::refusal::{refused, Refusal};
use crate::table::{Table, LOCAL_CONSTANT, ROLE_NAME, ROW_BYTES, TRUSTED_AGENT, VARIABLE};
use crate::wellformed::first_ill_formed_event;

pub const MOST_ROLES: usize = 4;
pub const MOST_RUNS: usize = 4;
pub const MOST_EVENTS: usize = 8;
const EVENT_BYTES: usize = 4;

#[derive(Clone, Copy, Debug, PartialEq, Eq)]
pub enum Action {
    Send,
    Read,
    Claim,
}

#[derive(Clone, Copy, Debug, PartialEq, Eq)]
pub struct Event {
    pub action: Action,
    /// The other role of a send or a read; a claim has none and 0 stands there.
    pub peer: usize,
    pub row: usize,
}

#[derive(Clone, Debug)]
pub struct Role {
    pub knowledge: Vec<usize>,
    pub events: Vec<Event>,
}

#[derive(Clone, Debug)]
pub struct Run {
    pub role: usize,
    /// The row of the agent for each role of the file.
    pub agents: Vec<usize>,
}

#[derive(Clone, Debug)]
pub struct Scenario {
    pub budget: u32,
    pub table: Table,
    pub roles: Vec<Role>,
    pub runs: Vec<Run>,
    pub knowledge: Vec<usize>,
}

/// The scenario of a file, or the first of refusals 1 to 9.
pub fn open(file: &[u8]) -> Result<Scenario, Refusal> {
    let frame = frame(file)?;
    let table =
        Table::read(frame.terms.bytes).map_err(|refusal| refusal.moved(frame.terms.place))?;
    let records = role_records(frame.roles);
    let roles = roles(&table, &records)?;
    refuse_absent_role(&table, roles.len(), frame.terms.place)?;
    refuse_ill_formed_event(&table, &roles, &records)?;
    let runs = runs(&table, roles.len(), frame.runs)?;
    let knowledge = knowledge(&table, frame.knowledge)?;
    Ok(Scenario {
        budget: frame.budget,
        table,
        roles,
        runs,
        knowledge,
    })
}

/// A role record as its counts delimit it.
struct RoleRecord<'a> {
    place: usize,
    /// None if the record is incomplete.
    parts: Option<RoleParts<'a>>,
}

#[derive(Clone, Copy)]
struct RoleParts<'a> {
    knowledge: &'a [u8],
    events: &'a [u8],
}

impl RoleParts<'_> {
    /// The record's length, its two counts included.
    fn length(&self) -> usize {
        self.events_at() + self.events.len()
    }

    /// Where the first event stands in the record.
    fn events_at(&self) -> usize {
        self.knowledge.len() + 2
    }
}

/// Every record that begins in the block. Where one begins is found by the counts of those before
/// it alone, whatever else is wrong with them; an incomplete record takes all that is left.
fn role_records(block: Block) -> Vec<RoleRecord> {
    let mut records = Vec::new();
    let mut at = 0;
    while at < block.bytes.len() {
        let parts = role_parts(&block.bytes[at..]);
        records.push(RoleRecord {
            place: block.place + at,
            parts,
        });
        at = parts.map_or(block.bytes.len(), |parts| at + parts.length());
    }
    records
}

/// The parts of the record at the front of `bytes`, unless it is incomplete.
fn role_parts(bytes: &[u8]) -> Option<RoleParts<'_>> {
    let (knowledge, bytes) = counted(bytes, 1)?;
    let (events, _) = counted(bytes, EVENT_BYTES)?;
    Some(RoleParts { knowledge, events })
}

/// The items that follow a count byte, `size` bytes each, and what comes after them.
fn counted(bytes: &[u8], size: usize) -> Option<(&[u8], &[u8])> {
    let (&count, bytes) = bytes.split_first()?;
    let length = usize::from(count) * size;
    (length <= bytes.len()).then(|| bytes.split_at(length))
}

/// The roles, or refusal 6 at the first record that is none.
fn roles(table: &Table, records: &[RoleRecord]) -> Result<Vec<Role>, Refusal> {
    // "A role is present if its record is one of the first four and begins in the block, complete
    // or not."
    let present = records.len().min(MOST_ROLES);
    let mut roles = Vec::new();
    for (number, record) in records.iter().enumerate() {
        let role = record.parts.and_then(|parts| role(table, present, parts));
        match role {
            Some(role) if number < MOST_ROLES => roles.push(role),
            _ => return refused(6, record.place),
        }
    }
    Ok(roles)
}

/// The role of a complete record, if it is within the rules.
fn role(table: &Table, present: usize, parts: RoleParts) -> Option<Role> {
    let knowledge: Vec<usize> = parts.knowledge.iter().map(|&row| row.into()).collect();
    let events = parts.events.chunks(EVENT_BYTES);
    if !rising(&knowledge)
        || !knowledge.iter().all(|&row| is_known_at_start(table, row))
        || events.len() > MOST_EVENTS
    {
        return None;
    }
    let events = events
        .map(|bytes| event(table, present, bytes))
        .collect::<Option<_>>()?;
    Some(Role { knowledge, events })
}

/// "each above the one before"
fn rising(rows: &[usize]) -> bool {
    rows.windows(2).all(|pair| pair[0] < pair[1])
}

/// "with peer and rows present and no variable beneath its knowledge"
fn is_known_at_start(table: &Table, row: usize) -> bool {
    table.has(row) && !table.has_beneath(row, &[VARIABLE])
}

/// The event of four bytes, if it is within the rules. Its label may be any byte.
fn event(table: &Table, present: usize, bytes: &[u8]) -> Option<Event> {
    let &[kind, _label, peer, row] = bytes else {
        return None;
    };
    let event = Event {
        action: action(kind)?,
        peer: peer.into(),
        row: row.into(),
    };
    let peer_stands = match event.action {
        Action::Send | Action::Read => event.peer < present,
        Action::Claim => event.peer == 0,
    };
    (peer_stands && table.has(event.row)).then_some(event)
}

fn action(kind: u8) -> Option<Action> {
    match kind {
        0 => Some(Action::Send),
        1 => Some(Action::Read),
        2 => Some(Action::Claim),
        _ => None,
    }
}

/// "after all records, a row naming an absent role, place that row", used or not.
fn refuse_absent_role(table: &Table, present: usize, place: usize) -> Result<(), Refusal> {
    let names_absent_role = |&row: &usize| {
        table
            .row(row)
            .is_some_and(|row| usize::from(row.left) >= present)
    };
    match table.rows_of_kind(ROLE_NAME).find(names_absent_role) {
        Some(row) => refused(6, place + row * ROW_BYTES),
        None => Ok(()),
    }
}

/// Refusal 7: "the first event in role order that is not well formed".
fn refuse_ill_formed_event(
    table: &Table,
    roles: &[Role],
    records: &[RoleRecord],
) -> Result<(), Refusal> {
    for (number, (role, record)) in roles.iter().zip(records).enumerate() {
        if let (Some(event), Some(parts)) =
            (first_ill_formed_event(table, number, role), record.parts)
        {
            return refused(7, record.place + parts.events_at() + event * EVENT_BYTES);
        }
    }
    Ok(())
}

/// The runs, or refusal 8 at the first record that is none. With no roles a record is its role
/// byte.
fn runs(table: &Table, present: usize, block: Block) -> Result<Vec<Run>, Refusal> {
    let length = 1 + present;
    let mut runs = Vec::new();
    for (number, bytes) in block.bytes.chunks(length).enumerate() {
        match run(table, present, bytes) {
            Some(run) if number < MOST_RUNS => runs.push(run),
            _ => return refused(8, block.place + number * length),
        }
    }
    Ok(runs)
}

/// The run of a record; none if it is incomplete or has "an absent role or a row that is no agent".
fn run(table: &Table, present: usize, bytes: &[u8]) -> Option<Run> {
    let (&role, agents) = bytes.split_first()?;
    let run = Run {
        role: role.into(),
        agents: agents.iter().map(|&row| row.into()).collect(),
    };
    let complete = run.agents.len() == present;
    let only_agents = run
        .agents
        .iter()
        .all(|&row| table.row(row).is_some_and(|row| row.is_agent()));
    (complete && run.role < present && only_agents).then_some(run)
}

/// The file's list of known rows, or refusal 9 at the first byte against "rows rising, with no role
/// name, variable or local constant beneath".
fn knowledge(table: &Table, block: Block) -> Result<Vec<usize>, Refusal> {
    let mut knowledge: Vec<usize> = Vec::new();
    for (number, &row) in block.bytes.iter().enumerate() {
        let row = usize::from(row);
        let rises = knowledge.last().is_none_or(|&last| last < row);
        if !rises
            || !table.has(row)
            || table.has_beneath(row, &[ROLE_NAME, VARIABLE, LOCAL_CONSTANT])
        {
            return refused(9, block.place + number);
        }
        knowledge.push(row);
    }
    Ok(knowledge)
}

impl Scenario {
    /// The numbers of the runs: "run from 1".
    pub fn run_numbers(&self) -> std::ops::RangeInclusive<usize> {
        1..=self.runs.len()
    }

    /// The run with that number, if there is one.
    pub fn run(&self, number: usize) -> Option<&Run> {
        self.runs.get(number.checked_sub(1)?)
    }

    /// The events of a run's role.
    pub fn events(&self, run: &Run) -> &[Event] {
        &self.roles[run.role].events
    }

    /// Whether a run's "agents (over the file's roles) are all trusted", also those its events
    /// never name.
    pub fn has_only_trusted_agents(&self, run: &Run) -> bool {
        run.agents.iter().all(|&row| {
            self.table
                .row(row)
                .is_some_and(|row| row.kind == TRUSTED_AGENT)
        })
    }
}
