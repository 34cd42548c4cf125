//! Well-formed roles: Readable and WF of 000, section 3.2.

use crate::knowledge::Knowledge;
use crate::scenario::{Action, Role};
use crate::table::Table;
use crate::term::{Store, Term, TermId};

/// The first event of a role that is not well formed, by WF: "role names, variables and local
/// constants taken as atoms", "event sender and receiver names count as there".
pub fn first_ill_formed_event(table: &Table, number: usize, role: &Role) -> Option<usize> {
    let mut store = Store::default();
    let terms = table.terms(&mut store);
    let known: Vec<TermId> = role.knowledge.iter().map(|&row| terms[row]).collect();
    let mut knowledge = Knowledge::of(&mut store, &known);
    let own_name = role_name(&mut store, number);
    for (place, event) in role.events.iter().enumerate() {
        let peer = role_name(&mut store, event.peer);
        let term = terms[event.row];
        let all_derivable =
            |terms: &[TermId]| terms.iter().all(|&term| knowledge.derives(&store, term));
        let well_formed = match event.action {
            Action::Send => all_derivable(&[own_name, peer, term]),
            Action::Read => {
                all_derivable(&[peer, own_name]) && readable(&mut store, &knowledge, term)
            }
            Action::Claim => all_derivable(&[own_name, term]),
        };
        if !well_formed {
            return Some(place);
        }
        // WF goes on with M ∪ {t} after a read and with M after a send or a claim.
        if event.action == Action::Read {
            knowledge = knowledge.plus(&mut store, &[term]);
        }
    }
    None
}

/// Role numbers are at most 3 wherever a role is present.
fn role_name(store: &mut Store, number: usize) -> TermId {
    store.id(Term::RoleName(number as u8))
}

/// Readable(M, t). The first line is no clause of it but follows from its clauses, and spares
/// reading a part again wherever it occurs: by induction on t, what is derivable is readable.
fn readable(store: &mut Store, knowledge: &Knowledge, term: TermId) -> bool {
    if knowledge.derives(store, term) {
        return true;
    }
    match store.term(term) {
        Term::Variable(_) => true,
        // Each part is read with the other part, whole, added to the knowledge.
        Term::Pair(left, right) => {
            let with_right = knowledge.plus(store, &[right]);
            let with_left = knowledge.plus(store, &[left]);
            readable(store, &with_right, left) && readable(store, &with_left, right)
        }
        Term::Encryption(content, key) => {
            let inverse = store.inverse(key);
            knowledge.derives(store, inverse) && readable(store, knowledge, content)
        }
        // Names, constants and keys: "readable only if derivable".
        _ => false,
    }
}
