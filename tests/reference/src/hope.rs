//! Whether a pattern with variables left can still become derivable, so that a choice of values for
//! eight variables is not tried to its end when its beginning is already wrong. The list of traces
//! does not depend on it: each full choice is judged by itself.

use crate::knowledge::Knowledge;
use crate::system::{term_of_value, System};
use crate::term::{Term, TermId};
use std::collections::{BTreeMap, BTreeSet, HashSet};

/// Values for variables, by their rows.
type Binding = BTreeMap<usize, Term>;

/// Whether some values for the variables left in the pattern make it derivable.
pub fn has_hope(system: &mut System, knowledge: &Knowledge, pattern: TermId) -> bool {
    can_all_hold(system, knowledge, BTreeSet::from([pattern]))
}

/// Whether some values for the variables left make all these terms derivable.
fn can_all_hold(system: &mut System, knowledge: &Knowledge, wanted: BTreeSet<TermId>) -> bool {
    let (ground, wanted): (BTreeSet<TermId>, BTreeSet<TermId>) = parts_of_pairs(system, wanted)
        .into_iter()
        .partition(|&term| system.store.is_ground(term));
    if !ground
        .iter()
        .all(|&term| knowledge.derives(&system.store, term))
    {
        return false;
    }
    let (variables, mut wanted): (BTreeSet<TermId>, BTreeSet<TermId>) = wanted
        .into_iter()
        .partition(|&term| matches!(system.store.term(term), Term::Variable(_)));
    // The term that leaves the fewest ways is settled first, so that a dead end is soon seen.
    let ways = wanted
        .iter()
        .map(|&term| (term, bindings(system, knowledge, term)));
    let Some((term, ways)) = ways.min_by_key(|(_, ways)| ways.len()) else {
        // Variables by themselves do not hinder each other.
        return variables
            .iter()
            .all(|&variable| has_derivable_value(system, knowledge, variable));
    };
    wanted.remove(&term);
    wanted.extend(variables);
    can_be_known(system, knowledge, &ways, &wanted) || can_be_built(system, knowledge, term, wanted)
}

/// The terms with each pair replaced by its parts: "a pair exactly if both parts are".
fn parts_of_pairs(system: &System, terms: BTreeSet<TermId>) -> BTreeSet<TermId> {
    let (mut left, mut parts) = (terms, BTreeSet::new());
    while let Some(term) = left.pop_last() {
        match system.store.term(term) {
            Term::Pair(first, rest) => left.extend([first, rest]),
            _ => {
                parts.insert(term);
            }
        }
    }
    parts
}

/// Whether a value of the variable is derivable.
fn has_derivable_value(system: &mut System, knowledge: &Knowledge, variable: TermId) -> bool {
    let Term::Variable(row) = system.store.term(variable) else {
        return false;
    };
    system.candidates(row).into_iter().any(|value| {
        let value = system.store.id(term_of_value(&system.scenario, value));
        knowledge.derives(&system.store, value)
    })
}

/// Whether one of the ways in which a term is a known one leaves the rest of what is wanted
/// derivable.
fn can_be_known(
    system: &mut System,
    knowledge: &Knowledge,
    ways: &[Binding],
    rest: &BTreeSet<TermId>,
) -> bool {
    ways.iter().any(|binding| {
        let rest = rest
            .iter()
            .map(|&term| bound(system, term, binding))
            .collect();
        can_all_hold(system, knowledge, rest)
    })
}

/// Whether an encryption can be built, with the rest of what is wanted derivable too.
fn can_be_built(
    system: &mut System,
    knowledge: &Knowledge,
    term: TermId,
    mut wanted: BTreeSet<TermId>,
) -> bool {
    match system.store.term(term) {
        Term::Encryption(content, key) => {
            wanted.extend([content, key]);
            can_all_hold(system, knowledge, wanted)
        }
        _ => false,
    }
}

/// The term with the bound variables replaced by their values.
fn bound(system: &mut System, term: TermId, binding: &Binding) -> TermId {
    system.store.instance(term, &|atom| match atom {
        Term::Variable(row) => binding.get(&row).copied().unwrap_or(atom),
        _ => atom,
    })
}

/// The ways in which `pattern` is one of the known parts.
fn bindings(system: &System, knowledge: &Knowledge, pattern: TermId) -> Vec<Binding> {
    knowledge
        .parts()
        .filter_map(|part| binding(system, pattern, part))
        .collect()
}

/// The values under which `pattern` is `term`, if there are any.
fn binding(system: &System, pattern: TermId, term: TermId) -> Option<Binding> {
    let mut binding = Binding::new();
    matches_with(system, pattern, term, &mut binding, &mut HashSet::new()).then_some(binding)
}

/// Whether `pattern` is `term` under some values beside those in `binding`, which gains them.
/// `done` has the pairs found to match so far: parts that occur often are compared once.
fn matches_with(
    system: &System,
    pattern: TermId,
    term: TermId,
    binding: &mut Binding,
    done: &mut HashSet<(TermId, TermId)>,
) -> bool {
    if !done.insert((pattern, term)) {
        return true;
    }
    let value = system.store.term(term);
    match (system.store.term(pattern), value) {
        (Term::Variable(row), _) => {
            is_value_of(system, row, value) && *binding.entry(row).or_insert(value) == value
        }
        (Term::PublicKey(a), Term::PublicKey(b)) | (Term::SecretKey(a), Term::SecretKey(b)) => {
            matches_with(system, a, b, binding, done)
        }
        (Term::SharedKey(a, b), Term::SharedKey(c, d))
        | (Term::Pair(a, b), Term::Pair(c, d))
        | (Term::Encryption(a, b), Term::Encryption(c, d)) => {
            matches_with(system, a, c, binding, done) && matches_with(system, b, d, binding, done)
        }
        _ => pattern == term,
    }
}

/// Whether the term is one of the values that a variable may take.
fn is_value_of(system: &System, variable: usize, term: Term) -> bool {
    system
        .candidates(variable)
        .into_iter()
        .any(|value| term_of_value(&system.scenario, value) == term)
}
