//! Inference (000, section 3.2): knowledge taken apart until nothing new turns up, and building
//! from it.

use crate::term::{Store, Term, TermId};
use std::collections::{BTreeSet, HashMap};

/// A set of terms, closed under taking apart.
#[derive(Clone, Debug, Default)]
pub struct Knowledge {
    parts: BTreeSet<TermId>,
}

impl Knowledge {
    /// The knowledge that starts with these terms.
    pub fn of(store: &mut Store, terms: &[TermId]) -> Knowledge {
        Knowledge::default().plus(store, terms)
    }

    /// This knowledge and these terms besides, taken apart.
    pub fn plus(&self, store: &mut Store, terms: &[TermId]) -> Knowledge {
        let mut knowledge = self.clone();
        knowledge.parts.extend(terms);
        knowledge.take_apart(store);
        knowledge
    }

    /// Goes round until a round adds nothing, since a key may turn up later than what it opens.
    fn take_apart(&mut self, store: &mut Store) {
        loop {
            let before = self.parts.len();
            for part in self.parts.clone() {
                let found = self.found_in(store, part);
                self.parts.extend(found);
            }
            if self.parts.len() == before {
                return;
            }
        }
    }

    /// What taking `term` apart gives: of a pair both parts; of an encryption "the content if the
    /// encryption and the inverse of its key are" derivable. The inverse may itself have to be
    /// built.
    fn found_in(&self, store: &mut Store, term: TermId) -> Vec<TermId> {
        match store.term(term) {
            Term::Pair(left, right) => vec![left, right],
            Term::Encryption(content, key) => {
                let inverse = store.inverse(key);
                if self.derives(store, inverse) {
                    vec![content]
                } else {
                    vec![]
                }
            }
            _ => vec![],
        }
    }

    /// Whether the term is derivable: a member, or a pair or an encryption of derivable parts.
    /// Taking apart what was built gives nothing new, so building last is enough.
    pub fn derives(&self, store: &Store, term: TermId) -> bool {
        self.builds(store, term, &mut HashMap::new())
    }

    /// `done` has the answers found so far: a part that occurs often is judged once.
    fn builds(&self, store: &Store, term: TermId, done: &mut HashMap<TermId, bool>) -> bool {
        if self.parts.contains(&term) {
            return true;
        }
        if let Some(&answer) = done.get(&term) {
            return answer;
        }
        let answer = match store.term(term) {
            Term::Pair(left, right) | Term::Encryption(left, right) => {
                self.builds(store, left, done) && self.builds(store, right, done)
            }
            // "Functions are not applied: an agent's name does not give its key."
            _ => false,
        };
        done.insert(term, answer);
        answer
    }

    /// The terms that were given or found by taking apart.
    pub fn parts(&self) -> impl Iterator<Item = TermId> + '_ {
        self.parts.iter().copied()
    }
}
