//! Terms as trees. Equal trees are kept once, so a table whose rows double in size stays small.

use std::collections::HashMap;

/// A term's number in its store. Within one store, terms are equal exactly if their numbers are.
#[derive(Clone, Copy, Debug, PartialEq, Eq, PartialOrd, Ord, Hash)]
pub struct TermId(usize);

/// "Agents, constants and keys are equal only if kind and parts are": equality is the derived one.
/// 000's reduction of an encryption under the inverse of its own key is not applied; terms are
/// free.
#[derive(Clone, Copy, Debug, PartialEq, Eq, Hash)]
pub enum Term {
    TrustedAgent(u8),
    UntrustedAgent(u8),
    GlobalConstant(u8),
    IntruderConstant(u8),
    RoleName(u8),
    /// A variable is told by its row, since no two rows of a table are equal.
    Variable(usize),
    /// A local constant as the role has it.
    LocalConstant(u8),
    /// c#u, local constant c in run u.
    LocalOfRun(u8, usize),
    PublicKey(TermId),
    SecretKey(TermId),
    SharedKey(TermId, TermId),
    Pair(TermId, TermId),
    /// Content, then key.
    Encryption(TermId, TermId),
}

/// The distinct terms met so far, each after its parts.
#[derive(Clone, Default)]
pub struct Store {
    terms: Vec<Term>,
    ground: Vec<bool>,
    ids: HashMap<Term, TermId>,
}

impl Store {
    /// The number of `term`, which is kept if it is new.
    pub fn id(&mut self, term: Term) -> TermId {
        if let Some(&id) = self.ids.get(&term) {
            return id;
        }
        let id = TermId(self.terms.len());
        self.ground.push(self.has_no_variable(term));
        self.terms.push(term);
        self.ids.insert(term, id);
        id
    }

    /// The term with that number.
    pub fn term(&self, id: TermId) -> Term {
        self.terms[id.0]
    }

    /// Whether no variable occurs in the term.
    pub fn is_ground(&self, id: TermId) -> bool {
        self.ground[id.0]
    }

    fn has_no_variable(&self, term: Term) -> bool {
        match term {
            Term::Variable(_) => false,
            Term::PublicKey(agent) | Term::SecretKey(agent) => self.is_ground(agent),
            Term::SharedKey(left, right)
            | Term::Pair(left, right)
            | Term::Encryption(left, right) => self.is_ground(left) && self.is_ground(right),
            _ => true,
        }
    }

    /// "Public and secret key of one agent are inverse to each other; every other term, compound
    /// ones too, is its own inverse."
    pub fn inverse(&mut self, key: TermId) -> TermId {
        match self.term(key) {
            Term::PublicKey(agent) => self.id(Term::SecretKey(agent)),
            Term::SecretKey(agent) => self.id(Term::PublicKey(agent)),
            _ => key,
        }
    }

    /// The term with each atom in it replaced by what it stands for (000, section 3.3,
    /// Instantiation).
    pub fn instance(&mut self, id: TermId, reading: &dyn Fn(Term) -> Term) -> TermId {
        self.instance_of(id, reading, &mut HashMap::new())
    }

    /// `done` has the instances found so far: a part that occurs often is looked at once.
    fn instance_of(
        &mut self,
        id: TermId,
        reading: &dyn Fn(Term) -> Term,
        done: &mut HashMap<TermId, TermId>,
    ) -> TermId {
        if let Some(&instance) = done.get(&id) {
            return instance;
        }
        let mut part = |store: &mut Store, id| store.instance_of(id, reading, done);
        let instance = match self.term(id) {
            Term::PublicKey(agent) => Term::PublicKey(part(self, agent)),
            Term::SecretKey(agent) => Term::SecretKey(part(self, agent)),
            Term::SharedKey(left, right) => Term::SharedKey(part(self, left), part(self, right)),
            Term::Pair(left, right) => Term::Pair(part(self, left), part(self, right)),
            Term::Encryption(content, key) => {
                Term::Encryption(part(self, content), part(self, key))
            }
            atom => reading(atom),
        };
        let instance = self.id(instance);
        done.insert(id, instance);
        instance
    }

    /// How many terms are kept.
    pub fn size(&self) -> usize {
        self.terms.len()
    }

    /// Forgets the terms met since the store had that size, so that a long walk needs no more room
    /// than its deepest path. Parts come before wholes, so no term that stays loses a part.
    pub fn forget_since(&mut self, size: usize) {
        for term in self.terms.drain(size..) {
            self.ids.remove(&term);
        }
        self.ground.truncate(size);
    }
}
