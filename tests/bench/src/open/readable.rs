//! Well-formed events: Readable over marks at role level, with notes that are kept through all roles and events of a file.
use super::{Role, Table};
use crate::knowledge;

type Marks = [bool; 480];

/// A table whose rows stand for themselves: no two are equal, so a row's mark is its class's.
pub struct RoleLevel<'a> {
    table: &'a Table<'a>,
    classes: [u16; 480],
}

impl<'a> RoleLevel<'a> {
    pub fn new(table: &'a Table<'a>) -> Self {
        RoleLevel { table, classes: knowledge::role_level(table.bytes, table.n) }
    }

    /// The first event of a role that is not well formed.
    pub fn ill_formed(&self, notes: &mut Notes, own: usize, role: Role) -> Option<usize> {
        let mut start = [false; 480];
        for &r in role.known {
            start[usize::from(r)] = true;
        }
        let mut marks = self.settle(&start);
        for (i, event) in role.events.chunks_exact(4).enumerate() {
            let (kind, peer, x) = (event[0], usize::from(event[2]), usize::from(event[3]));
            let named = self.named(&marks, own) && (kind == 2 || self.named(&marks, peer));
            let in_place = if kind == 1 { named && self.readable(&marks, &[false; 480], notes, false, x) } else { named && marks[x] };
            if !in_place {
                return Some(i);
            }
            if kind == 1 {
                marks = self.plus(&marks, x);
            }
        }
        None
    }

    fn settle(&self, start: &Marks) -> Marks {
        knowledge::settle(start, self.table.bytes, self.table.n, 0, &self.classes)
    }

    /// The marks when row x is known besides.
    fn plus(&self, marks: &Marks, x: usize) -> Marks {
        if marks[x] {
            return *marks;
        }
        let mut more = *marks;
        more[x] = true;
        self.settle(&more)
    }

    /// Whether the name of role i is derivable.
    fn named(&self, marks: &Marks, i: usize) -> bool {
        (0..self.table.n).any(|r| marks[r] && self.table.kind(r) == 5 && self.table.left(r) == i)
    }

    /// The rows marked in both.
    fn shared(&self, one: &Marks, other: &Marks) -> Marks {
        let mut both = [false; 480];
        for r in 0..self.table.n {
            both[r] = one[r] && other[r];
        }
        both
    }

    /// Whether the inverse of the key in row k is derivable.
    fn opens(&self, marks: &Marks, k: usize) -> bool {
        knowledge::opens(marks, self.table.bytes, self.table.n, 0, &self.classes, k, 0)
    }

    /// The row beneath the encryptions of row x; row 0, an atom, where row x is marked or is no encryption.
    fn content(&self, marks: &Marks, x: usize) -> usize {
        let t = self.table;
        if marks[x] || t.kind(x) != 12 {
            return 0;
        }
        let mut y = t.left(x);
        while t.kind(y) == 12 {
            y = t.left(y);
        }
        y
    }

    /// Whether the way down from row x that was not readable before may be by now.
    fn may_read(&self, marks: &Marks, sure: &Marks, notes: &Notes, x: usize) -> bool {
        let t = self.table;
        let mut more = *marks;
        let mut way = [false; 96];
        let mut y = x;
        loop {
            if more[y] || sure[y] {
                return true;
            }
            way[y] = true;
            match (t.kind(y), notes.hints[y]) {
                (11, 1) => {
                    more[t.right(y)] = true;
                    y = t.left(y);
                }
                (11, 2) => {
                    more[t.left(y)] = true;
                    y = t.right(y);
                }
                (6 | 11, _) => return true,
                (12, 0..=2) => y = t.left(y),
                _ => break,
            }
        }
        let ended = self.settle(&more);
        (0..t.n).any(|r| way[r] && ended[r]) || t.kind(y) == 12 && self.opens(&ended, t.right(y))
    }

    /// Whether row x is readable. A row is sure if it is readable with these marks or more; what is beneath the parts of a pair is tried with
    /// what both ways have in common, so that it is not read twice. A quick answer, which only tries, may be no though the row is readable.
    fn readable(&self, marks: &Marks, sure: &Marks, notes: &mut Notes, quick: bool, x: usize) -> bool {
        let t = self.table;
        if marks[x] || sure[x] {
            return true;
        }
        match t.kind(x) {
            6 => true,
            11 => {
                if notes.has(marks, t.n, x) {
                    return true;
                }
                if quick && !self.may_read(marks, sure, notes, x) {
                    return false;
                }
                let (l, s) = (t.left(x), t.right(x));
                let with_second = self.plus(marks, s);
                let with_first = self.plus(marks, l);
                let both = self.shared(&with_second, &with_first);
                let mut sure = *sure;
                for y in [self.content(&with_second, l), self.content(&with_first, s)] {
                    if self.readable(&both, &sure, notes, true, y) {
                        sure[y] = true;
                    }
                }
                if !self.readable(&with_second, &sure, notes, quick, l) {
                    notes.hints[x] = 1;
                    return false;
                }
                if !self.readable(&with_first, &sure, notes, quick, s) {
                    notes.hints[x] = 2;
                    return false;
                }
                notes.keep(marks, t.n, x);
                true
            }
            12 if self.opens(marks, t.right(x)) => {
                notes.hints[x] = 0;
                self.readable(marks, sure, notes, quick, t.left(x))
            }
            12 => {
                notes.hints[x] = 3;
                false
            }
            _ => false,
        }
    }
}

const SLOTS: usize = 128;

/// What is noted while rows are read: where a way that is not readable goes, and marks with which rows are readable. Both speak of the table
/// alone, so what one role's read has noted serves all others.
pub struct Notes {
    // The part of a pair, 1 or 2, or 3 at an encryption that does not open.
    hints: [u8; 96],
    // The row of each slot, 0 for none.
    owners: [u8; SLOTS],
    sets: [[bool; 96]; SLOTS],
    oldest: usize,
}

impl Notes {
    pub fn new() -> Self {
        Notes { hints: [0; 96], owners: [0; SLOTS], sets: [[false; 96]; SLOTS], oldest: 0 }
    }

    fn has(&self, marks: &Marks, n: usize, x: usize) -> bool {
        (0..SLOTS).any(|slot| usize::from(self.owners[slot]) == x && (0..n).all(|r| marks[r] || !self.sets[slot][r]))
    }

    fn keep(&mut self, marks: &Marks, n: usize, x: usize) {
        self.sets[self.oldest][..n].copy_from_slice(&marks[..n]);
        self.owners[self.oldest] = x as u8;
        self.oldest = (self.oldest + 1) % SLOTS;
    }
}
