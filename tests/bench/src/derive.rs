//! Derive: small tables, 96 mixed rows with 48 listed, and ninety rows that share.
use crate::bounds::{Bound, Report};
use crate::compare;
use crate::knowledge;
use library::random::{table, Random};

const BOUND: Bound = Bound::ratio(1.3);

/// A table, the listed rows and the target.
pub struct Case {
    name: &'static str,
    table: Vec<u8>,
    list: Vec<u8>,
    target: u64,
}

impl Case {
    fn new(name: &'static str, table: &[u8], list: &[u8], target: u64) -> Self {
        Case { name, table: table.to_vec(), list: list.to_vec(), target }
    }

    pub fn proved(&self) -> u64 {
        library::derive(&self.table, &self.list, self.target)
    }

    pub fn rust(&self) -> u64 {
        knowledge::derive(&self.table, &self.list, self.target)
    }
}

pub fn run(report: &mut Report) {
    println!("{:44} {:>13} {:>13}", "Derive", "proved", "Rust");
    for case in cases() {
        compare(report, case.name, BOUND, 200, || case.proved(), || case.rust());
    }
}

pub fn cases() -> Vec<Case> {
    // agent a, constants c and d, pk(a), sk(a), {c}pk(a), {c}sk(a), {d}d, {c}{d}d
    let small = [1, 0, 0, 3, 0, 0, 3, 1, 0, 8, 0, 0, 9, 0, 0, 12, 1, 3, 12, 1, 4, 12, 2, 2, 12, 1, 7];
    let mut deep = vec![3, 0, 0, 3, 1, 0];
    for k in 2..92u8 {
        deep.extend([12, k - 1, k - 1]);
    }
    let mut chain = vec![3, 0, 0, 3, 1, 0];
    for k in 2..94u8 {
        chain.extend(if k % 2 == 0 { [12, k - 1, 0] } else { [11, k - 1, k - 1] });
    }
    vec![
        Case::new("P7, 9 rows", &small, &[5, 4], 1),
        Case::new("P8, 9 rows", &small, &[5, 3], 1),
        Case::new("P10, 9 rows", &small, &[8, 2], 1),
        Case::new("row k = {row k-1}row k-1, 92 rows: no", &deep, &[91], 1),
        Case::new("row k = {row k-1}row k-1, 92 rows: yes", &deep, &[1], 91),
        Case::new("pairs and encryptions that share, 94 rows", &chain, &[93, 0], 1),
        mixed(),
    ]
}

fn mixed() -> Case {
    let mut random = Random::new(11);
    let rows = loop {
        let rows = table(&mut random, 96);
        if rows.len() == 288 {
            break rows;
        }
    };
    let listed: Vec<u8> = (0..48).map(|_| random.below(96) as u8).collect();
    Case::new("96 mixed rows, 48 listed", &rows, &listed, 95)
}
