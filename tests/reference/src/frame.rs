//! The scenario file's frame: version, budget and four blocks (refusals 1 to 3).

use crate::refusal::{refused, Refusal};

pub const MOST_FILE_BYTES: usize = 4096;
const VERSION: u8 = 1;

/// A part of the file, with the place of its first byte.
#[derive(Clone, Copy, Debug)]
pub struct Block<'a> {
    pub place: usize,
    pub bytes: &'a [u8],
}

#[derive(Clone, Copy, Debug)]
pub struct Frame<'a> {
    pub budget: u32,
    pub terms: Block<'a>,
    pub roles: Block<'a>,
    pub runs: Block<'a>,
    pub knowledge: Block<'a>,
}

/// The frame of a file, or refusal 1, 2 or 3.
pub fn frame(file: &[u8]) -> Result<Frame<'_>, Refusal> {
    if file.first() != Some(&VERSION) {
        return refused(1, 0);
    }
    if file.len() > MOST_FILE_BYTES {
        return refused(2, MOST_FILE_BYTES);
    }
    // "budget or a block runs past the end, or bytes remain after the fourth block; place is the
    // file's length."
    parts(file).map_or(refused(3, file.len()), Ok)
}

/// Budget and blocks, if they fill the file exactly.
fn parts(file: &[u8]) -> Option<Frame<'_>> {
    let budget = u32::from_be_bytes(file.get(1..5)?.try_into().ok()?);
    let terms = block(file, 5)?;
    let roles = block(file, terms.end())?;
    let runs = block(file, roles.end())?;
    let knowledge = block(file, runs.end())?;
    (knowledge.end() == file.len()).then_some(Frame {
        budget,
        terms,
        roles,
        runs,
        knowledge,
    })
}

/// The block whose length stands at `at`, if the file holds both.
fn block(file: &[u8], at: usize) -> Option<Block<'_>> {
    let length = u16::from_be_bytes(file.get(at..at + 2)?.try_into().ok()?);
    let place = at + 2;
    let bytes = file.get(place..place + usize::from(length))?;
    Some(Block { place, bytes })
}

impl Block<'_> {
    /// The place after its last byte.
    fn end(&self) -> usize {
        self.place + self.bytes.len()
    }
}
