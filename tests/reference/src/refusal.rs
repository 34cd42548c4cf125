//! What stops an operation: a number and a place.

/// "A refusal is a number and a place, the offset of the item's first byte."
#[derive(Clone, Copy, Debug, PartialEq, Eq)]
pub struct Refusal {
    pub number: u8,
    pub place: usize,
}

/// The refusal with that number at that place, as an answer.
pub fn refused<T>(number: u8, place: usize) -> Result<T, Refusal> {
    Err(Refusal { number, place })
}

impl Refusal {
    /// The same refusal, its place counted from a point that lies `by` bytes earlier.
    pub fn moved(self, by: usize) -> Refusal {
        Refusal {
            number: self.number,
            place: self.place + by,
        }
    }
}
