//! Lent room.

use crate::rng::Rng;

/// Room that is lent from the middle of a larger one, so that a write before or after it shows.
#[derive(Clone, PartialEq, Eq)]
pub struct Lent {
    bytes: Vec<u8>,
    len: usize,
}

/// The bytes on either side.
const MARGIN: usize = 40;

impl Lent {
    /// Room of that length, filled with anything.
    pub fn new(rng: &mut Rng, len: usize) -> Lent {
        Lent { bytes: rng.bytes(len + 2 * MARGIN), len }
    }

    /// Room that holds these bytes. What lies on either side of it is the same each time, so that two
    /// of them are equal exactly if nothing was written there and the rooms are.
    pub fn holding(bytes: &[u8]) -> Lent {
        let margin = [0xa5; MARGIN];
        Lent { bytes: [&margin, bytes, &margin].concat(), len: bytes.len() }
    }

    /// The room of a table's ban lists.
    pub fn lists(&mut self) -> &mut relay::Bans {
        self.room().try_into().expect("it holds so many bytes")
    }

    /// The room itself.
    pub fn room(&mut self) -> &mut [u8] {
        &mut self.bytes[MARGIN..MARGIN + self.len]
    }
}

impl std::fmt::Debug for Lent {
    fn fmt(&self, f: &mut std::fmt::Formatter) -> std::fmt::Result {
        write!(f, "\"{}\"", self.bytes.escape_ascii())
    }
}

/// How long the lent output is for a line that is written: mostly enough.
pub fn output_length(rng: &mut Rng) -> usize {
    if rng.one_in(12) {
        return rng.pick(&[0, 1, 17, 510, 511]);
    }
    rng.pick(&[512, 512, 513, 600])
}
