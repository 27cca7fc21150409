//! A lent buffer whose every byte is watched, and so are the bytes around it.

const GUARD: usize = 16;
const ALIGNMENTS: usize = 8;

/// As many fills as there are offsets into the pool; a prime, so that they do not keep step with the alignments.
const FILLS: usize = 61;

/// A buffer in the midst of guard bytes. Each loan starts at another alignment and with other bytes.
pub struct Frame {
    /// What buffer and guards are filled from. The top bit is set in each byte, so none is a byte of any text.
    pool: Vec<u8>,
    bytes: Vec<u8>,
    turn: usize,
    lent: std::ops::Range<usize>,
}

impl Frame {
    /// For loans of up to `longest` bytes.
    pub fn new(longest: usize) -> Self {
        let most = ALIGNMENTS + GUARD + longest + GUARD;
        let pool = (0..most + FILLS).map(|place| 0x80 | (place * 37 + place / 128) as u8).collect();
        Frame { pool, bytes: vec![0; most], turn: 0, lent: 0..0 }
    }

    /// Lends `len` freshly filled bytes.
    pub fn lend(&mut self, len: usize) -> &mut [u8] {
        self.turn += 1;
        let start = GUARD + self.turn % ALIGNMENTS;
        self.lent = start..start + len;
        let watched = self.lent.end + GUARD;
        let fill = self.turn % FILLS;
        self.bytes[..watched].copy_from_slice(&self.pool[fill..fill + watched]);
        &mut self.bytes[self.lent.clone()]
    }

    /// The bytes that are lent.
    pub fn len(&self) -> usize {
        self.lent.len()
    }

    /// Whether the loan has `text` at `place` and every other byte, before, in and behind the loan, is as it was lent.
    pub fn holds(&self, place: usize, text: &[u8]) -> bool {
        let start = self.lent.start + place;
        let end = start + text.len();
        let watched = self.lent.end + GUARD;
        let before = &self.pool[self.turn % FILLS..];
        end <= self.lent.end
            && self.bytes[..start] == before[..start]
            && self.bytes[start..end] == *text
            && self.bytes[end..watched] == before[end..watched]
    }

    /// The loan as it is now, for people.
    pub fn show(&self) -> String {
        let lent = self.bytes[self.lent.clone()].escape_ascii();
        let before = &self.pool[self.turn % FILLS..];
        let behind = self.lent.end..self.lent.end + GUARD;
        let kept =
            self.bytes[..self.lent.start] == before[..self.lent.start] && self.bytes[behind.clone()] == before[behind];
        if kept {
            format!("left \"{lent}\"")
        } else {
            format!("left \"{lent}\" and changed bytes outside it")
        }
    }
}
