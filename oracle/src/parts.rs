//! Stored lists of parts: `Part` and `Formatted` of core::num::imp::fmt, which no entry of the archive takes, for programs
//! that play them. A row is a source, a sign, parts and the room; how a line of input spells it, `three` and `list` say.
//!
//! The answer is `NUMBER VALUE` of the length and `NUMBER VALUE [BUFFER]` of writing into so many dots. The texts are
//! Rust's. What Rust has no words for, a code it does not know and a run that leaves its source, is judged by document 01,
//! and so is the buffer after a refusal, which Rust may leave half written.

pub mod list;
pub mod three;

use crate::values::Random;
use core::num::imp::fmt::{Formatted, Part};
use std::fs;
use std::io;
use std::path::Path;

/// What the parts copy from, as far as the line says.
const SOURCE: &[u8] = b"abcdefghijklmnopqrstuvwxyz";

const LARGEST: u64 = u64::MAX;
const HALF: u64 = 1 << 63;

const ZERO: u64 = 0;
const NUM: u64 = 1;
const COPY: u64 = 2;

/// A part by its codes.
#[derive(Clone, Copy)]
struct Piece {
    kind: u64,
    a: u64,
    b: u64,
}

impl Piece {
    const fn zeros(n: u64) -> Self {
        Piece { kind: ZERO, a: n, b: 0 }
    }

    const fn number(v: u16) -> Self {
        Piece { kind: NUM, a: v as u64, b: 0 }
    }

    const fn copy(start: u64, len: u64) -> Self {
        Piece { kind: COPY, a: start, b: len }
    }

    fn leaves(self, source: usize) -> bool {
        self.kind == COPY && u128::from(self.a) + u128::from(self.b) > source as u128
    }

    /// Rust's part of one whose code is known and which stays inside.
    fn rust(self, source: &[u8]) -> Part<'_> {
        match self.kind {
            ZERO => Part::Zero(self.a as usize),
            NUM => Part::Num(self.a as u16),
            _ => Part::Copy(&source[self.a as usize..][..self.b as usize]),
        }
    }
}

/// All that goes into the two calls.
struct Row {
    source: usize,
    sign: u64,
    parts: Vec<Piece>,
    room: u64,
}

impl Row {
    /// Document 01's number and value where the length has a refusal: 6 before 9.
    fn refusal(&self) -> Option<(u64, u64)> {
        if self.sign > 2 || self.parts.iter().any(|part| part.kind > COPY) {
            return Some((6, 0));
        }
        self.parts.iter().position(|part| part.leaves(self.source)).map(|place| (9, place as u64))
    }

    fn answer(&self) -> String {
        let mut room = vec![b'.'; self.room as usize];
        let (length, wrote) = self.refusal().map_or_else(
            || {
                let parts: Vec<_> = self.parts.iter().map(|part| part.rust(&SOURCE[..self.source])).collect();
                let rust = Formatted { sign: ["", "-", "+"][self.sign as usize], parts: &parts };
                let held = rust.len() as u64;
                match rust.write(&mut room) {
                    Some(written) => ((0, held), (0, written as u64)),
                    None => {
                        room.fill(b'.');
                        ((0, held), (8, held))
                    }
                }
            },
            |refusal| (refusal, refusal),
        );
        format!("{} {} {} {} [{}]\n", length.0, length.1, wrote.0, wrote.1, String::from_utf8_lossy(&room))
    }

    /// Kind and two numbers of each part, with a space behind each number.
    fn spelled(&self) -> String {
        self.parts.iter().map(|part| format!("{} {} {} ", part.kind, part.a, part.b)).collect()
    }

    /// With the room that the text needs, up to `most`, moved by `more`.
    fn fitted(self, most: u64, more: i64) -> Self {
        let need: u128 = u128::from(self.sign != 0) + self.parts.iter().map(|part| length(*part)).sum::<u128>();
        let need = need.min(most.into()) as u64;
        Row { room: need.saturating_add_signed(more), ..self }
    }
}

fn length(part: Piece) -> u128 {
    match part.kind {
        ZERO => part.a.into(),
        NUM => part.a.to_string().len() as u128,
        _ => part.b.into(),
    }
}

/// Writes a line of input and an answer for each row; gives the number of rows.
fn store(rows: &[Row], line: impl Fn(&Row) -> String, folder: &Path) -> io::Result<usize> {
    fs::write(folder.join("stdin"), rows.iter().map(line).collect::<String>())?;
    fs::write(folder.join("stdout"), rows.iter().map(Row::answer).collect::<String>())?;
    Ok(rows.len())
}

/// One row in four may have faults.
fn any_row(count: usize, most_room: u64, random: &mut Random) -> Row {
    let source = random.below(SOURCE.len() as u64 + 1);
    let faulty = random.below(4) == 0;
    let sign = if faulty && random.below(4) == 0 { 3 + random.magnitude(31) } else { random.below(3) };
    let piece = if faulty { any_piece } else { piece_inside };
    let parts = (0..count).map(|_| piece(source, random)).collect();
    let row = Row { source: source as usize, sign, parts, room: 0 };
    match random.below(4) {
        0 => row.fitted(most_room, 0),
        1 => row.fitted(most_room, -1),
        2 => row.fitted(most_room, 1),
        _ => Row { room: random.below(most_room), ..row },
    }
}

fn any_piece(source: u64, random: &mut Random) -> Piece {
    match random.below(6) {
        0 => Piece { kind: 3 + random.magnitude(31), a: random.magnitude(64), b: random.magnitude(64) },
        1 => Piece::zeros(random.magnitude(64)),
        2 => Piece::copy(random.magnitude(5), random.magnitude(5)),
        3 => Piece::copy(random.magnitude(64), random.magnitude(64)),
        _ => piece_inside(source, random),
    }
}

fn piece_inside(source: u64, random: &mut Random) -> Piece {
    match random.below(3) {
        0 => Piece::zeros(random.below(30)),
        1 => Piece::number(random.magnitude(16) as u16),
        _ => {
            let start = random.below(source + 1);
            Piece::copy(start, random.below(source - start + 1))
        }
    }
}
