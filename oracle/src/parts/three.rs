//! Three parts: a line of input is `p`, the length of the source, the sign code, kind and two numbers of each of three
//! parts, and the room: `p SOURCE SIGN KIND A B KIND A B KIND A B ROOM`. A is how many zeros, a number, or the start of the
//! copied run, whose length is B.

use super::{any_row, store, Piece, Row, HALF, LARGEST, SOURCE};
use crate::values::Random;
use std::io;
use std::path::Path;

/// The program's buffer has 512 bytes.
const MOST_ROOM: u64 = 200;

/// Writes the edges and then random rows up to `count` lines; gives the number of lines.
pub fn write(count: usize, seed: u64, folder: &Path) -> io::Result<usize> {
    let mut random = Random::new(seed);
    let mut rows: Vec<Row> = sums().chain(runs()).chain(numbers()).chain(faults()).collect();
    while rows.len() < count {
        rows.push(any_row(3, MOST_ROOM, &mut random));
    }
    store(&rows, |row| format!("p {} {} {}{}\n", row.source, row.sign, row.spelled(), row.room), folder)
}

/// Lengths around 2^64, where a sum of 64 bits goes wrong.
fn sums() -> impl Iterator<Item = Row> {
    let pairs = [0, 1, 2, HALF - 1, HALF, LARGEST - 2, LARGEST - 1, LARGEST];
    let ends = [Piece::zeros(0), Piece::zeros(1), Piece::number(65535), Piece::copy(0, 3), Piece::zeros(LARGEST)];
    let pairs = pairs.into_iter().flat_map(move |a| pairs.map(|b| (a, b))).filter(|(a, b)| a.max(b) >= &(HALF - 1));
    pairs.flat_map(move |(a, b)| {
        ends.into_iter().enumerate().map(move |(turn, end)| Row {
            source: 3,
            sign: turn as u64 % 3,
            parts: vec![Piece::zeros(a), Piece::zeros(b), end],
            room: 12,
        })
    })
}

/// Copied runs at the source's end and past it, the first, second or third of the parts.
fn runs() -> impl Iterator<Item = Row> {
    [0, 1, SOURCE.len()].into_iter().flat_map(|source| {
        let end = source as u64;
        let starts = [0, end.saturating_sub(1), end, end + 1, HALF, LARGEST];
        let pieces = starts.into_iter().flat_map(move |start| {
            [0, 1, end, end + 1, start.wrapping_neg(), LARGEST].map(|len| Piece::copy(start, len))
        });
        pieces.enumerate().map(move |(turn, piece)| {
            let mut parts = vec![Piece::zeros(1), Piece::number(7), Piece::zeros(2)];
            parts[turn % 3] = piece;
            Row { source, sign: 1, parts, room: 40 }
        })
    })
}

/// Numbers at each length, into a buffer that just fits, lacks a byte or has one to spare.
fn numbers() -> impl Iterator<Item = Row> {
    [0, 9, 10, 99, 100, 999, 1000, 9999, 10000, 65535].into_iter().flat_map(|number| {
        let parts = [Piece::copy(0, 1), Piece::number(number), Piece::zeros(1)];
        [-1, 0, 1].map(|more| Row { source: 26, sign: 2, parts: parts.to_vec(), room: 0 }.fitted(MOST_ROOM, more))
    })
}

/// Every set of faults at the same time: the sign, each part's code or run, the room.
fn faults() -> impl Iterator<Item = Row> {
    let pieces = [Piece::number(12), Piece::copy(2, 4), Piece { kind: 3, a: 0, b: LARGEST }];
    let parts = (0..27).map(move |set| [pieces[set / 9], pieces[set / 3 % 3], pieces[set % 3]]);
    parts.flat_map(|parts| {
        [0, 3]
            .into_iter()
            .flat_map(move |sign| [0, 40].map(|room| Row { source: 5, sign, parts: parts.to_vec(), room }))
    })
}
