//! Lists of 0 to 12 parts: a line of input is `l`, how many parts there are, the length of the source, the sign code, kind
//! and two numbers of each part, and the room: `l COUNT SOURCE SIGN [KIND A B ..] ROOM`, all unsigned decimal with one space
//! between two, so 4 numbers and 3 for each part. A is how many zeros (kind 0), a number (kind 1, below 65,536), or the
//! start of the copied run (kind 2), whose length is B; what a kind does not use is 0. The source is the first SOURCE bytes
//! of `a` to `z`, the buffer ROOM dots, at most 401. The answer is `NUMBER VALUE NUMBER VALUE [BUFFER]`: of the length, and
//! of writing.

use super::{any_row, store, Piece, Row, HALF, LARGEST, SOURCE};
use crate::values::Random;
use std::io;
use std::path::Path;

const MOST_PARTS: usize = 12;
/// The program's buffer has 512 bytes.
const MOST_ROOM: u64 = 400;

/// Writes the edges and then random rows up to `count` lines; gives the number of lines.
pub fn write(count: usize, seed: u64, folder: &Path) -> io::Result<usize> {
    let mut random = Random::new(seed);
    let mut rows: Vec<Row> = empty()
        .chain(rooms())
        .chain(sums())
        .chain(large())
        .chain(runs())
        .chain(first_of_many())
        .chain(codes())
        .collect();
    while rows.len() < count {
        let parts = random.below(MOST_PARTS as u64 + 1) as usize;
        rows.push(any_row(parts, MOST_ROOM, &mut random));
    }
    let line = |row: &Row| format!("l {} {} {} {}{}\n", row.parts.len(), row.source, row.sign, row.spelled(), row.room);
    store(&rows, line, folder)
}

/// Small parts of each kind in turn, which stay inside of any source of three bytes or more.
fn small(count: usize) -> Vec<Piece> {
    let kinds = [Piece::number(1972), Piece::copy(1, 2), Piece::zeros(3), Piece::number(0), Piece::zeros(0)];
    (0..count).map(|place| kinds[place % kinds.len()]).collect()
}

/// Each list with each place in it.
fn places() -> impl Iterator<Item = (usize, usize)> {
    (1..=MOST_PARTS).flat_map(|count| (0..count).map(move |place| (count, place)))
}

/// No part: the sign alone, known or not.
fn empty() -> impl Iterator<Item = Row> {
    (0..=3).flat_map(|sign| [0, 1, 2].map(|room| Row { source: 3, sign, parts: Vec::new(), room }))
}

/// Each count into a buffer that just fits, lacks a byte or has one to spare.
fn rooms() -> impl Iterator<Item = Row> {
    (1..=MOST_PARTS).flat_map(|count| {
        [-1, 0, 1].map(|more| {
            Row { source: 26, sign: count as u64 % 3, parts: small(count), room: 0 }.fitted(MOST_ROOM, more)
        })
    })
}

/// Sums of 2^64 - 2 to 2^64 + 1, spread over all parts, with and without a sign.
fn sums() -> impl Iterator<Item = Row> {
    (2..=MOST_PARTS).flat_map(|count| {
        (0..4).map(move |step| {
            let sum = u128::from(LARGEST) - 1 + step;
            let share = sum / count as u128;
            let last = sum - share * (count as u128 - 1);
            let mut parts = vec![Piece::zeros(share as u64); count - 1];
            parts.push(Piece::zeros(last as u64));
            Row { source: 3, sign: (count as u64 + step as u64 / 2) % 3, parts, room: 12 }
        })
    })
}

/// Half of 2^64 or all but 1 in one place of small parts: alone, or so twice.
fn large() -> impl Iterator<Item = Row> {
    places().filter(|(count, place)| (count + place) % 3 == 0).map(|(count, place)| {
        let mut parts = small(count);
        parts[place] = Piece::zeros(if place % 2 == 0 { LARGEST } else { HALF });
        parts[count - 1] = if count % 2 == 0 { Piece::zeros(HALF) } else { parts[count - 1] };
        Row { source: 3, sign: place as u64 % 3, parts, room: 30 }
    })
}

/// A copied run that ends at the source's end or past it, at each place of each list.
fn runs() -> impl Iterator<Item = Row> {
    places().enumerate().flat_map(|(turn, (count, place))| {
        let source = [3, 4, SOURCE.len()][turn % 3];
        let end = source as u64;
        let inside = [(0, end), (end, 0), (end - 1, 1)][turn % 3];
        let outside = [
            (0, end + 1),
            (end, 1),
            (end + 1, 0),
            (end - 1, 2),
            (1, LARGEST),
            (LARGEST, 1),
            (LARGEST, LARGEST),
            (HALF, HALF),
        ][turn % 8];
        [inside, outside].map(|(start, len)| {
            let mut parts = small(count);
            parts[place] = Piece::copy(start, len);
            Row { source, sign: turn as u64 % 3, parts, room: 0 }.fitted(MOST_ROOM, 0)
        })
    })
}

/// From each place on every part leaves the source: the first of them is told.
fn first_of_many() -> impl Iterator<Item = Row> {
    places().map(|(count, place)| {
        let mut parts = small(count);
        parts[place..].fill(Piece::copy(2, 2));
        Row { source: 3, sign: 1, parts, room: 100 }
    })
}

/// A code that is not known behind or in front of a part that leaves its source, and of a sum that is too large.
fn codes() -> impl Iterator<Item = Row> {
    places().filter(|(count, place)| (count + 2 * place) % 4 == 0).map(|(count, place)| {
        let mut parts = small(count);
        parts[0] = Piece::copy(0, 4);
        parts[count - 1] = Piece::zeros(LARGEST);
        parts[place] = Piece { kind: 3 + place as u64, a: 1, b: 1 };
        Row { source: 3, sign: if count == 5 { 3 } else { 0 }, parts, room: 40 }
    })
}
