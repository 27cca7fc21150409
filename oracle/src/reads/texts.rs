//! Texts to read: all short ones, and Rust's own with faults put in.

use crate::report::SHARES;
use crate::values::{limits, Random};

const LONGEST_SHORT: u32 = 5;

/// Every text of up to two bytes that falls to a share.
pub fn of_bytes(share: u64, mut visit: impl FnMut(&[u8])) {
    if share == 0 {
        visit(b"");
    }
    for first in (share as u8..=u8::MAX).step_by(SHARES as usize) {
        visit(&[first]);
        for second in 0..=u8::MAX {
            visit(&[first, second]);
        }
    }
}

/// Every text of up to five bytes from those that make a difference in a format.
pub fn of_alphabet(format: u32, share: u64, visit: impl FnMut(&[u8])) {
    let alphabet: &[u8] = match format {
        0 => b"01289-+a",
        1 => b"012-+b",
        2 => b"0178-o",
        3 => b"0189fgFx-",
        4 => b"0189FGfx-",
        5 => b"0159.e-E",
        _ => b"0159.E-e",
    };
    of_bytes_in(alphabet, LONGEST_SHORT, share, visit);
}

/// Every text of up to three bytes from those that make a difference in some format, with their neighbours.
pub fn of_all_that_matter(share: u64, visit: impl FnMut(&[u8])) {
    of_bytes_in(b"0123456789abcdefABCDEF.-+xobeE _/:@G`g", 3, share, visit);
}

fn of_bytes_in(alphabet: &[u8], longest: u32, share: u64, mut visit: impl FnMut(&[u8])) {
    let base = alphabet.len() as u64;
    if share == 0 {
        visit(b"");
    }
    for length in 1..=longest {
        for number in (share..base.pow(length)).step_by(SHARES as usize) {
            let mut text = [0; LONGEST_SHORT as usize];
            for place in 0..length {
                text[place as usize] = alphabet[(number / base.pow(place) % base) as usize];
            }
            visit(&text[..length as usize]);
        }
    }
}

/// Rust's texts of the limits of all types with either sign, and of numbers beyond the largest type, each with its format.
pub fn of_limits() -> Vec<(u32, String)> {
    let beyond = (64..100).flat_map(|power| [(1i128 << power) - 1, 1 << power, (1 << power) + 1]);
    let tens = (19..30).flat_map(|power| [10i128.pow(power) - 1, 10i128.pow(power), 10i128.pow(power) + 1]);
    let numbers = limits().into_iter().map(i128::from).chain(beyond).chain(tens);
    let signed = numbers
        .clone()
        .flat_map(|number| [number, -number])
        .flat_map(|number| [(0, format!("{number}")), (5, format!("{number:e}")), (6, format!("{number:E}"))]);
    let patterns = numbers.flat_map(|number| {
        [(1, format!("{number:b}")), (2, format!("{number:o}")), (3, format!("{number:x}")), (4, format!("{number:X}"))]
    });
    signed.chain(patterns).collect()
}

/// Changes, puts in or leaves out a byte, doubles one many times, or turns the text into its neighbour.
pub fn spoil(text: &mut Vec<u8>, random: &mut Random) {
    const BYTES: &[u8] = b"0123456789abcdefABCDEF.-+xob eE:/`@G";
    let byte = BYTES[random.below(BYTES.len() as u64) as usize];
    let place = random.below(text.len() as u64 + 1) as usize;
    match random.below(7) {
        0 => text.insert(place, byte),
        1 => text.truncate(place),
        2 if place < text.len() => text[place] = byte,
        3 if place < text.len() => drop(text.remove(place)),
        4 if place < text.len() => text[place] = random.next() as u8,
        5 if place < text.len() => {
            let run = vec![text[place]; random.below(24) as usize];
            text.splice(place..place, run);
        }
        _ => {
            if let Some(last) = text.last_mut() {
                *last = last.wrapping_add(1);
            }
        }
    }
}
