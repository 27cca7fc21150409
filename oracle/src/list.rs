//! The stored list: inputs and Rust's answers, for a program that replays them where there is no Rust.
//!
//! A line of input is `u VALUE`, or `i PATTERN` with the two's complement pattern as an unsigned number, for the plain
//! decimal; or all that goes into a call of lgv_write, as numbers, for its text:
//! `bits signed value format plus alternate zero fill align width given precision`.

use crate::values::{limits, signed_limits, Random};
use crate::writes::{any_call, ends_of, text_of, Call};
use larguviet::Kind;
use std::fs;
use std::io;
use std::path::Path;

/// Widths and precisions stay below these, so that every text has less than 100 bytes.
const WIDTHS: u64 = 100;
const PRECISIONS: u64 = 60;

type Line = (String, String);

/// Writes `plain` lines of plain decimals and `full` lines with all fields; gives the number of lines.
pub fn write(plain: usize, full: usize, seed: u64, folder: &Path) -> io::Result<usize> {
    let mut random = Random::new(seed);
    let mut lines = plain_lines(plain, &mut random);
    lines.extend(full_lines(full, &mut random));
    let count = lines.len();
    let (inputs, answers): (String, String) = lines.into_iter().unzip();
    fs::write(folder.join("stdin"), inputs)?;
    fs::write(folder.join("stdout"), answers)?;
    Ok(count)
}

/// The limits, and then random values up to `count` lines.
fn plain_lines(count: usize, random: &mut Random) -> Vec<Line> {
    let unsigned = limits().into_iter().map(|value| (format!("u {value}\n"), format!("{value}\n")));
    let signed = signed_limits().into_iter().map(signed_line);
    let mut lines: Vec<Line> = unsigned.chain(signed).collect();
    while lines.len() < count {
        lines.push(if random.below(2) == 0 {
            let value = random.magnitude(64);
            (format!("u {value}\n"), format!("{value}\n"))
        } else {
            let magnitude = random.magnitude(63) as i64;
            signed_line(if random.below(2) == 0 { magnitude } else { -magnitude })
        });
    }
    lines
}

fn signed_line(value: i64) -> Line {
    (format!("i {}\n", value as u64), format!("{value}\n"))
}

/// The ends of each type in each format, and then random calls; `count` lines in all.
fn full_lines(count: usize, random: &mut Random) -> Vec<Line> {
    let ends = Kind::ALL.into_iter().flat_map(|kind| {
        ends_of(kind).into_iter().flat_map(move |value| (0..7).map(move |format| Call::plain(kind, value, format)))
    });
    let random = std::iter::from_fn(|| Some(any_call(WIDTHS, PRECISIONS, random)));
    ends.chain(random).take(count).map(|call| full_line(&call)).collect()
}

fn full_line(call: &Call) -> Line {
    let Call { kind, value, format, options } = call;
    let flag = u32::from;
    let [signed, plus, alternate, zero] = [kind.signed, options.plus, options.alternate, options.zero].map(flag);
    let (given, precision) = (flag(options.precision.is_some()), options.precision.unwrap_or(0));
    let (bits, fill, align, width) = (kind.bits, options.fill, options.align, options.width);
    let mut text = String::new();
    text_of(call, &mut text);
    text.push('\n');
    (
        format!(
            "{bits} {signed} {value} {format} {plus} {alternate} {zero} {fill} {align} {width} {given} {precision}\n"
        ),
        text,
    )
}
