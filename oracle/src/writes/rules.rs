//! What a call must answer, from the table of refusals alone: the checks in their order, each with what it returns.

use super::{text_of, Call};
use larguviet::{Answer, Kind};

const DONE: u64 = 0;
const TYPE: u64 = 5;
const OPTIONS: u64 = 6;
const VALUE: u64 = 7;
const NO_ROOM: u64 = 8;

/// The answer to a call with `len` bytes, and the text that must stand in them; Rust's text goes to `text`.
pub fn answer<'a>(call: &Call, len: usize, text: &'a mut String) -> (Answer, &'a str) {
    match refusal(call) {
        Some(number) => (Answer { number, value: 0 }, ""),
        None => {
            text_of(call, text);
            answer_of_text(text, len)
        }
    }
}

/// The same for a call that only the room can refuse, and whose text is `text`.
pub fn answer_of_text(text: &str, len: usize) -> (Answer, &str) {
    let value = text.len() as u64;
    if text.len() > len {
        (Answer { number: NO_ROOM, value }, "")
    } else {
        (Answer { number: DONE, value }, text)
    }
}

fn refusal(call: &Call) -> Option<u64> {
    let options = &call.options;
    if ![8, 16, 32, 64].contains(&call.kind.bits) {
        Some(TYPE)
    } else if !in_type(call.kind, call.value) {
        Some(VALUE)
    } else if call.format > 6 || options.align > 3 || !(32..=126).contains(&options.fill) {
        Some(OPTIONS)
    } else {
        None
    }
}

/// Whether a pattern means a value of the type.
fn in_type(kind: Kind, pattern: u64) -> bool {
    if kind.signed {
        let half = 1i128 << (kind.bits - 1);
        (-half..half).contains(&i128::from(pattern as i64))
    } else {
        u128::from(pattern) < 1u128 << kind.bits
    }
}
