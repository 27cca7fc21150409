//! Rust's own text of a call, with every option taken at run time.

use super::Call;
use std::fmt::{
    Alignment, Binary, Display, Formatter, FormattingOptions, LowerExp, LowerHex, Octal, Result, Sign, UpperExp,
    UpperHex,
};

/// Writes Rust's text of a call that nothing but the room can refuse.
pub fn text_of(call: &Call, text: &mut String) {
    text.clear();
    let to = &mut Formatter::new(text, formatting(call));
    let (value, format) = (call.value, call.format);
    let done = match (call.kind.bits, call.kind.signed) {
        (8, false) => in_format(value as u8, format, to),
        (8, true) => in_format(value as i8, format, to),
        (16, false) => in_format(value as u16, format, to),
        (16, true) => in_format(value as i16, format, to),
        (32, false) => in_format(value as u32, format, to),
        (32, true) => in_format(value as i32, format, to),
        (64, false) => in_format(value, format, to),
        (64, true) => in_format(value as i64, format, to),
        (bits, _) => unreachable!("a type of {bits} bits has no text"),
    };
    done.expect("a string takes any text");
}

fn formatting(call: &Call) -> FormattingOptions {
    let options = &call.options;
    let mut formatting = FormattingOptions::new();
    formatting
        .sign(options.plus.then_some(Sign::Plus))
        .alternate(options.alternate)
        .sign_aware_zero_pad(options.zero)
        .fill(options.fill as u8 as char)
        .align(match options.align {
            0 => None,
            1 => Some(Alignment::Left),
            2 => Some(Alignment::Center),
            3 => Some(Alignment::Right),
            code => unreachable!("alignment {code} has no text"),
        })
        .width(Some(options.width))
        .precision(options.precision);
    formatting
}

trait Number: Display + Binary + Octal + LowerHex + UpperHex + LowerExp + UpperExp {}

impl<N: Display + Binary + Octal + LowerHex + UpperHex + LowerExp + UpperExp> Number for N {}

fn in_format(number: impl Number, format: u32, to: &mut Formatter<'_>) -> Result {
    match format {
        0 => Display::fmt(&number, to),
        1 => Binary::fmt(&number, to),
        2 => Octal::fmt(&number, to),
        3 => LowerHex::fmt(&number, to),
        4 => UpperHex::fmt(&number, to),
        5 => LowerExp::fmt(&number, to),
        6 => UpperExp::fmt(&number, to),
        _ => unreachable!("format {format} has no text"),
    }
}
