//! Contenders that write a number into the caller's bytes, all called in the same way from the same loop.

use crate::measure::{Contender, Kind, Subject};
use crate::values;
use std::fmt;
use std::hint::black_box;

/// Room for any number in any format and width here.
pub const ROOM: usize = 80;

/// Writes a number into the caller's bytes. What it gives back keeps it from being left out, and is 0 for the number 0
/// if the contender is not installed.
pub type Writer<N> = unsafe extern "C" fn(N, *mut u8, usize) -> usize;

pub struct Entrant<N> {
    pub name: &'static str,
    pub kind: Kind,
    pub write: Writer<N>,
}

pub fn ours<N>(name: &'static str, write: Writer<N>) -> Entrant<N> {
    Entrant { name, kind: Kind::Ours, write }
}

pub fn peer<N>(name: &'static str, write: Writer<N>) -> Entrant<N> {
    Entrant { name, kind: Kind::Peer, write }
}

/// The entrants on the same values, beside a call that does nothing. Those not installed are listed as absent.
pub fn subject<N: Copy + From<u8> + 'static>(name: &'static str, values: Vec<N>, entrants: Vec<Entrant<N>>) -> Subject {
    let values: &'static [N] = values.leak();
    let mut contenders = vec![contender(Entrant { name: "empty", kind: Kind::Empty, write: empty }, values)];
    let mut absent = Vec::new();
    for entrant in entrants {
        if is_there(entrant.write) {
            contenders.push(contender(entrant, values));
        } else {
            absent.push(entrant.name);
        }
    }
    Subject { name, calls: values::COUNT, contenders, absent }
}

extern "C" fn empty<N>(_: N, _: *mut u8, len: usize) -> usize {
    len
}

/// What stands for a peer that is not installed.
#[cfg(not(itoa))]
pub extern "C" fn missing<N>(_: N, _: *mut u8, _: usize) -> usize {
    0
}

fn is_there<N: From<u8>>(write: Writer<N>) -> bool {
    let mut out = [0; ROOM];
    // SAFETY: the bytes lent are the writer's own for the call.
    unsafe { write(N::from(0), out.as_mut_ptr(), out.len()) > 0 }
}

fn contender<N: Copy>(entrant: Entrant<N>, values: &'static [N]) -> Contender {
    let mut out = [0; ROOM];
    let Entrant { name, kind, write } = entrant;
    Contender { name, kind, run: Box::new(move || write_all(write, values, &mut out)) }
}

/// The one loop that all writers are called from, so that it cancels out with the empty call.
#[inline(never)]
fn write_all<N: Copy>(write: Writer<N>, values: &[N], out: &mut [u8; ROOM]) {
    let write = black_box(write);
    let mut sum = 0usize;
    for &value in values {
        // SAFETY: the bytes lent are the writer's own for the call.
        sum = sum.wrapping_add(unsafe { write(value, out.as_mut_ptr(), out.len()) });
    }
    black_box(sum);
}

/// The caller's bytes as something that Rust's formatting writes to.
pub struct Text<'a> {
    bytes: &'a mut [u8],
    pub len: usize,
}

impl Text<'_> {
    /// # Safety
    /// `out` must be valid for `len` bytes, and no one else's, as long as the text is used.
    pub unsafe fn new(out: *mut u8, len: usize) -> Self {
        Text { bytes: std::slice::from_raw_parts_mut(out, len), len: 0 }
    }
}

impl fmt::Write for Text<'_> {
    fn write_str(&mut self, text: &str) -> fmt::Result {
        let end = self.len + text.len();
        self.bytes[self.len..end].copy_from_slice(text.as_bytes());
        self.len = end;
        Ok(())
    }
}

/// Defines a writer that is Rust's `write!` with the format.
#[macro_export]
macro_rules! rust_write {
    ($name:ident, $type:ident, $format:literal) => {
        unsafe extern "C" fn $name(value: $type, out: *mut u8, len: usize) -> usize {
            let mut text = $crate::writers::Text::new(out, len);
            std::fmt::Write::write_fmt(&mut text, format_args!($format, value)).unwrap();
            text.len
        }
    };
}

/// Defines writers that are in peers.cc.
#[macro_export]
macro_rules! from_c {
    ($type:ident: $($name:ident)*) => {
        extern "C" { $(fn $name(value: $type, out: *mut u8, len: usize) -> usize;)* }
    };
}
