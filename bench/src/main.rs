//! The benchmark: larguviet and its peers on the same values in one process.
//!
//!     bench                       every subject: nanoseconds, and instructions where valgrind is installed; what a byte
//!                                 costs in long texts
//!     bench chart FILE            the same, and a chart of it
//!     bench count SUBJECT NAME    one contender once, for callgrind to count

#![feature(formatting_options, int_format_into)]

#[cfg(itoa)]
extern crate itoa;

mod chart;
mod decimal;
mod exponent;
mod growth;
mod measure;
mod options;
mod radix;
mod readers;
mod table;
mod values;
mod writers;

use measure::{Measured, Subject};
use std::process::ExitCode;

fn subjects() -> Vec<Subject> {
    vec![
        decimal::unsigned(),
        decimal::signed(),
        radix::hex(),
        radix::octal(),
        radix::binary(),
        exponent::in_full(),
        exponent::to_three_places(),
        options::default_options(),
        options::signed_at_a_width(),
        options::hex_with_prefix(),
        readers::decimal(),
        readers::hex(),
        readers::exponent(),
    ]
}

fn main() -> ExitCode {
    let words: Vec<String> = std::env::args().skip(1).collect();
    let words: Vec<&str> = words.iter().map(String::as_str).collect();
    match words[..] {
        [] => {
            tables();
            ExitCode::SUCCESS
        }
        ["chart", file] => match chart::write(&tables(), file) {
            Ok(()) => ExitCode::SUCCESS,
            Err(error) => {
                eprintln!("bench: {file}: {error}");
                ExitCode::FAILURE
            }
        },
        ["count", subject, name] => count(subject, name),
        _ => {
            eprintln!("usage: bench | bench chart FILE | bench count SUBJECT NAME");
            ExitCode::from(2)
        }
    }
}

fn tables() -> Vec<Measured> {
    let mut all = Vec::new();
    for mut subject in subjects() {
        let measured = measure::measure(&mut subject);
        table::print(&measured);
        all.push(measured);
    }
    table::summary(&all);
    growth::print();
    all
}

fn count(subject: &str, name: &str) -> ExitCode {
    let found = subjects().into_iter().find(|known| known.name == subject);
    match found.and_then(|subject| subject.contenders.into_iter().find(|known| known.name == name)) {
        Some(mut contender) => {
            measure::run_counted(&mut contender);
            ExitCode::SUCCESS
        }
        None => ExitCode::from(2),
    }
}
