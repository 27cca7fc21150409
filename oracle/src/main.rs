//! The oracle: holds the archive's entries to the Rust standard library, byte for byte.
//!
//!     oracle                          run every part
//!     oracle list N M SEED --out DIR  write N plain decimals and M calls with all fields to DIR/stdin, and Rust's
//!                                     answers to DIR/stdout
//!     oracle parts N SEED --out DIR   the same for N texts of three parts
//!     oracle part-list N SEED --out DIR   the same for N texts of 0 to 12 parts

#![feature(formatting_options, int_format_into, num_internals, numfmt)]
// The parts are internal to the library.
#![allow(internal_features)]

mod ends;
mod frame;
mod list;
mod parts;
mod reads;
mod report;
mod values;
mod writes;

use report::Report;
use std::process::ExitCode;

fn main() -> ExitCode {
    let words: Vec<String> = std::env::args().skip(1).collect();
    let words: Vec<&str> = words.iter().map(String::as_str).collect();
    match words[..] {
        [] => run(),
        ["list", plain, full, seed, "--out", folder] => match (plain.parse(), full.parse(), seed.parse()) {
            (Ok(plain), Ok(full), Ok(seed)) => wrote("list", list::write(plain, full, seed, folder.as_ref()), folder),
            _ => usage(),
        },
        ["parts", count, seed, "--out", folder] => match (count.parse(), seed.parse()) {
            (Ok(count), Ok(seed)) => wrote("parts", parts::three::write(count, seed, folder.as_ref()), folder),
            _ => usage(),
        },
        ["part-list", count, seed, "--out", folder] => match (count.parse(), seed.parse()) {
            (Ok(count), Ok(seed)) => wrote("part-list", parts::list::write(count, seed, folder.as_ref()), folder),
            _ => usage(),
        },
        _ => usage(),
    }
}

fn run() -> ExitCode {
    let mut report = Report::default();
    ends::run(&mut report);
    writes::run(&mut report);
    reads::run(&mut report);
    report.close()
}

fn wrote(name: &str, lines: std::io::Result<usize>, folder: &str) -> ExitCode {
    match lines {
        Ok(lines) => {
            println!("oracle {name}: {lines} lines in {folder}/stdin and {folder}/stdout");
            ExitCode::SUCCESS
        }
        Err(error) => {
            eprintln!("oracle {name}: {folder}: {error}");
            ExitCode::FAILURE
        }
    }
}

fn usage() -> ExitCode {
    eprintln!("usage: oracle | oracle list N M SEED --out DIR | oracle parts|part-list N SEED --out DIR");
    ExitCode::from(2)
}
