//! Refuses any Rust but the one whose library is the oracle.

use std::env;
use std::process::{exit, Command};

const ORACLE: &str = "rustc 1.97.0";

fn main() {
    println!("cargo:rerun-if-changed=build.rs");
    let rustc = env::var_os("RUSTC").unwrap();
    let answer = Command::new(rustc).arg("--version").output().expect("rustc does not run");
    let version = String::from_utf8_lossy(&answer.stdout).trim().to_string();
    if !version.starts_with(ORACLE) {
        eprintln!("the oracle is {ORACLE} (the nightly toolchain), and this is {version}");
        exit(1);
    }
}
