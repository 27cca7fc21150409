//! Compiles the peers that cargo cannot: those in C and C++, and itoa, whose source is in the folder that ITOA_SOURCE
//! names or where Debian's librust-itoa-dev puts it. Without that there is no itoa among the peers.

use std::path::{Path, PathBuf};
use std::process::{exit, Command};
use std::{env, fs};

const DEBIAN_CRATES: &str = "/usr/share/cargo/registry";

fn main() {
    let out = PathBuf::from(env::var_os("OUT_DIR").unwrap());
    println!("cargo:rerun-if-changed=build.rs");
    println!("cargo:rerun-if-changed=src/peers.cc");
    println!("cargo:rerun-if-changed={DEBIAN_CRATES}");
    println!("cargo:rerun-if-env-changed=ITOA_SOURCE");
    println!("cargo:rustc-check-cfg=cfg(itoa)");
    compile_c(&out);
    let itoa = env::var_os("ITOA_SOURCE").map(PathBuf::from).or_else(debian_itoa);
    if let Some(folder) = itoa.filter(|folder| folder.join("src/lib.rs").is_file()) {
        compile_itoa(&folder, &out);
    }
}

fn compile_c(out: &Path) {
    run(Command::new("g++").args(["-O2", "-std=c++17", "-Wall", "-c", "src/peers.cc", "-o"]).arg(out.join("peers.o")));
    run(Command::new("ar").arg("rcs").arg(out.join("libpeers.a")).arg(out.join("peers.o")));
    println!("cargo:rustc-link-search=native={}", out.display());
    println!("cargo:rustc-link-lib=static=peers");
    println!("cargo:rustc-link-lib=stdc++");
}

fn debian_itoa() -> Option<PathBuf> {
    let folders = fs::read_dir(DEBIAN_CRATES).ok()?;
    let mut found = folders.flatten().map(|entry| entry.path());
    found.find(|path| path.file_name().is_some_and(|name| name.to_string_lossy().starts_with("itoa-")))
}

fn compile_itoa(folder: &Path, out: &Path) {
    run(Command::new(env::var_os("RUSTC").unwrap())
        .args([
            "--crate-name",
            "itoa",
            "--crate-type",
            "rlib",
            "--edition",
            "2021",
            "-Copt-level=3",
            "--cap-lints=allow",
        ])
        .arg("--out-dir")
        .arg(out)
        .arg(folder.join("src/lib.rs")));
    println!("cargo:rustc-link-search=crate={}", out.display());
    println!("cargo:rustc-cfg=itoa");
}

fn run(command: &mut Command) {
    if !command.status().is_ok_and(|status| status.success()) {
        eprintln!("this failed: {command:?}");
        exit(1);
    }
}
