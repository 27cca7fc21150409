//! Measuring: the best of many interleaved rounds, and instructions by callgrind, both less the empty call.

use std::hint::black_box;
use std::process::Command;
use std::time::Instant;

const ROUNDS: usize = 60;

#[derive(Clone, Copy, PartialEq)]
pub enum Kind {
    /// Does nothing: what the others lose for loop and call.
    Empty,
    Ours,
    Peer,
}

pub struct Contender {
    pub name: &'static str,
    pub kind: Kind,
    /// Goes once over all values.
    pub run: Box<dyn FnMut()>,
}

pub struct Subject {
    pub name: &'static str,
    /// Calls in one run of a contender.
    pub calls: usize,
    pub contenders: Vec<Contender>,
    /// Peers that are not installed here.
    pub absent: Vec<&'static str>,
}

/// What a contender took for a call.
pub struct Row {
    pub name: &'static str,
    pub ours: bool,
    pub nanoseconds: f64,
    /// `None` without valgrind.
    pub instructions: Option<f64>,
}

/// What came out for a subject, the fastest first.
pub struct Measured {
    pub subject: &'static str,
    pub calls: usize,
    pub rows: Vec<Row>,
    pub absent: Vec<&'static str>,
}

impl Measured {
    pub fn ours(&self) -> impl Iterator<Item = &Row> {
        self.rows.iter().filter(|row| row.ours)
    }

    pub fn peers(&self) -> impl Iterator<Item = &Row> {
        self.rows.iter().filter(|row| !row.ours)
    }

    pub fn fastest_peer(&self) -> &Row {
        self.peers().next().expect("every subject has a peer")
    }

    pub fn fewest_instructions(&self) -> Option<f64> {
        self.peers().filter_map(|row| row.instructions).reduce(f64::min)
    }
}

pub fn measure(subject: &mut Subject) -> Measured {
    let times = nanoseconds(subject);
    let counts = instructions(subject);
    let contenders = subject.contenders.iter().enumerate().filter(|(_, contender)| contender.kind != Kind::Empty);
    let mut rows: Vec<Row> = contenders
        .map(|(at, contender)| Row {
            name: contender.name,
            ours: contender.kind == Kind::Ours,
            nanoseconds: times[at],
            instructions: counts.as_ref().map(|counts| counts[at]),
        })
        .collect();
    rows.sort_by(|one, other| one.nanoseconds.total_cmp(&other.nanoseconds));
    Measured { subject: subject.name, calls: subject.calls, rows, absent: subject.absent.clone() }
}

/// Nanoseconds a call, in the order of the contenders. The rounds go round them, so that a disturbance hits all.
fn nanoseconds(subject: &mut Subject) -> Vec<f64> {
    let mut best = vec![f64::MAX; subject.contenders.len()];
    for _ in 0..ROUNDS {
        for (best, contender) in best.iter_mut().zip(&mut subject.contenders) {
            let start = Instant::now();
            (contender.run)();
            *best = best.min(start.elapsed().as_nanos() as f64);
        }
    }
    less_empty(subject, best)
}

/// Instructions a call, in the order of the contenders; `None` without valgrind.
fn instructions(subject: &Subject) -> Option<Vec<f64>> {
    let counts = subject.contenders.iter().map(|contender| callgrind(subject.name, contender.name));
    Some(less_empty(subject, counts.collect::<Option<Vec<f64>>>()?))
}

fn less_empty(subject: &Subject, totals: Vec<f64>) -> Vec<f64> {
    let empty = subject.contenders.iter().position(|contender| contender.kind == Kind::Empty);
    let least = totals[empty.expect("every subject has an empty contender")];
    totals.iter().map(|total| (total - least) / subject.calls as f64).collect()
}

/// What callgrind counts inside of `counted`. The first run loads what is loaded late.
pub fn run_counted(contender: &mut Contender) {
    (contender.run)();
    counted(contender);
}

#[no_mangle]
#[inline(never)]
extern "C" fn counted(contender: &mut Contender) {
    black_box(&mut contender.run)();
}

fn callgrind(subject: &str, name: &str) -> Option<f64> {
    let answer = Command::new("valgrind")
        .args(["--tool=callgrind", "--callgrind-out-file=/dev/null", "--toggle-collect=counted"])
        .arg(std::env::current_exe().ok()?)
        .args(["count", subject, name])
        .output()
        .ok()?;
    let words = String::from_utf8_lossy(&answer.stderr);
    let line = words.lines().find(|line| line.contains("Collected :"))?;
    line.split_whitespace().last()?.parse().ok()
}
