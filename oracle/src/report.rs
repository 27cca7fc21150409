//! Counting: a part is a set of calls that must all agree with Rust, shared between two threads.

use std::process::ExitCode;
use std::thread;

/// Fixed, and not the number of processors, so that a part makes the same calls on every machine.
pub const SHARES: u64 = 2;

/// What one share of a part has seen.
#[derive(Default)]
pub struct Tally {
    calls: u64,
    failures: u64,
    smallest: Option<Failure>,
}

struct Failure {
    size: (u64, usize),
    story: String,
}

impl Tally {
    /// Counts a call. `size` orders the inputs; `story` tells of a call that differs.
    pub fn count(&mut self, agrees: bool, size: (u64, usize), story: impl FnOnce() -> String) {
        self.calls += 1;
        self.expect(agrees, size, story);
    }

    /// A condition of the test itself, which is no call.
    pub fn expect(&mut self, holds: bool, size: (u64, usize), story: impl FnOnce() -> String) {
        if !holds {
            self.fail(size, story);
        }
    }

    fn fail(&mut self, size: (u64, usize), story: impl FnOnce() -> String) {
        self.failures += 1;
        if self.smallest.as_ref().is_none_or(|least| size < least.size) {
            self.smallest = Some(Failure { size, story: story() });
        }
    }

    fn add(&mut self, other: Tally) {
        self.calls += other.calls;
        self.failures += other.failures;
        self.smallest = self.smallest.take().into_iter().chain(other.smallest).min_by_key(|failure| failure.size);
    }
}

/// What all parts so far have come to.
#[derive(Default)]
pub struct Report {
    passed: u64,
    failed: u64,
}

impl Report {
    /// Runs one part: `work` gets the number of its share, 0 to `SHARES` - 1.
    pub fn part(&mut self, name: &str, work: impl Fn(u64, &mut Tally) + Sync) {
        let total = run_shares(&work);
        match total.smallest {
            None if total.calls > 0 => {
                self.passed += 1;
                println!("oracle {name}: {} calls agree", total.calls);
            }
            None => {
                self.failed += 1;
                println!("oracle {name}: no call was made");
            }
            Some(least) => {
                self.failed += 1;
                println!(
                    "oracle {name}: {} of {} calls differ; the smallest: {}",
                    total.failures, total.calls, least.story
                );
            }
        }
    }

    pub fn close(self) -> ExitCode {
        println!("oracle: {} passed, {} failed", self.passed, self.failed);
        if self.failed == 0 {
            ExitCode::SUCCESS
        } else {
            ExitCode::FAILURE
        }
    }
}

fn run_shares(work: &(impl Fn(u64, &mut Tally) + Sync)) -> Tally {
    let mut total = Tally::default();
    thread::scope(|scope| {
        let running: Vec<_> = (0..SHARES)
            .map(|share| {
                scope.spawn(move || {
                    let mut tally = Tally::default();
                    work(share, &mut tally);
                    tally
                })
            })
            .collect();
        for share in running {
            match share.join() {
                Ok(tally) => total.add(tally),
                // A wrong offset can make safe code stop; its own message is on stderr.
                Err(_) => total.fail((u64::MAX, usize::MAX), || "a share stopped before its end".to_string()),
            }
        }
    });
    total
}
