//! The sessions of `oracle -x` (oracle/README.md, "Records beyond `extread`") driven through the library for a host, in the
//! same lines, so that both can be compared in one process.

mod driver;
pub mod generate;
mod put;
mod records;

use std::collections::BTreeMap;
use std::fmt;

pub use driver::session;

/// How often each call gave each number. Only records that call something are counted.
pub type Calls = BTreeMap<(&'static str, u8), u64>;

/// What was found equal.
#[derive(Default)]
pub struct Compared {
    pub calls: Calls,
    sessions: u64,
    lines: usize,
    entries: usize,
}

impl Compared {
    /// Runs a session through both; where they part, the lines before it are told too.
    pub fn session(&mut self, bytes: &[u8]) -> Result<(), String> {
        let want = oracle::session(bytes, oracle::Opts { beyond: true, ..Default::default() });
        let mut calls = Calls::new();
        let got = session(bytes, &mut calls);
        if want != got {
            return Err(difference(&want, &got));
        }
        for (call, n) in calls {
            *self.calls.entry(call).or_default() += n;
        }
        self.sessions += 1;
        self.lines += want.lines().count();
        self.entries += want.lines().filter(|l| l.starts_with("add ")).count();
        Ok(())
    }

    pub fn number_of_calls(&self) -> u64 {
        self.calls.values().sum()
    }
}

fn difference(want: &str, got: &str) -> String {
    let (mut a, mut b) = (want.lines(), got.lines());
    let mut before = Vec::new();
    loop {
        match (a.next(), b.next()) {
            (Some(x), Some(y)) if x == y => before.push(x),
            (x, y) => {
                let from = before.len().saturating_sub(12);
                let (x, y) = (x.unwrap_or("(ends)"), y.unwrap_or("(ends)"));
                return format!("{}\nthe original: {x}\nthe library:  {y}\n", before[from..].join("\n"));
            }
        }
    }
}

impl fmt::Display for Compared {
    fn fmt(&self, f: &mut fmt::Formatter<'_>) -> fmt::Result {
        for ((name, number), n) in &self.calls {
            writeln!(f, "{n:>9}  {name} {number}")?;
        }
        writeln!(f, "{:>9}  calls", self.number_of_calls())?;
        writeln!(f, "{} sessions, {} lines, {} of them entries", self.sessions, self.lines, self.entries)
    }
}
