//! Random sessions, until 1,000,000 calls were compared. EXTREAD_CALLS is another number, EXTREAD_SEED the first seed (1 unless told).
use std::env;

use compare::{generate, Compared};

fn told(name: &str, default: u64) -> u64 {
    env::var(name).map_or(default, |v| v.parse().expect(name))
}

#[test]
fn random_calls() {
    let (first, calls) = (told("EXTREAD_SEED", 1), told("EXTREAD_CALLS", 1_000_000));
    let mut compared = Compared::default();
    let mut seed = first;
    while compared.number_of_calls() < calls {
        compared.session(&generate::session(seed)).unwrap_or_else(|e| panic!("seed {seed}\n{e}"));
        seed += 1;
    }
    print!("{compared}seeds {first} to {}\n", seed - 1);
}
