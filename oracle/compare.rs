//! Answers, refusals and every word of the lent buffers, library against Rust.
//! The first difference is printed with its inputs and ends the run with status 1.

mod arithmetic;
pub mod cells;
mod colour;
pub mod flat;
mod neighbours;
pub mod predictors;
mod session;
pub mod tree;
mod weighted;

use crate::random::SEED;
use std::fmt::Debug;

pub fn all() {
    let checks = if cfg!(debug_assertions) { "on" } else { "off" };
    println!("seed {SEED:#x}; the Rust's debug assertions and overflow checks are {checks}");
    arithmetic::all();
    neighbours::all();
    predictors::all();
    colour::all();
    weighted::all();
    cells::all();
    tree::all();
    flat::all();
    session::all();
}

/// Counts the cases of one comparison and says so at its end.
struct Tally {
    what: &'static str,
    cases: u64,
    refused: u64,
}

impl Tally {
    fn new(what: &'static str) -> Self {
        Tally { what, cases: 0, refused: 0 }
    }

    #[inline(always)]
    fn case<A: PartialEq + Debug>(&mut self, owed: A, library: A, inputs: impl FnOnce() -> String) {
        self.cases += 1;
        if owed != library {
            println!("{}: DIFFERENT, after {} equal cases", self.what, self.cases - 1);
            println!("  inputs  {}\n  owed    {owed:?}\n  library {library:?}", inputs());
            std::process::exit(1);
        }
    }
}

impl Drop for Tally {
    fn drop(&mut self) {
        let Tally { what, cases, refused } = self;
        println!("{what:<45}{cases:>10} cases, {refused:>8} of them refused: equal");
    }
}
