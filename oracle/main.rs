//! `compare`: the library's answers against the Rust's. `bench`: the time of the two, as ratios.

mod bench;
mod compare;
#[rustfmt::skip] // an argument a line would hide that a slice is a pointer and a length
mod library;
mod random;

fn main() {
    match std::env::args().nth(1).as_deref() {
        Some("compare") => compare::all(),
        Some("bench") => bench::all(),
        _ => panic!("compare or bench?"),
    }
}
