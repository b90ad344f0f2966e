//! Compares the published Rust with libtableau_sum.a.
//!
//!     compare differences            what docs/DIFFERENCES.md says the Rust does where we refuse
//!     compare limits                 each limit and its neighbour
//!     compare short STRIDE           one call on every STRIDE-th of the short sums, n 1, and of the pairs of short coefficient lists
//!     compare random CALLS SEED      lists of random calls
//!     compare list SEED NUMBER       one of these lists again
//!     compare trials STEPS SEED      trials of random cutoffs, beside the same calls made one by one
//!     compare sample SEED            lists of calls with the published answers, as crates/replay takes and tells them

mod collision;
mod differences;
mod draw;
mod judge;
mod limits;
mod pair;
mod random;
mod sample;
mod short;
mod tally;
mod trials;

fn main() {
    let args: Vec<String> = std::env::args().skip(1).collect();
    let number = |i: usize| args.get(i).expect("a number").parse::<u64>().expect("a number");
    match args.first().map(String::as_str) {
        Some("differences") => differences::run(),
        Some("limits") => limits::run(),
        Some("short") => short::run(number(1) as usize),
        Some("random") => random::run(number(2), number(1) as usize),
        Some("list") => random::again(number(1), number(2) as usize),
        Some("trials") => trials::run(number(2), number(1) as usize),
        Some("sample") => sample::run(number(1)),
        _ => panic!("see the head of main.rs"),
    }
}
