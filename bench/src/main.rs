//! Compares the proved library, called through its Rust package, with plain Rust, then times both and prints a table.
//! `bench/run` builds and runs it.

mod calls;
mod compare;
mod dice;
mod floats;
mod library;
mod made_up;
mod ours;
mod plain;
mod plain_calls;
mod scenes;
mod timing;

fn main() {
    let mut compared = compare::Compared::default();
    compare::compare_calls(&mut compared);
    let rows = timing::rows(&mut compared);
    compared.report();
    println!();
    timing::time_all(rows);
}
