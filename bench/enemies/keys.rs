//! Prints so many clients that share one bucket of a table of 65,536, and of each smaller table, if all random words are
//! zero: of a table that hashes by the kit's `RandomState`, or of that in which a batch's clients stand.
//!
//!     keys sip|scatter COUNT

use std::collections::hash_map::DefaultHasher;
use std::hash::{Hash, Hasher};

/// A table of 65,536 has a power of two of groups, each of nine keys on average.
const GROUPS: u64 = 8_192;

/// All clients have twenty digits, so that their texts are of one length.
const FIRST: u64 = 10_000_000_000_000_000_000;

/// What the kit's `RandomState` of two zero keys gives, as Rust's `DefaultHasher::new()` does.
fn sip(key: u64) -> u64 {
    let mut hasher = DefaultHasher::new();
    key.hash(&mut hasher);
    hasher.finish()
}

/// The upper half of a factor times the key and a term, which that state draws.
fn scatter() -> impl Fn(u64) -> u64 {
    let [factor, term] = [0, 2].map(|place| u128::from(sip(place)) << 64 | u128::from(sip(place + 1)));
    move |key| (factor.wrapping_mul(key.into()).wrapping_add(term) >> 64) as u64
}

/// Prints the clients that are looked for in the first group: by the low bits of the hash, whose halves are one number.
fn print_keys(hash: impl Fn(u64) -> u64, count: usize) {
    let group = |key: u64| (hash(key) ^ (hash(key) >> 32)) % GROUPS;
    for key in (FIRST..).filter(|key| group(*key) == 0).take(count) {
        println!("{key}");
    }
}

fn main() {
    let words: Vec<String> = std::env::args().collect();
    let count = words[2].parse().expect("how many");
    match words[1].as_str() {
        "sip" => print_keys(sip, count),
        "scatter" => print_keys(scatter(), count),
        _ => panic!("keys sip|scatter COUNT"),
    }
}
