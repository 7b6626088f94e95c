//! What it takes to put a client into a slab and get its key, in so many threads: a slab behind a mutex, or one of
//! shards. By `-back` each client is taken out again before the next, and so gives its key back.
//!
//!     slabs slab|slab-back|sharded|sharded-back THREADS ROUNDS
#[path = "../../library/src/timing.rs"]
mod timing;

use std::env;
use std::process;
use std::sync::Mutex;
use timing::{in_threads, keep_memory, print_median, Spent, CLIENTS};

fn clients(thread: u64, threads: u64) -> impl Iterator<Item = u64> {
    (0..CLIENTS / threads).map(move |client| (thread << 40) + client)
}

/// Asks for a key for each client, and adds the keys up.
fn in_each(threads: u64, key: impl Fn(u64) -> u64 + Sync) -> (Spent, u64) {
    in_threads((0..threads).collect(), |thread| clients(*thread, threads).map(&key).fold(0, u64::wrapping_add))
}

fn slab(threads: u64, is_given_back: bool) -> Spent {
    let clients_by_key = Mutex::new(slab::Slab::with_capacity(CLIENTS as usize));
    let locked = || clients_by_key.lock().expect("no thread panics");
    let (spent, sum) = in_each(threads, |client| {
        let key = locked().insert(client);
        if is_given_back {
            locked().remove(key);
        }
        key as u64
    });
    assert!(is_given_back || sum == CLIENTS * (CLIENTS - 1) / 2, "the keys are not tight");
    spent
}

/// Its keys have the shard in them, so they are distinct and not tight.
fn sharded(threads: u64, is_given_back: bool) -> Spent {
    let clients_by_key = sharded_slab::Slab::new();
    let (spent, _) = in_each(threads, |client| {
        let key = clients_by_key.insert(client).expect("there is room");
        assert!(!is_given_back || clients_by_key.remove(key), "the key was given");
        key as u64
    });
    spent
}

fn main() {
    keep_memory();
    let words: Vec<String> = env::args().skip(1).collect();
    let words: Vec<&str> = words.iter().map(String::as_str).collect();
    let [way, threads, rounds] = words[..] else { usage() };
    let (slabs, is_given_back): (fn(u64, bool) -> Spent, bool) = match way {
        "slab" => (slab, false),
        "slab-back" => (slab, true),
        "sharded" => (sharded, false),
        "sharded-back" => (sharded, true),
        _ => usage(),
    };
    let (Ok(threads), Ok(rounds)) = (threads.parse(), rounds.parse()) else { usage() };
    print_median(rounds, CLIENTS, || slabs(threads, is_given_back));
}

fn usage() -> ! {
    eprintln!("slabs: slab|slab-back|sharded|sharded-back THREADS ROUNDS");
    process::exit(2)
}
