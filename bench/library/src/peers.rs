//! What programs have at hand that need no floor: an atomic add, and tables of clients, in so many threads.
use crate::timing::{in_threads, Spent, CLIENTS};
use crate::{clients, is_tight, LIST};
use std::collections::HashMap;
use std::sync::atomic::{AtomicU64, Ordering};
use std::sync::Mutex;

/// One atomic add for each name.
pub fn add(threads: u64) -> Spent {
    let counter = AtomicU64::new(0);
    in_each(threads, |_| counter.fetch_add(1, Ordering::SeqCst))
}

/// One atomic add for 64 names, which are written to an array.
pub fn add_many(threads: u64) -> Spent {
    let counter = AtomicU64::new(0);
    let (spent, sum) = in_threads((0..threads).collect(), |_| {
        let mut names = [0; LIST];
        let mut sum = 0;
        for _ in 0..CLIENTS / threads / LIST as u64 {
            write_many(&counter, &mut names);
            sum += names.iter().sum::<u64>();
        }
        sum
    });
    is_tight(sum);
    spent
}

/// A call, as one of a list of takes is.
#[inline(never)]
fn write_many(counter: &AtomicU64, names: &mut [u64]) {
    let first = counter.fetch_add(names.len() as u64, Ordering::SeqCst);
    names.iter_mut().zip(first..).for_each(|(name, next)| *name = next);
}

/// One atomic add for each name, and an array that has the client with each name.
pub fn holders(threads: u64) -> Spent {
    let counter = AtomicU64::new(0);
    let holders: Vec<AtomicU64> = (0..CLIENTS).map(|_| AtomicU64::new(0)).collect();
    in_each(threads, |client| {
        let name = counter.fetch_add(1, Ordering::SeqCst);
        holders[name as usize].store(client, Ordering::Relaxed);
        name
    })
}

/// A vector behind a mutex, which has the client with each name.
pub fn vector(threads: u64) -> Spent {
    let holders = Mutex::new(Vec::with_capacity(CLIENTS as usize));
    in_each(threads, |client| {
        let mut holders = holders.lock().expect("no thread panics");
        holders.push(client);
        holders.len() as u64 - 1
    })
}

/// A table of clients behind a mutex, which has the name of each.
pub fn table(threads: u64) -> Spent {
    let names = Mutex::new(HashMap::with_capacity(CLIENTS as usize));
    in_each(threads, |client| {
        let mut names = names.lock().expect("no thread panics");
        let next = names.len() as u64;
        *names.entry(client).or_insert(next)
    })
}

/// Names each client by a call.
fn in_each(threads: u64, name: impl Fn(u64) -> u64 + Sync) -> Spent {
    let (spent, sum) = in_threads((0..threads).collect(), |thread| clients(*thread, threads).map(&name).sum());
    is_tight(sum);
    spent
}
