//! Walks in plain Rust, without a floor: as many atomic adds as a name is.
use crate::clients;
use crate::timing::{in_threads, Spent, CLIENTS};
use renamer::Grant;
use std::hint::black_box;
use std::sync::atomic::{AtomicU64, Ordering};

/// Words for walks, and a table of where wires end. Output p of word w is wire 2 w + p.
struct Words {
    words: Vec<AtomicU64>,
    ends: Vec<u32>,
    adds: usize,
}

impl Words {
    /// How many words a layer has, of which there is one for each add.
    const LAYER: usize = 32;

    fn new(adds: usize) -> Words {
        let words: Vec<AtomicU64> = (0..adds * Self::LAYER).map(|_| AtomicU64::new(0)).collect();
        let ends = (0..2 * words.len())
            .map(|wire| (wire / (2 * Self::LAYER) + 1) * Self::LAYER + wire % Self::LAYER)
            .map(|word| u32::try_from(word).expect("there are few words"))
            .collect();
        Words { words, ends, adds }
    }

    /// So many atomic adds, each on the word that the number of the last one leads to: the last word, and its number.
    #[inline(always)]
    fn walk(&self, client: u64) -> (usize, u64) {
        let mut word = client as usize % Self::LAYER;
        for _ in 1..self.adds {
            let number = self.words[word].fetch_add(1, Ordering::SeqCst);
            word = self.ends[2 * word + (number % 2) as usize] as usize;
        }
        (word, self.words[word].fetch_add(1, Ordering::SeqCst))
    }

    /// A walk behind a call, as one of a lane is, and a grant on a list that has room.
    #[inline(never)]
    fn walk_and_grant(&self, grants: &mut Vec<Grant>, client: u64) -> u64 {
        let (word, visit) = self.walk(client);
        let exit = (word % Self::LAYER) as u64;
        let name = visit * Self::LAYER as u64 + exit;
        grants.push(Grant { client, exit, visit, name });
        name
    }
}

/// A walk that is made where it is called. What it gives are no names.
pub fn walk(adds: usize, threads: u64) -> Spent {
    let words = Words::new(adds);
    let (spent, sum) =
        in_threads((0..threads).collect(), |thread| clients(*thread, threads).map(|client| words.walk(client).1).sum());
    black_box(sum);
    spent
}

/// The same walk with a call and a grant for each client.
pub fn granted_walk(adds: usize, threads: u64) -> Spent {
    let words = Words::new(adds);
    let lists = (0..threads).map(|thread| (thread, Vec::with_capacity((CLIENTS / threads) as usize))).collect();
    let (spent, sum) = in_threads(lists, |(thread, grants)| {
        clients(*thread, threads).map(|client| words.walk_and_grant(grants, client)).sum()
    });
    black_box(sum);
    spent
}
