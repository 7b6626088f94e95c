//! Threads take names on each network of each width: the names are 0 to k-1, each once. Each cause for which a taker is
//! refused, and that a refused call changes nothing.
use renamer::{Error, Kind, OwnTaker, Taker, Takers, MOST_CLIENTS};
use std::cell::RefCell;
use std::thread;

const THREADS: u64 = 4;
const ALONE: u64 = 300;
const LISTS: u64 = 4;
const TOGETHER: usize = 50;
const ALL: u64 = THREADS * (ALONE + LISTS * TOGETHER as u64);

/// Takes names alone and by lists.
fn take_all(mut taker: Taker, entries: u64, thread: u64) -> Vec<u64> {
    let mut names: Vec<u64> = (0..ALONE).map(|i| taker.take((i * 7 + thread) % entries).unwrap()).collect();
    for list in 0..LISTS {
        let mut more = [0; TOGETHER];
        taker.take_many(list * 3 % entries, &mut more).unwrap();
        names.extend(more);
    }
    assert!(names.iter().all(|name| *name < taker.entered()) && taker.entered() <= ALL);
    names
}

#[test]
fn names_are_tight_on_each_network() {
    for kind in Kind::ALL {
        for level in 1..=8 {
            for open in [Taker::open, Taker::open_apart] {
                let entries = if kind == Kind::Tree { 1 } else { 1 << level };
                let mut first = open(kind, 1 << level).unwrap();
                let takers: Vec<Taker> = (0..THREADS).map(|_| first.split().unwrap()).collect();
                let mut names = thread::scope(|scope| {
                    let take = |(taker, thread)| scope.spawn(move || take_all(taker, entries, thread));
                    let threads: Vec<_> = takers.into_iter().zip(0..).map(take).collect();
                    threads.into_iter().flat_map(|thread| thread.join().unwrap()).collect::<Vec<u64>>()
                });
                names.sort_unstable();
                assert!(names.into_iter().eq(0..ALL));
                assert_eq!((first.entered(), first.take(0)), (ALL, Ok(ALL)));
            }
        }
    }
}

#[test]
fn refusals_change_nothing() {
    for width in [0, 1, 3, 257, 512, u32::MAX] {
        assert_eq!(Taker::open(Kind::Tree, width).err(), Some(Error::Width));
    }
    let mut taker = Taker::open(Kind::Bitonic, 4).unwrap();
    let mut names = [77; 3];
    assert_eq!(taker.take(4), Err(Error::NoSuchEntry));
    assert_eq!(taker.take_many(u64::MAX, &mut names), Err(Error::NoSuchEntry));
    assert_eq!((names, taker.entered()), ([77; 3], 0));
    assert_eq!(taker.take_many(3, &mut []), Ok(()));
    assert_eq!(taker.take(3), Ok(0));
}

/// A first taker gives 2^40 names, that one 2^20, and each other half of what it has, in the end one name.
#[test]
fn a_chain_of_takers_ends() {
    let mut chain = vec![Taker::open(Kind::Tree, 2).unwrap()];
    for _ in 0..22 {
        let other = chain.last_mut().unwrap().split().unwrap();
        chain.push(other);
    }
    let last = chain.last_mut().unwrap();
    assert_eq!(last.split().err(), Some(Error::QuotaTooSmall));
    assert_eq!(last.take_many(0, &mut [0; 2]), Err(Error::QuotaSpent));
    assert_eq!((last.take(0), last.take(0)), (Ok(0), Err(Error::QuotaSpent)));
    assert_eq!(chain[0].take(0), Ok(1));
}

thread_local!(static OWN: RefCell<Option<OwnTaker>> = const { RefCell::new(None) });

/// More threads than takers come and go: each has a taker until it ends, and is refused if all are taken.
#[test]
fn threads_get_takers_by_a_pool_that_they_share() {
    const TURNS: u64 = 50;
    let takers = Takers::open(Kind::Bitonic, 4, THREADS).unwrap();
    let take = |entry| OWN.with_borrow_mut(|own| takers.for_this_thread(own)?.take(entry));
    let mut names = Vec::new();
    for _ in 0..TURNS {
        thread::scope(|scope| {
            let take = &take;
            let threads: Vec<_> =
                (0..THREADS).map(|entry| scope.spawn(move || [take(entry).unwrap(), take(0).unwrap()])).collect();
            names.extend(threads.into_iter().flat_map(|thread| thread.join().unwrap()));
        });
    }
    names.sort_unstable();
    assert!(names.into_iter().eq(0..2 * THREADS * TURNS));
    let mut all: Vec<Option<OwnTaker>> = (0..THREADS).map(|_| None).collect();
    assert!(all.iter_mut().all(|own| takers.for_this_thread(own).is_ok()));
    assert_eq!(take(0), Err(Error::NothingBack));
    all.pop();
    assert_eq!(take(0), Ok(2 * THREADS * TURNS));
    drop(takers);
    assert!(all[0].is_some() && OWN.take().is_some());
    assert_eq!(Takers::open(Kind::Tree, 3, 1).err(), Some(Error::Width));
    assert_eq!(Takers::open(Kind::Tree, 2, MOST_CLIENTS + 1).err(), Some(Error::Quota));
}
