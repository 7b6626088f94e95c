//! What a name takes by one of these ways, in so many threads: atomic adds on one word, a table of clients, a walk in
//! plain Rust, or a floor of this repository's library.
//!
//!     namers add|add-many|holders|vector|table|refused THREADS ROUNDS
//!     namers walk|granted-walk ADDS THREADS ROUNDS
//!     namers name|apart|many|all-over NETWORK WIDTH THREADS ROUNDS
//!     namers take|take-many NETWORK WIDTH THREADS ROUNDS
//!
//! Or what a lane takes by itself, without a name, if so many are there: to be split off, handed back and joined by
//! another, all of them or an eighth by turns; or a join while none is back.
//!
//!     namers lanes|eighth|none LANES 1 ROUNDS
//!
//! Or what it takes to take a slot of so many and to give it back, while all others are free, or while they are out.
//!
//!     namers slots|last SLOTS THREADS ROUNDS
//!
//! By all but `all-over`, by which each thread lets its clients in by all entries, each has entries of its own.
//! By `apart` the words of the floor lie apart.
mod peers;
mod timing;
mod walks;

use renamer::{Client, Error, Floor, Grant, Kind, Lane, Slot, Slots, Taker};
use std::env;
use std::hint::black_box;
use std::process;
use timing::{in_threads, keep_memory, print_median, Spent, CLIENTS};
use walks::{granted_walk, walk};

/// How many clients or takes a list has.
const LIST: usize = 64;

/// The identities of a thread's clients: they rise, and are no small numbers.
fn clients(thread: u64, threads: u64) -> impl Iterator<Item = u64> {
    (0..CLIENTS / threads).map(move |client| (thread << 40) + client)
}

/// The sum of the names of an epoch, which shows that they are 0 to k-1.
fn is_tight(sum: u64) {
    assert_eq!(sum, CLIENTS * (CLIENTS - 1) / 2, "the names are not tight");
}

/// A lane for each thread, with room for its clients.
fn lanes(floor: &Floor, threads: u64) -> Vec<(u64, Lane)> {
    let lane = || floor.lane(CLIENTS / threads).expect("there is memory");
    let mut lanes: Vec<_> = (0..threads).map(|thread| (thread, lane())).collect();
    for (_, lane) in &mut lanes {
        lane.reserve(CLIENTS / threads).expect("there is memory");
    }
    lanes
}

/// Which entries a thread's clients come by.
#[derive(Clone, Copy)]
enum Entering {
    /// Those of the thread's own part of the width.
    Apart,
    /// All, from one of its own on.
    AllOver,
}

/// The entries of a thread's clients, one after another.
fn entries(entries: u64, entering: Entering, thread: u64, threads: u64) -> impl Iterator<Item = u64> {
    let from = thread * entries / threads;
    let to = match entering {
        Entering::Apart => ((thread + 1) * entries / threads).max(from + 1),
        Entering::AllOver => from + entries,
    };
    // No remainder, which would take as long as an add.
    (from..to).cycle().map(move |entry| if entry < entries { entry } else { entry - entries })
}

/// A call that opens a floor.
type Open = fn(Kind, u32, u64) -> Result<Floor, Error>;

fn name(open: Open, kind: Kind, width: u32, entering: Entering, threads: u64) -> Spent {
    let floor = open(kind, width, CLIENTS).expect("there is memory");
    let (spent, sum) = in_threads(lanes(&floor, threads), |(thread, lane)| {
        let entries = entries(lane.entries(), entering, *thread, threads);
        let mut sum = 0;
        for (client, entry) in clients(*thread, threads).zip(entries) {
            sum += lane.name(client, entry).expect("there is room");
        }
        sum
    });
    is_tight(sum);
    spent
}

/// Names clients by lists of 64, the same list again and again: a floor compares no clients.
fn many(kind: Kind, width: u32, threads: u64) -> Spent {
    let floor = Floor::open(kind, width, CLIENTS).expect("there is memory");
    let (spent, sum) = in_threads(lanes(&floor, threads), |(thread, lane)| {
        let entries = entries(lane.entries(), Entering::Apart, *thread, threads);
        let coming = clients(*thread, threads).zip(entries).map(|(client, entry)| Client { client, entry });
        let list: Vec<_> = coming.take(LIST).collect();
        let mut grants = [Grant::default(); LIST];
        let mut sum = 0;
        for _ in 0..CLIENTS / threads / LIST as u64 {
            lane.name_many_into(&list, &mut grants).expect("there is room");
            sum += grants.iter().map(|grant| grant.name).sum::<u64>();
        }
        sum
    });
    is_tight(sum);
    spent
}

/// A taker for each thread, and the entries by which it takes names.
fn takers(kind: Kind, width: u32, threads: u64) -> Vec<(Taker, impl Iterator<Item = u64>)> {
    let mut first = Taker::open(kind, width).expect("there is memory");
    let count = if kind == Kind::Tree { 1 } else { width.into() };
    (0..threads)
        .map(|thread| (first.split().expect("there is memory"), entries(count, Entering::Apart, thread, threads)))
        .collect()
}

fn take(kind: Kind, width: u32, threads: u64) -> Spent {
    let (spent, sum) = in_threads(takers(kind, width, threads), |(taker, entries)| {
        let mut sum = 0;
        for entry in entries.take((CLIENTS / threads) as usize) {
            sum += taker.take(entry).expect("there is quota");
        }
        sum
    });
    is_tight(sum);
    spent
}

/// Takes names by lists of 64.
fn take_many(kind: Kind, width: u32, threads: u64) -> Spent {
    let (spent, sum) = in_threads(takers(kind, width, threads), |(taker, entries)| {
        let mut names = [0; LIST];
        let mut sum = 0;
        for entry in entries.take((CLIENTS / threads) as usize / names.len()) {
            taker.take_many(entry, &mut names).expect("there is quota");
            sum += names.iter().sum::<u64>();
        }
        sum
    });
    is_tight(sum);
    spent
}

/// A call that is refused: the network has no such entry.
fn refused(threads: u64) -> Spent {
    let floor = Floor::open(Kind::Tree, 64, CLIENTS).expect("there is memory");
    let (spent, refusals) = in_threads(lanes(&floor, threads), |(thread, lane)| {
        clients(*thread, threads).filter(|client| black_box(lane.name(*client, 1)).is_err()).count() as u64
    });
    assert_eq!(refusals, CLIENTS / threads * threads);
    spent
}

/// Splits off lanes, hands all back, and joins them.
fn come_and_go(count: u64) -> Spent {
    let turns = CLIENTS / count;
    let mut rest = Floor::open(Kind::Tree, 2, 1).expect("there is memory").into_lane();
    let (spent, _) = in_threads(vec![&mut rest], |rest| {
        for _ in 0..turns {
            let lanes: Vec<Lane> = (0..count).map(|_| rest.split(0).expect("there is memory")).collect();
            drop(lanes);
            (0..count).for_each(|_| rest.join().expect("a lane is back"));
        }
        0
    });
    spent.for_each_of(turns * count)
}

/// Hands every eighth lane back, joins these and splits off as many, by turns; the others are out meanwhile.
fn every_eighth(count: u64) -> Spent {
    let (turns, back) = (8 * CLIENTS / count, count.div_ceil(8));
    let mut rest = Floor::open(Kind::Tree, 2, 1).expect("there is memory").into_lane();
    let mut lanes: Vec<Option<Lane>> = (0..count).map(|_| Some(rest.split(0).expect("there is memory"))).collect();
    let (spent, _) = in_threads(vec![(&mut rest, &mut lanes)], |(rest, lanes)| {
        for turn in 0..turns {
            let of_turn = || (turn as usize % 8..count.max(8) as usize).step_by(8).map(|lane| lane % count as usize);
            of_turn().for_each(|lane| drop(lanes[lane].take()));
            (0..back).for_each(|_| rest.join().expect("a lane is back"));
            of_turn().for_each(|lane| lanes[lane] = Some(rest.split(0).expect("there is memory")));
        }
        0
    });
    spent.for_each_of(turns * back)
}

/// Joins while so many lanes are out and none is back.
fn none_back(count: u64) -> Spent {
    let mut rest = Floor::open(Kind::Tree, 2, 1).expect("there is memory").into_lane();
    let _lanes: Vec<Lane> = (0..count).map(|_| rest.split(0).expect("there is memory")).collect();
    let (spent, refused) = in_threads(vec![&mut rest], |rest| {
        (0..CLIENTS).filter(|_| black_box(rest.join()) == Err(Error::NothingBack)).count() as u64
    });
    assert_eq!(refused, CLIENTS);
    spent
}

/// Takes a slot of so many, while some are out, and gives it back.
fn take_slots(count: u64, out: u64, threads: u64) -> Spent {
    let slots = Slots::open(count).expect("there is memory");
    let _out: Vec<Slot> = (0..out).map(|_| slots.take().expect("a slot is free")).collect();
    let (spent, taken) = in_threads((0..threads).collect(), |_: &mut u64| {
        (0..CLIENTS / threads).filter(|_| black_box(slots.take()).is_ok()).count() as u64
    });
    assert_eq!(taken, CLIENTS / threads * threads);
    spent
}

fn number<N: std::str::FromStr>(word: &str) -> N {
    word.parse().unwrap_or_else(|_| usage())
}

fn usage() -> ! {
    eprintln!("namers: add|add-many|holders|vector|table|refused THREADS ROUNDS, or");
    eprintln!("        walk|granted-walk ADDS THREADS ROUNDS, or");
    eprintln!("        name|apart|many|all-over bitonic|periodic|tree WIDTH THREADS ROUNDS, or");
    eprintln!("        take|take-many bitonic|periodic|tree WIDTH THREADS ROUNDS, or");
    eprintln!("        lanes|eighth|none LANES 1 ROUNDS, or");
    eprintln!("        slots|last SLOTS THREADS ROUNDS");
    process::exit(2)
}

fn kind(word: &str) -> Kind {
    match word {
        "bitonic" => Kind::Bitonic,
        "periodic" => Kind::Periodic,
        "tree" => Kind::Tree,
        _ => usage(),
    }
}

fn main() {
    keep_memory();
    let words: Vec<String> = env::args().skip(1).collect();
    let words: Vec<&str> = words.iter().map(String::as_str).collect();
    let round: Box<dyn Fn(u64) -> Spent> = match words[..] {
        ["add", ..] => Box::new(peers::add),
        ["add-many", ..] => Box::new(peers::add_many),
        ["holders", ..] => Box::new(peers::holders),
        ["vector", ..] => Box::new(peers::vector),
        ["table", ..] => Box::new(peers::table),
        ["refused", ..] => Box::new(refused),
        ["walk", adds, ..] => Box::new(move |threads| walk(number(adds), threads)),
        ["granted-walk", adds, ..] => Box::new(move |threads| granted_walk(number(adds), threads)),
        ["name", network, width, ..] => {
            Box::new(move |threads| name(Floor::open, kind(network), number(width), Entering::Apart, threads))
        }
        ["apart", network, width, ..] => {
            Box::new(move |threads| name(Floor::open_apart, kind(network), number(width), Entering::Apart, threads))
        }
        ["all-over", network, width, ..] => {
            Box::new(move |threads| name(Floor::open, kind(network), number(width), Entering::AllOver, threads))
        }
        ["many", network, width, ..] => Box::new(move |threads| many(kind(network), number(width), threads)),
        ["take", network, width, ..] => Box::new(move |threads| take(kind(network), number(width), threads)),
        ["take-many", network, width, ..] => Box::new(move |threads| take_many(kind(network), number(width), threads)),
        ["lanes", count, ..] => Box::new(move |_| come_and_go(number(count))),
        ["eighth", count, ..] => Box::new(move |_| every_eighth(number(count))),
        ["none", count, ..] => Box::new(move |_| none_back(number(count))),
        ["slots", count, ..] => Box::new(move |threads| take_slots(number(count), 0, threads)),
        ["last", count, ..] => Box::new(move |threads| take_slots(number(count), number::<u64>(count) - 1, threads)),
        _ => usage(),
    };
    let [.., threads, rounds] = words[..] else { usage() };
    print_median(number(rounds), CLIENTS, || round(number(threads)));
}
