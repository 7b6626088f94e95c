//! Workers that come and go, four at once, and fill the rows of one table by name: no two workers get the same row, and
//! the rows that are filled are the first ones. There is no lock round a name, no list of workers, and no end of names:
//! each place for a worker has a taker, with which the next worker there goes on.
use renamer::{Error, Kind, Taker};
use std::sync::atomic::{AtomicU64, Ordering};
use std::thread;

const PLACES: usize = 4;
const WORKERS: usize = 64;
const ALONE: usize = 36;
const TOGETHER: usize = 64;

/// How often each row was filled.
type Table = [AtomicU64];

/// A worker fills some rows one by one, and some together, and gives its taker to the next.
fn fill_rows(table: &Table, mut taker: Taker) -> Result<Taker, Error> {
    let fill = |row: u64| table[usize::try_from(row).expect("a row")].fetch_add(1, Ordering::Relaxed);
    for _ in 0..ALONE {
        fill(taker.take(0)?);
    }
    let mut rows = [0; TOGETHER];
    taker.take_many(0, &mut rows)?;
    for row in rows {
        fill(row);
    }
    Ok(taker)
}

/// The workers of one place, one after another.
fn run_place(table: &Table, mut taker: Taker) -> Result<(), Error> {
    for _ in 0..WORKERS / PLACES {
        taker = thread::scope(|scope| scope.spawn(|| fill_rows(table, taker)).join().expect("a worker ends"))?;
    }
    Ok(())
}

fn main() -> Result<(), Error> {
    let table: Vec<_> = (0..WORKERS * (ALONE + TOGETHER)).map(|_| AtomicU64::new(0)).collect();
    let mut first = Taker::open(Kind::Tree, 8)?;
    let others = (1..PLACES).map(|_| first.split()).collect::<Result<Vec<_>, _>>()?;
    thread::scope(|scope| {
        let places: Vec<_> = others.into_iter().map(|taker| scope.spawn(|| run_place(&table, taker))).collect();
        run_place(&table, first)?;
        places.into_iter().try_for_each(|place| place.join().expect("a place ends"))
    })?;
    assert!(table.iter().all(|row| row.load(Ordering::Relaxed) == 1));
    println!("{WORKERS} workers filled the rows 0 to {}, each once", table.len() - 1);
    Ok(())
}
