//! A table with a row for each client of an epoch. Two threads serve clients at once; a client's name is its row, so the
//! rows of an epoch are the first ones. The next epoch has a floor of its own, and its rows begin at 0 again.
use renamer::{Error, Floor, Kind};
use std::ops::Range;
use std::sync::atomic::{AtomicU64, Ordering};
use std::thread;

const ROWS: u64 = 64;

/// Each client gets a row, and writes into it what it has: here its identity. The entries are this thread's own.
fn serve(floor: &Floor, table: &[AtomicU64], clients: Range<u64>, entries: Range<u64>) -> Result<(), Error> {
    let mut lane = floor.lane(ROWS / 2)?;
    for (client, entry) in clients.zip(entries.cycle()) {
        table[lane.index(client, entry)?].store(client, Ordering::Relaxed);
    }
    Ok(())
}

/// Serves the clients of an epoch by two threads.
fn run_epoch(table: &[AtomicU64], epoch: u64) -> Result<(), Error> {
    let floor = Floor::open(Kind::Bitonic, 4, ROWS)?;
    let first = 100 * epoch;
    thread::scope(|scope| {
        let other = scope.spawn(|| serve(&floor, table, first + 50..first + 50 + 2 * epoch, 2..4));
        serve(&floor, table, first..first + epoch, 0..2)?;
        other.join().expect("a thread ends")
    })
}

fn main() -> Result<(), Error> {
    for epoch in 1..=3 {
        let table: Vec<AtomicU64> = (0..ROWS).map(|_| AtomicU64::new(0)).collect();
        run_epoch(&table, epoch)?;
        let mut clients: Vec<u64> = table.iter().map(|row| row.load(Ordering::Relaxed)).collect();
        let count = clients.iter().position(|client| *client == 0).expect("there are more rows than clients");
        clients.truncate(count);
        clients.sort_unstable();
        assert!(clients.into_iter().eq((100 * epoch..101 * epoch).chain(100 * epoch + 50..102 * epoch + 50)));
        println!("epoch {epoch}: {count} clients in the first rows");
    }
    Ok(())
}
