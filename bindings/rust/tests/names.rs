//! Four threads name clients on each network of each width: the names are 0 to k-1, each once, and each exit has its
//! share. So it is on a floor that goes on from another, and on floors whose words lie apart.
use renamer::{Error, Floor, Grant, Kind, Lane, Quiet};
use std::thread;

const THREADS: u64 = 4;
const EACH: u64 = 500;
const ALL: u64 = THREADS * EACH;

/// Names the clients of one thread.
fn name_all(lane: &mut Lane, first: u64) -> Vec<Grant> {
    let entries = lane.entries();
    for client in first..first + EACH {
        let name = lane.name(client, client * 7 % entries).unwrap();
        assert!(name < lane.entered());
    }
    lane.grants()
}

fn share(clients: u64, width: u64, exit: u64) -> u64 {
    (clients + width - 1 - exit) / width
}

/// Runs an epoch by threads, and judges it; so many clients came before.
fn judge(floor: &Floor, width: u64, before: u64) {
    let run = |thread| name_all(&mut floor.lane(EACH).unwrap(), thread * EACH);
    let mut grants: Vec<Grant> = thread::scope(|scope| {
        let threads: Vec<_> = (0..THREADS).map(|thread| scope.spawn(move || run(thread))).collect();
        threads.into_iter().flat_map(|thread| thread.join().unwrap()).collect()
    });
    for exit in 0..width {
        let count = grants.iter().filter(|grant| grant.exit == exit).count() as u64;
        assert_eq!(count, share(before + ALL, width, exit) - share(before, width, exit));
    }
    grants.sort_by_key(|grant| grant.name);
    assert!(grants.iter().map(|grant| grant.name).eq(0..ALL));
    grants.sort_by_key(|grant| grant.client);
    assert!(grants.iter().map(|grant| grant.client).eq(0..ALL));
}

/// A call that opens a floor.
type Open = fn(Kind, u32, u64) -> Result<Floor, Error>;

/// A floor on which one lane named three clients, closed.
fn closed(open: Open, kind: Kind, width: u32) -> Quiet {
    let mut lane = open(kind, width, 3).unwrap().into_lane();
    for client in [17, 5, 99] {
        lane.name(client, 0).unwrap();
    }
    let quiet = lane.close().unwrap();
    assert_eq!(quiet.holders(), [17, 5, 99]);
    assert!(quiet.counts().into_iter().eq((0..width.into()).map(|exit| share(3, width.into(), exit))));
    quiet
}

#[test]
fn names_are_tight_on_each_network() {
    for kind in [Kind::Bitonic, Kind::Periodic, Kind::Tree] {
        for level in 1..=8 {
            let width = 1 << level;
            for open in [Floor::open as Open, Floor::open_apart] {
                judge(&open(kind, width, ALL).unwrap(), width.into(), 0);
                judge(&Floor::open_after(&closed(open, kind, width), ALL).unwrap(), width.into(), 3);
            }
        }
    }
}
