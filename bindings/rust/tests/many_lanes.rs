//! Lanes that come and go, as those of a thread pool: any number of them, alive at once or one after another.
use renamer::{Error, Floor, Kind, Lane, Slot, Slots, MOST_CLIENTS};
use std::cell::RefCell;
use std::sync::{Barrier, Mutex};
use std::thread;

const NETWORKS: [Kind; 3] = Kind::ALL;

/// A thousand threads are alive at once, each with a lane, and name a client each.
fn a_thousand_threads(kind: Kind) {
    const THREADS: usize = 1_000;
    let clients = 0..THREADS as u64;
    let floor = Floor::open(kind, 8, clients.end).unwrap();
    let all_are_there = Barrier::new(THREADS);
    thread::scope(|scope| {
        for client in clients.clone() {
            let (floor, all_are_there) = (&floor, &all_are_there);
            let by_lane = move || {
                let mut lane = floor.lane(1).unwrap();
                all_are_there.wait();
                lane.name(client, client % lane.entries()).unwrap();
            };
            thread::Builder::new().stack_size(0x1_0000).spawn_scoped(scope, by_lane).unwrap();
        }
    });
    let mut holders = floor.close().unwrap().holders();
    holders.sort_unstable();
    assert!(holders.into_iter().eq(clients));
}

#[test]
fn a_thousand_lanes_at_once() {
    for kind in NETWORKS {
        a_thousand_threads(kind);
    }
}

#[test]
fn lanes_one_after_another_find_the_quota_that_is_left() {
    for kind in NETWORKS {
        let floor = Floor::open(kind, 2, 2_000).unwrap();
        for client in 0..2_000 {
            // Each lane takes all that is left, uses one, and hands the rest back.
            let mut lane = floor.lane(2_000 - client).unwrap();
            assert_eq!(lane.name(client, 0), Ok(client));
        }
        assert_eq!((floor.quota(), floor.lane(1).err()), (0, Some(Error::QuotaTooSmall)));
        assert!(floor.close().unwrap().iter().all(|(name, client)| name as u64 == client));
    }
}

#[test]
fn lanes_that_were_never_taken_again() {
    let mut lane = Floor::open(Kind::Tree, 2, 100_000).unwrap().into_lane();
    for client in 0..100_000 {
        lane.split(1).unwrap().name(client, 0).unwrap();
    }
    lane.join_all().unwrap();
    assert_eq!(lane.alive(), 1);
    assert_eq!(lane.close().unwrap().len(), 100_000);
}

#[test]
fn quota_and_entries_are_shared_out() {
    let floor = Floor::open(Kind::Bitonic, 8, 10).unwrap();
    let lanes = floor.lanes(3).unwrap();
    assert!(lanes.iter().map(|(lane, _)| lane.quota()).eq([4, 3, 3]));
    assert!(lanes.iter().map(|(_, entries)| entries.clone()).eq([0..2, 2..5, 5..8]));
    assert_eq!(floor.quota(), 0);
    drop(lanes);
    assert_eq!(floor.quota(), 10);
    let by_one_entry = Floor::open(Kind::Tree, 8, 3).unwrap();
    assert!(by_one_entry.lanes(2).unwrap().iter().all(|(_, entries)| *entries == (0..1)));
    assert!(by_one_entry.lanes(0).unwrap().is_empty());
}

#[test]
fn a_lane_says_what_it_has() {
    let floor = Floor::open(Kind::Tree, 2, 3).unwrap();
    let mut lane = floor.lane(2).unwrap();
    lane.enter(17, 0).unwrap();
    assert_eq!(format!("{lane:?}"), "Lane { quota: 1, inside: 1, grants: 0, .. }");
    assert_eq!(format!("{floor:?}"), "Floor { quota: 1, alive: 1 }");
}

#[test]
fn a_slot_has_one_owner_and_comes_back() {
    const SLOTS: usize = 4;
    let slots = Slots::open(SLOTS as u64).unwrap();
    let owners: Vec<_> = (0..SLOTS).map(|_| Mutex::new(())).collect();
    thread::scope(|scope| {
        for _ in 0..SLOTS {
            scope.spawn(|| {
                for _ in 0..1_000 {
                    let slot = slots.take().unwrap();
                    drop(owners[slot.number()].try_lock().unwrap());
                }
            });
        }
    });
    let mut taken: Vec<_> = (0..SLOTS).map(|_| slots.take().unwrap()).collect();
    assert_eq!(slots.take().err(), Some(Error::NothingBack));
    let forgotten = taken.pop();
    drop(taken);
    let rest: Vec<_> = (1..SLOTS).map(|_| slots.take().unwrap()).collect();
    assert_eq!(slots.take().err(), Some(Error::NothingBack));
    drop(slots);
    let mut numbers: Vec<_> = rest.iter().map(Slot::number).collect();
    numbers.extend(forgotten.iter().map(Slot::number));
    numbers.sort_unstable();
    assert!(numbers.into_iter().eq(0..SLOTS));
    assert_eq!(Slots::open(MOST_CLIENTS + 1).err(), Some(Error::Quota));
}

thread_local!(static OWN: RefCell<Option<Lane>> = const { RefCell::new(None) });

#[test]
fn threads_get_lanes_by_one_that_they_share() {
    let mut first = Floor::open(Kind::Tree, 4, 100).unwrap().into_lane();
    for _ in 0..4 {
        first.split(25).unwrap();
    }
    let name = |client| OWN.with_borrow_mut(|own| first.for_this_thread(own)?.name(client, 0));
    // Threads that come and go name all clients, though no lane has quota for as many as a thread names.
    for begin in (0..100).step_by(50) {
        thread::scope(|scope| {
            let by_thread = move |from| (from..from + 25).map(name).collect::<Result<Vec<_>, _>>();
            let other = scope.spawn(move || by_thread(begin + 25));
            assert_eq!((by_thread(begin).is_ok(), other.join().unwrap().is_ok()), (true, true));
        });
    }
    assert_eq!(name(100), Err(Error::NothingBack));
    OWN.take();
    first.join_all().unwrap();
    assert_eq!(first.close().unwrap().len(), 100);
}
