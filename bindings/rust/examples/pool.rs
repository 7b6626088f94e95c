//! Slots that threads fill by name, each once, without a lock. Four threads serve jobs, each as many as it happens to
//! get. A job's name is its slot in one `Vec`: no two jobs have the same slot, and the slots that are filled are the
//! first ones.
use renamer::{Error, Floor, Kind};
use std::sync::OnceLock;
use std::thread;

const THREADS: u64 = 4;
const MOST_EACH: u64 = 1_000;

/// What the slots hold: the job, and the thread that served it.
type Slot = OnceLock<(u64, u64)>;

/// Serves the jobs of one thread, by a lane of the floor.
fn serve(floor: &Floor, slots: &[Slot], thread: u64) -> Result<usize, Error> {
    let mut lane = floor.lane(MOST_EACH)?;
    for job in 0..100 + 37 * thread {
        slots[lane.index(job, 0)?].set((job, thread)).expect("no two jobs have one name");
    }
    Ok(lane.grants().len())
}

fn main() -> Result<(), Error> {
    let floor = Floor::open(Kind::Tree, 8, THREADS * MOST_EACH)?;
    let slots: Vec<Slot> = (0..THREADS * MOST_EACH).map(|_| OnceLock::new()).collect();
    let serve_by = |thread| serve(&floor, &slots, thread);
    let count: usize = thread::scope(|scope| {
        let threads: Vec<_> = (0..THREADS).map(|thread| scope.spawn(move || serve_by(thread))).collect();
        threads.into_iter().map(|thread| thread.join().expect("a thread ends")).sum::<Result<_, _>>()
    })?;
    assert!(slots[..count].iter().all(|slot| slot.get().is_some()));
    assert!(slots[count..].iter().all(|slot| slot.get().is_none()));
    println!("{count} jobs are in the slots 0 to {}", count - 1);
    Ok(())
}
