//! A floor, and the rest of its quota.
use crate::raw::RawLane;
use crate::{Error, Kind, Lane, Quiet, Refused};
use std::fmt;
use std::ops::Range;
use std::sync::{Mutex, MutexGuard, PoisonError};

/// A floor: a counting network on atomic words, on which threads name clients at once.
///
/// Each thread takes a [`Lane`] of it. The floor keeps the rest of the quota, behind a lock: a lane names clients without
/// one. Lanes may come and go: what a lane that was dropped had left of its quota goes to the next one that is taken.
///
/// ```
/// use renamer::{Error, Floor, Kind};
///
/// let floor = Floor::open(Kind::Tree, 64, 1_000)?;
/// let name_250 = |first: u64| {
///     let mut lane = floor.lane(250)?;
///     (first..first + 250).map(|client| lane.name(client, 0)).collect::<Result<Vec<u64>, Error>>()
/// };
/// let mut names = std::thread::scope(|scope| {
///     let threads = [1, 2, 3, 4].map(|first| scope.spawn(move || name_250(1_000 * first)));
///     threads.into_iter().map(|thread| thread.join().unwrap()).collect::<Result<Vec<_>, Error>>()
/// })?
/// .concat();
/// names.sort();
/// assert!(names.into_iter().eq(0..1_000));
/// # Ok::<(), Error>(())
/// ```
pub struct Floor {
    rest: Mutex<Lane>,
}

impl Floor {
    /// Opens a floor over a network, whose width is a power of two from 2 to 256. The quota is how many clients may
    /// come in, over all lanes: at most [`MOST_CLIENTS`](crate::MOST_CLIENTS).
    ///
    /// # Errors
    /// [`Error::Width`], [`Error::Quota`], [`Error::Memory`]: the first that stands.
    ///
    /// # Panics
    /// If the archive that is linked has another version than the crate.
    pub fn open(kind: Kind, width: u32, quota: u64) -> Result<Floor, Error> {
        Ok(Floor::of(RawLane::open(kind as u32, width, quota)?))
    }

    /// Opens a floor as [`Floor::open`] does, whose words lie 128 bytes apart in memory and not 8: so threads that go by two
    /// ends at once do not wait for one cache line. That is for machines of many processors: the words take 16 times the
    /// memory, and one thread gains nothing. The words of a floor that goes on from it lie apart too.
    ///
    /// # Errors
    /// As those of [`Floor::open`].
    ///
    /// # Panics
    /// As [`Floor::open`].
    pub fn open_apart(kind: Kind, width: u32, quota: u64) -> Result<Floor, Error> {
        Ok(Floor::of(RawLane::open_apart(kind as u32, width, quota)?))
    }

    /// Opens a floor that goes on from the counters of a closed one, over the same network. Its names begin at 0 again.
    ///
    /// ```
    /// use renamer::{Floor, Kind};
    ///
    /// let floor = Floor::open(Kind::Tree, 4, 10)?;
    /// let mut lane = floor.into_lane();
    /// assert_eq!(lane.name(17, 0)?, 0);
    /// let quiet = lane.close()?;
    /// assert_eq!(quiet.counts(), [1, 0, 0, 0]);
    ///
    /// // The next client leaves by the next exit, and its name is 0 again.
    /// let next = Floor::open_after(&quiet, 10)?;
    /// let mut lane = next.lane(1)?;
    /// assert_eq!(lane.name(5, 0)?, 0);
    /// assert_eq!(lane.grants()[0].exit, 1);
    /// # Ok::<(), renamer::Error>(())
    /// ```
    ///
    /// # Errors
    /// [`Error::Carried`], [`Error::Quota`], [`Error::Memory`]: the first that stands.
    pub fn open_after(quiet: &Quiet, quota: u64) -> Result<Floor, Error> {
        Ok(Floor::of(quiet.raw.open_after(quota)?))
    }

    fn of(raw: RawLane) -> Floor {
        Floor { rest: Mutex::new(Lane::first(raw)) }
    }

    /// What no lane has. Each call leaves a lane as it was or makes the whole change, so it is good after a panic too.
    fn rest(&self) -> MutexGuard<'_, Lane> {
        self.rest.lock().unwrap_or_else(PoisonError::into_inner)
    }

    /// Gives a lane of the floor, with so much of its quota. Lanes that were dropped or handed back are taken in first, so
    /// what they left of their quota can be given again.
    ///
    /// # Errors
    /// [`Error::QuotaTooSmall`] if the lanes that are alive and the clients that came in leave less, [`Error::Memory`].
    pub fn lane(&self, quota: u64) -> Result<Lane, Error> {
        let mut rest = self.rest();
        rest.join_all()?;
        rest.split(quota)
    }

    /// Shares out all that is left of the quota to so many lanes, and the entries of the network to them: each lane comes with
    /// those that are best for its clients. What threads let in by entries of their own meets late in a bitonic network, as
    /// [`Lane::name`] says. If there are more lanes than entries, some have one entry together.
    ///
    /// ```
    /// use renamer::{Error, Floor, Kind};
    ///
    /// let floor = Floor::open(Kind::Bitonic, 8, 400)?;
    /// std::thread::scope(|scope| {
    ///     for (mut lane, entries) in floor.lanes(4)? {
    ///         scope.spawn(move || (0..100).zip(entries.cycle()).for_each(|(c, entry)| drop(lane.name(c, entry))));
    ///     }
    ///     Ok::<(), Error>(())
    /// })?;
    /// assert_eq!(floor.close()?.len(), 400);
    /// # Ok::<(), Error>(())
    /// ```
    ///
    /// # Errors
    /// [`Error::Memory`]. Then the quota is left as it was.
    pub fn lanes(&self, count: usize) -> Result<Vec<(Lane, Range<u64>)>, Error> {
        let mut rest = self.rest();
        rest.join_all()?;
        let (quota, entries, lanes) = (rest.quota(), rest.entries(), count as u64);
        (0..lanes)
            .map(|lane| {
                let first = lane * entries / lanes;
                let end = ((lane + 1) * entries / lanes).max(first + 1);
                let share = quota / lanes + u64::from(lane < quota % lanes);
                Ok((rest.split(share)?, first..end))
            })
            .collect()
    }

    /// Takes in, one after another, all lanes that were dropped or handed back before the call, and of those that come
    /// back meanwhile some: their quota is the floor's again. It returns whatever other threads do.
    ///
    /// # Errors
    /// [`Error::Memory`]. Then some may be taken in, and it can be called again.
    pub fn join_all(&self) -> Result<(), Error> {
        self.rest().join_all()
    }

    /// How much of the quota no lane has that is alive. Lanes that were dropped or handed back are taken in first, as far as
    /// there is memory.
    #[must_use]
    pub fn quota(&self) -> u64 {
        let mut rest = self.rest();
        // What could not be taken in is counted once it is.
        let _ = rest.join_all();
        rest.quota()
    }

    /// How many clients came in by all lanes, as far as is known here, and never more than did.
    #[must_use]
    pub fn entered(&self) -> u64 {
        self.rest().entered()
    }

    /// How many lanes of the floor are alive, not counting what it keeps itself.
    #[must_use]
    pub fn alive(&self) -> usize {
        self.rest().alive() - 1
    }

    /// Closes the floor, once all lanes of it are handed back or dropped: takes them in, and ends the floor. If one is missing
    /// still, or the system gives no memory, the rest of the floor is given back as a lane.
    ///
    /// ```
    /// use renamer::{Error, Floor, Kind};
    ///
    /// let floor = Floor::open(Kind::Bitonic, 4, 200)?;
    /// let name_100 = |first| floor.lane(100).and_then(|mut lane| (first..first + 100).try_for_each(|c| lane.name(c, 0).map(drop)));
    /// std::thread::scope(|scope| {
    ///     let other = scope.spawn(|| name_100(0));
    ///     name_100(100).and(other.join().unwrap())
    /// })?;
    /// let mut holders = floor.close()?.holders();
    /// holders.sort();
    /// assert!(holders.into_iter().eq(0..200));
    /// # Ok::<(), Error>(())
    /// ```
    ///
    /// # Errors
    /// [`Error::LanesMissing`] or [`Error::LanesThere`] if lanes of it are alive, or were dropped with clients inside;
    /// [`Error::Memory`].
    pub fn close(self) -> Result<Quiet, Refused<Lane>> {
        let mut lane = self.into_lane();
        match lane.join_all() {
            Ok(()) => lane.close(),
            Err(error) => Err(Refused::lane(error, lane)),
        }
    }

    /// What no lane has, as a lane.
    #[must_use]
    pub fn into_lane(self) -> Lane {
        self.rest.into_inner().unwrap_or_else(PoisonError::into_inner)
    }
}

impl fmt::Debug for Floor {
    fn fmt(&self, out: &mut fmt::Formatter<'_>) -> fmt::Result {
        let rest = self.rest();
        out.debug_struct("Floor").field("quota", &rest.quota()).field("alive", &(rest.alive() - 1)).finish()
    }
}
