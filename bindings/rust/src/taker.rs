//! A taker: a thread's own part of a floor whose names are only taken.
use crate::raw::RawTaker;
use crate::{Error, Kind, Slot, Slots};
use std::fmt;
use std::sync::{Arc, Mutex};

/// A thread's own part of a floor whose names are only taken. Such a floor knows no clients and keeps no list: nobody can
/// ask who has which name, and it has no end, since it has 2^62 names.
///
/// A taker can be sent to another thread. The floor lives as long as a taker of it. Names are never given back, and what a
/// taker that is dropped has not taken is nobody's then: so keep it, and let the next thread go on with it.
///
/// ```
/// use renamer::{Error, Kind, Taker};
///
/// let mut first = Taker::open(Kind::Tree, 64)?;
/// let other = first.split()?;
/// let take_100 = |mut taker: Taker| (0..100).map(|_| taker.take(0)).collect::<Result<Vec<u64>, Error>>();
/// let mut names = std::thread::scope(|scope| {
///     let thread = scope.spawn(move || take_100(other));
///     Ok::<_, Error>([take_100(first)?, thread.join().expect("a thread ends")?])
/// })?
/// .concat();
/// names.sort();
/// assert!(names.into_iter().eq(0..200));
/// # Ok::<(), Error>(())
/// ```
pub struct Taker {
    raw: RawTaker,
}

impl Taker {
    /// Opens a floor over a network, whose width is a power of two from 2 to 256, and gives its first taker.
    ///
    /// # Errors
    /// [`Error::Width`], [`Error::Memory`]: the first that stands.
    ///
    /// # Panics
    /// If the archive that is linked has another version than the crate.
    pub fn open(kind: Kind, width: u32) -> Result<Taker, Error> {
        RawTaker::open(kind as u32, width, false).map(|raw| Taker { raw })
    }

    /// Opens a floor as [`Taker::open`] does, whose words lie 128 bytes apart in memory and not 8, as those of
    /// [`Floor::open_apart`](crate::Floor::open_apart).
    ///
    /// # Errors
    /// As those of [`Taker::open`].
    ///
    /// # Panics
    /// As [`Taker::open`].
    pub fn open_apart(kind: Kind, width: u32) -> Result<Taker, Error> {
        RawTaker::open(kind as u32, width, true).map(|raw| Taker { raw })
    }

    /// Splits off another taker of the same floor. As long as more than three quarters of the floor's names are left to
    /// this one, the other gets 2^40 (1,099,511,627,776), and else 2^20 (1,048,576), or half of what is left if that is
    /// less. So the first taker of a floor can be split a million times with 2^40 names each, and then a thousand times
    /// a second for a hundred years. A taker that was split off itself gives 2^20.
    ///
    /// # Errors
    /// [`Error::QuotaTooSmall`] if no two names are left, [`Error::Memory`]: the first that stands.
    pub fn split(&mut self) -> Result<Taker, Error> {
        self.raw.split().map(|raw| Taker { raw })
    }

    /// Takes a name, by an entry below the width; a tree has only entry 0. No two takes by takers of one floor get the
    /// same name, and each name is below the number of takes that have begun. A take that comes later may get a lower
    /// name, and a thread that is stopped within a take keeps one name from all others.
    ///
    /// It takes no memory, and waits for nobody.
    ///
    /// # Errors
    /// [`Error::NoSuchEntry`], [`Error::QuotaSpent`]: the first that stands.
    #[inline]
    pub fn take(&mut self, entry: u64) -> Result<u64, Error> {
        self.raw.take(entry)
    }

    /// Takes a name for each place of a slice, by one entry, and writes them there in no order that is said. All come in
    /// by one atomic add, and go on by one more at each balancer as long as they stay together: so a name costs the fewer
    /// adds the longer the slice is.
    ///
    /// ```
    /// use renamer::{Kind, Taker};
    ///
    /// let mut names = [0; 64];
    /// Taker::open(Kind::Bitonic, 8)?.take_many(3, &mut names)?;
    /// names.sort();
    /// assert!(names.into_iter().eq(0..64));
    /// # Ok::<(), renamer::Error>(())
    /// ```
    ///
    /// # Errors
    /// As those of [`Taker::take`].
    pub fn take_many(&mut self, entry: u64, names: &mut [u64]) -> Result<(), Error> {
        self.raw.take_many(entry, names)
    }

    /// How many takes were begun by all takers of the floor, as far as this one can know: more than each name that it
    /// took, and never more than were begun.
    #[must_use]
    pub fn entered(&self) -> u64 {
        self.raw.entered()
    }
}

/// Takers of one floor for whichever thread asks, without a lock.
///
/// ```
/// use renamer::{Error, Kind, OwnTaker, Takers};
/// use std::cell::RefCell;
///
/// thread_local!(static OWN: RefCell<Option<OwnTaker>> = const { RefCell::new(None) });
///
/// let takers = Takers::open(Kind::Tree, 2, 4)?;
/// let take = || OWN.with_borrow_mut(|own| takers.for_this_thread(own)?.take(0));
/// std::thread::scope(|scope| scope.spawn(|| (0..30).try_for_each(|_| take().map(drop))).join().unwrap())?;
/// assert_eq!(take(), Ok(30));
/// # Ok::<(), Error>(())
/// ```
pub struct Takers {
    slots: Slots,
    places: Arc<[TakerPlace]>,
}

/// Where a taker waits for who has the slot of the same number. No other locks it, so nobody waits for that.
type TakerPlace = Mutex<Option<Taker>>;

/// A taker that a thread has of [`Takers`], which another thread can have once this is dropped.
pub struct OwnTaker {
    taker: Option<Taker>,
    places: Arc<[TakerPlace]>,
    // It is dropped last.
    slot: Slot,
}

impl Takers {
    /// Opens a floor with so many takers, at most [`MOST_CLIENTS`](crate::MOST_CLIENTS): as many as threads may run at
    /// once.
    ///
    /// # Errors
    /// [`Error::Quota`], [`Error::Width`], [`Error::Memory`]: the first that stands.
    ///
    /// # Panics
    /// If the archive that is linked has another version than the crate.
    pub fn open(kind: Kind, width: u32, count: u64) -> Result<Takers, Error> {
        let slots = Slots::open(count)?;
        let mut first = Taker::open(kind, width)?;
        let places = (0..count).map(|_| first.split().map(|taker| Mutex::new(Some(taker))));
        Ok(Takers { slots, places: places.collect::<Result<_, Error>>()? })
    }

    /// Gives `own` a taker, and returns it: the one that `own` has, or else one that is free. Keep `own` in a
    /// `thread_local!`, and the taker is free again as its thread ends.
    ///
    /// # Errors
    /// [`Error::NothingBack`] if at one moment of the call none was free.
    pub fn for_this_thread<'own>(&self, own: &'own mut Option<OwnTaker>) -> Result<&'own mut Taker, Error> {
        let own = match own {
            Some(own) => own,
            None => own.insert(self.take()?),
        };
        Ok(own.taker.as_mut().expect("it goes only as its owner is dropped"))
    }

    /// A taker that is free.
    fn take(&self) -> Result<OwnTaker, Error> {
        let slot = self.slots.take()?;
        let taker = self.places[slot.number()].try_lock().expect("a slot has one owner").take();
        Ok(OwnTaker { taker, places: Arc::clone(&self.places), slot })
    }
}

impl Drop for OwnTaker {
    fn drop(&mut self) {
        if let Ok(mut place) = self.places[self.slot.number()].try_lock() {
            *place = self.taker.take();
        }
    }
}

impl fmt::Debug for Takers {
    fn fmt(&self, out: &mut fmt::Formatter<'_>) -> fmt::Result {
        out.debug_struct("Takers").finish_non_exhaustive()
    }
}

impl fmt::Debug for OwnTaker {
    fn fmt(&self, out: &mut fmt::Formatter<'_>) -> fmt::Result {
        out.debug_struct("OwnTaker").field("slot", &self.slot).finish_non_exhaustive()
    }
}

impl fmt::Debug for Taker {
    fn fmt(&self, out: &mut fmt::Formatter<'_>) -> fmt::Result {
        out.debug_struct("Taker").field("entered", &self.entered()).finish()
    }
}
