//! Slots that come back.
use crate::raw::RawLane;
use crate::{Error, Grant, Kind};
use std::fmt;

/// Slots with the numbers 0 to n-1, each of which has one owner at most. Any thread takes one, without a lock and
/// without memory, and it is free again once it is dropped.
///
/// ```
/// use renamer::{Error, Slots};
///
/// let slots = Slots::open(2)?;
/// let (first, second) = (slots.take()?, slots.take()?);
/// assert_eq!(slots.take().err(), Some(Error::NothingBack));
/// drop(first);
/// assert_eq!(slots.take()?.number() + second.number(), 1);
/// # Ok::<(), Error>(())
/// ```
pub struct Slots {
    first: RawLane,
}

/// A slot that is taken. It may go to another thread, and outlive its pool. Who forgets a slot loses it, and nobody
/// else is harmed.
pub struct Slot {
    /// A lane with one grant, whose name is the number of the slot.
    lane: RawLane,
}

impl Slots {
    /// Makes so many slots, at most [`MOST_CLIENTS`](crate::MOST_CLIENTS), which are free.
    ///
    /// # Errors
    /// [`Error::Quota`], [`Error::Memory`]: the first that stands.
    ///
    /// # Panics
    /// If the archive that is linked has another version than the crate.
    pub fn open(count: u64) -> Result<Slots, Error> {
        let mut first = RawLane::open(Kind::Tree as u32, 2, count)?;
        for slot in 0..count {
            first.split(1)?.name(slot, 0)?;
        }
        Ok(Slots { first })
    }

    /// Takes a slot, whichever is free. It does not wait.
    ///
    /// # Errors
    /// [`Error::NothingBack`] if at one moment of the call none was free.
    pub fn take(&self) -> Result<Slot, Error> {
        Ok(Slot { lane: self.first.take_back()? })
    }
}

impl Slot {
    /// Its number, which is below that of the slots.
    #[must_use]
    pub fn number(&self) -> usize {
        let mut grant = [Grant::default()];
        self.lane.grants(0, &mut grant).expect("a slot has a grant");
        grant[0].index()
    }
}

impl fmt::Debug for Slots {
    fn fmt(&self, out: &mut fmt::Formatter<'_>) -> fmt::Result {
        out.debug_struct("Slots").finish_non_exhaustive()
    }
}

impl fmt::Debug for Slot {
    fn fmt(&self, out: &mut fmt::Formatter<'_>) -> fmt::Result {
        out.debug_struct("Slot").field("number", &self.number()).finish()
    }
}
