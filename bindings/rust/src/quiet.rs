//! A floor that is closed.
use crate::raw::RawQuiet;
use std::fmt;

/// A closed floor: all that came in are out, and of k clients the names are 0 to k-1.
pub struct Quiet {
    pub(crate) raw: RawQuiet,
}

impl Quiet {
    /// How many clients left by each exit.
    #[must_use]
    pub fn counts(&self) -> Vec<u64> {
        self.raw.counts()
    }

    /// Who has which name: the client with name 0, with name 1, and so on.
    #[must_use]
    pub fn holders(&self) -> Vec<u64> {
        self.raw.holders()
    }

    /// How many clients the floor named.
    #[must_use]
    pub fn len(&self) -> usize {
        self.raw.clients()
    }

    /// Whether it named nobody.
    #[must_use]
    pub fn is_empty(&self) -> bool {
        self.len() == 0
    }

    /// Each name with the client that has it, by rising name.
    ///
    /// ```
    /// use renamer::{Floor, Kind};
    ///
    /// let mut lane = Floor::open(Kind::Tree, 2, 2)?.into_lane();
    /// lane.name(17, 0)?;
    /// lane.name(5, 0)?;
    /// assert!(lane.close()?.iter().eq([(0, 17), (1, 5)]));
    /// # Ok::<(), renamer::Error>(())
    /// ```
    #[must_use]
    pub fn iter(&self) -> impl DoubleEndedIterator<Item = (usize, u64)> + ExactSizeIterator {
        self.holders().into_iter().enumerate()
    }
}

impl fmt::Debug for Quiet {
    fn fmt(&self, out: &mut fmt::Formatter<'_>) -> fmt::Result {
        out.debug_struct("Quiet").field("counts", &self.counts()).field("clients", &self.len()).finish()
    }
}
