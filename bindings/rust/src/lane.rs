//! A lane: a thread's own part of a floor.
use crate::raw::RawLane;
use crate::{Error, Moved, Quiet, Refused, Swept};
use std::fmt;
use std::sync::Arc;

/// A client that is to come in.
#[derive(Clone, Copy, Debug, Default, PartialEq, Eq, Hash)]
#[repr(C)]
pub struct Client {
    /// The client's identity.
    pub client: u64,
    /// The entry by which it comes.
    pub entry: u64,
}

/// A client that got its name.
#[derive(Clone, Copy, Debug, Default, PartialEq, Eq, Hash)]
#[repr(C)]
pub struct Grant {
    /// The client's identity.
    pub client: u64,
    /// The exit by which it left.
    pub exit: u64,
    /// How many had left by this exit before.
    pub visit: u64,
    /// Its name.
    pub name: u64,
}

impl Grant {
    /// Its name as an index.
    #[must_use]
    pub fn index(&self) -> usize {
        index(self.name)
    }
}

/// A name, which is below the quota of a floor, as an index.
fn index(name: u64) -> usize {
    usize::try_from(name).expect("a name is below 262,144")
}

/// A thread's own part of a [`Floor`](crate::Floor): it lets clients in and gives them their names.
///
/// A lane can be sent to another thread. The floor lives as long as a lane of it. A lane that is dropped is handed back
/// to its floor, and another lane can take it in by [`Lane::join`]. If that cannot be done, as with clients inside, its quota and
/// its names are lost with it, and then the floor cannot be closed any more; the names of other lanes stay as good as
/// they were.
///
/// Threads may share a lane to ask it, as for its [quota](Lane::quota); who names clients by it has it by `&mut`.
pub struct Lane {
    raw: RawLane,
    /// One of as many as lanes of the floor are alive.
    count: Arc<()>,
}

impl Lane {
    /// The first lane of a floor.
    pub(crate) fn first(raw: RawLane) -> Lane {
        Lane { raw, count: Arc::new(()) }
    }

    /// Names a client: lets it in by an entry and walks it out.
    ///
    /// It takes memory only if the lane has no room, and then only for its grant. Identities are not compared: a client that
    /// is named twice gets two names.
    ///
    /// Any entry below [`Lane::entries`] will do. If threads name clients at once on a bitonic network of width w, it is
    /// best that each lets its clients in by entries of its own, one after another: thread t of n, which is at most w, by
    /// those of `t * w / n..(t + 1) * w / n`. That network is two of half the width, on the lower and the upper half of the
    /// entries, and a merger. So threads with halves or quarters of the entries meet only in mergers.
    ///
    /// ```
    /// use renamer::{Error, Floor, Kind};
    ///
    /// let mut lane = Floor::open(Kind::Tree, 2, 1)?.lane(1)?;
    /// assert_eq!(lane.name(17, 0), Ok(0));
    /// assert_eq!(lane.name(5, 0), Err(Error::QuotaSpent));
    /// # Ok::<(), Error>(())
    /// ```
    ///
    /// # Errors
    /// [`Error::StillWalking`], [`Error::NoSuchEntry`], [`Error::QuotaSpent`], [`Error::Memory`]: the first that stands.
    #[inline]
    pub fn name(&mut self, client: u64, entry: u64) -> Result<u64, Error> {
        self.raw.name(client, entry)
    }

    /// Names a client as [`Lane::name`] does, and returns its name as an index into a slice.
    ///
    /// ```
    /// use renamer::{Floor, Kind};
    ///
    /// let mut slots = [None; 2];
    /// let mut lane = Floor::open(Kind::Tree, 2, 2)?.into_lane();
    /// slots[lane.index(17, 0)?] = Some(17);
    /// assert_eq!(slots, [Some(17), None]);
    /// # Ok::<(), renamer::Error>(())
    /// ```
    ///
    /// # Errors
    /// As those of [`Lane::name`].
    #[inline]
    pub fn index(&mut self, client: u64, entry: u64) -> Result<usize, Error> {
        self.name(client, entry).map(index)
    }

    /// Names clients by one call. Those who follow one another in the list by one entry, up to 64 of them, come in by one
    /// atomic add, and go on by one more at each balancer as long as they stay together: it sends half of them either way,
    /// and those who part walk on their own. One who has none of its entry beside it walks as by [`Lane::name`]. So
    /// clients by one entry cost fewer adds, and a list by entries in turn as many as single calls.
    ///
    /// Their grants come in the order in which they left, which has not to be that of the clients.
    ///
    /// ```
    /// use renamer::{Client, Floor, Kind};
    ///
    /// let mut lane = Floor::open(Kind::Bitonic, 4, 4)?.into_lane();
    /// let clients = [17, 5, 99, 40].map(|client| Client { client, entry: client % 4 });
    /// let mut grants = lane.name_many(&clients)?;
    /// grants.sort_by_key(|grant| grant.name);
    /// assert!(grants.iter().map(|grant| grant.name).eq(0..4));
    /// assert!(clients.iter().all(|one| grants.iter().any(|grant| grant.client == one.client)));
    /// # Ok::<(), renamer::Error>(())
    /// ```
    ///
    /// # Errors
    /// As those of [`Lane::name`].
    pub fn name_many(&mut self, clients: &[Client]) -> Result<Vec<Grant>, Error> {
        let mut grants = vec![Grant::default(); clients.len()];
        self.name_many_into(clients, &mut grants)?;
        Ok(grants)
    }

    /// Names clients as [`Lane::name_many`] does, and writes their grants into a slice of as many.
    ///
    /// # Errors
    /// [`Error::Size`] if there are not as many grants as clients, else as those of [`Lane::name`].
    pub fn name_many_into(&mut self, clients: &[Client], grants: &mut [Grant]) -> Result<(), Error> {
        self.raw.name_many(clients, grants)
    }

    /// Names clients who all come in by one entry, and returns their names in their order. They walk as by
    /// [`Lane::name_many`], 64 of them together.
    ///
    /// ```
    /// use renamer::{Floor, Kind};
    ///
    /// let mut lane = Floor::open(Kind::Tree, 4, 4)?.into_lane();
    /// let names = lane.name_list(&[17, 5, 99, 40], 0)?;
    /// assert!(lane.grants().iter().any(|grant| grant.client == 99 && grant.name == names[2]));
    /// # Ok::<(), renamer::Error>(())
    /// ```
    ///
    /// # Errors
    /// As those of [`Lane::name`].
    pub fn name_list(&mut self, clients: &[u64], entry: u64) -> Result<Vec<u64>, Error> {
        let mut names = vec![0; clients.len()];
        self.name_list_into(clients, entry, &mut names)?;
        Ok(names)
    }

    /// Names clients as [`Lane::name_list`] does, and writes their names into a slice of as many.
    ///
    /// # Errors
    /// [`Error::Size`] if there are not as many names as clients, else as those of [`Lane::name`].
    pub fn name_list_into(&mut self, clients: &[u64], entry: u64, names: &mut [u64]) -> Result<(), Error> {
        self.raw.name_list(clients, entry, names)
    }

    /// Splits off another lane of the same floor, with so much of the quota.
    ///
    /// # Errors
    /// [`Error::QuotaTooSmall`], [`Error::Memory`]: the first that stands.
    pub fn split(&mut self, quota: u64) -> Result<Lane, Error> {
        Ok(Lane { raw: self.raw.split(quota)?, count: Arc::clone(&self.count) })
    }

    /// How many lanes of the floor are alive, with this one: not those that were dropped or handed back.
    #[must_use]
    pub fn alive(&self) -> usize {
        Arc::strong_count(&self.count)
    }

    /// Hands the lane back to its floor, as a drop does, and says if it cannot be done: then the lane is given back.
    ///
    /// ```
    /// use renamer::{Error, Floor, Kind};
    ///
    /// let mut lane = Floor::open(Kind::Tree, 2, 2)?.into_lane();
    /// let mut other = lane.split(1)?;
    /// other.enter(17, 0)?;
    /// let refused = other.hand_back().unwrap_err();
    /// assert_eq!(refused.error, Error::StillWalking);
    /// # Ok::<(), Error>(())
    /// ```
    ///
    /// # Errors
    /// [`Error::StillWalking`].
    pub fn hand_back(mut self) -> Result<(), Refused<Lane>> {
        match self.raw.hand_back() {
            Ok(()) => Ok(()),
            Err(error) => Err(Refused::lane(error, self)),
        }
    }

    /// Takes in one lane of the same floor that was handed back: its quota is added, and its grants come after this
    /// lane's own. Which of several, is not said.
    ///
    /// ```
    /// use renamer::{Error, Floor, Kind};
    ///
    /// let mut lane = Floor::open(Kind::Tree, 2, 2)?.into_lane();
    /// let mut other = lane.split(2)?;
    /// other.name(17, 0)?;
    /// assert_eq!(lane.join(), Err(Error::NothingBack));
    /// drop(other);
    /// lane.join()?;
    /// assert_eq!(lane.quota(), 1);
    /// assert_eq!(lane.close()?.holders(), [17]);
    /// # Ok::<(), Error>(())
    /// ```
    ///
    /// # Errors
    /// [`Error::NothingBack`], [`Error::Memory`]. Then nothing has changed.
    pub fn join(&mut self) -> Result<(), Error> {
        self.raw.join()
    }

    /// Takes a lane of the same floor that was handed back, whole: with its quota, its grants and its room. Which of
    /// several, is not said; it has quota or grants. This lane is only asked, so threads may share it.
    ///
    /// So a lane with one grant that is handed back is a free slot: who takes it back has the slot, and a drop frees it.
    ///
    /// ```
    /// use renamer::{Error, Floor, Kind};
    ///
    /// let mut lane = Floor::open(Kind::Tree, 2, 1)?.into_lane();
    /// lane.split(1)?.name(0, 0)?;
    /// let slot = lane.take_back()?;
    /// assert_eq!(slot.grants()[0].index(), 0);
    /// assert_eq!(lane.take_back().err(), Some(Error::NothingBack));
    /// drop(slot);
    /// assert!(lane.take_back().is_ok());
    /// # Ok::<(), Error>(())
    /// ```
    ///
    /// # Errors
    /// [`Error::NothingBack`].
    pub fn take_back(&self) -> Result<Lane, Error> {
        Ok(Lane { raw: self.raw.take_back()?, count: Arc::clone(&self.count) })
    }

    /// Gives `own` a lane of this floor with quota left, and returns it: the one that `own` has, or else one that was
    /// handed back. It takes in others as long as its quota is spent. There is no lock, since this lane is only asked.
    ///
    /// So split off as many lanes as threads may run at once, and drop them before the threads begin. Keep `own` in a
    /// `thread_local!`, and the lane is handed back as its thread ends.
    ///
    /// ```
    /// use renamer::{Error, Floor, Kind, Lane};
    /// use std::cell::RefCell;
    ///
    /// thread_local!(static OWN: RefCell<Option<Lane>> = const { RefCell::new(None) });
    ///
    /// let mut first = Floor::open(Kind::Tree, 2, 100)?.into_lane();
    /// (0..4).try_for_each(|_| first.split(25).map(drop))?;
    /// let name = |client| OWN.with_borrow_mut(|own| first.for_this_thread(own)?.name(client, 0));
    /// std::thread::scope(|scope| scope.spawn(|| (0..30).try_for_each(|client| name(client).map(drop))).join().unwrap())?;
    /// assert_eq!(name(30), Ok(30));
    /// # Ok::<(), Error>(())
    /// ```
    ///
    /// # Errors
    /// [`Error::NothingBack`] if no lane with quota was back, [`Error::Memory`] if there is none for the grants of one.
    pub fn for_this_thread<'own>(&self, own: &'own mut Option<Lane>) -> Result<&'own mut Lane, Error> {
        let lane = match own {
            Some(lane) => lane,
            None => own.insert(self.take_back()?),
        };
        while lane.quota() == 0 {
            lane.join()?;
        }
        Ok(lane)
    }

    /// Takes in, one after another, all lanes of the floor that were back when it was called, and of those that come
    /// back meanwhile some. It returns whatever other threads do.
    ///
    /// # Errors
    /// [`Error::Memory`]. Then some may be taken in, and it can be called again.
    pub fn join_all(&mut self) -> Result<(), Error> {
        self.raw.join_all()
    }

    /// Closes the floor. The lane must have all of it, and no other may be there: if other lanes have some of the quota or
    /// names, also those that were handed back and not joined, or are there still with nothing, the lane is given back.
    ///
    /// ```
    /// use renamer::{Error, Floor, Kind};
    ///
    /// let mut lane = Floor::open(Kind::Tree, 2, 2)?.into_lane();
    /// lane.name(17, 0)?;
    /// let other = lane.split(0)?;
    /// let refused = lane.close().unwrap_err();
    /// assert_eq!((refused.error, refused.others), (Error::LanesThere, Some(1)));
    ///
    /// drop(other);
    /// assert_eq!(refused.value.close()?.holders(), [17]);
    /// # Ok::<(), Error>(())
    /// ```
    ///
    /// # Errors
    /// [`Error::StillWalking`], [`Error::LanesMissing`], [`Error::Memory`], [`Error::LanesThere`]: the first that stands.
    pub fn close(mut self) -> Result<Quiet, Refused<Lane>> {
        match self.raw.close() {
            Ok(raw) => Ok(Quiet { raw }),
            Err(error) => Err(Refused::lane(error, self)),
        }
    }

    /// Makes room for so many clients more, at most 1,048,576: they come in and get their names without further memory.
    ///
    /// It is for a lane that must not be refused for memory later, and for one that lets clients in by [`Lane::enter`]. A
    /// lane that names clients only by [`Lane::name`] needs no room: it names them faster without.
    ///
    /// # Errors
    /// [`Error::Memory`], also if it is more than that.
    pub fn reserve(&mut self, clients: u64) -> Result<(), Error> {
        self.raw.reserve(clients)
    }

    /// Lets a client in by an entry: it stands last on the wire with the entry's number. Then it goes on by [`Lane::step`] and
    /// [`Lane::sweep`].
    ///
    /// Wires have numbers: wire i begins at entry i, and each other one at a balancer, with a greater number than the wires
    /// that end there. So sweeping the lowest wire again and again lets all out.
    ///
    /// ```
    /// use renamer::{Error, Floor, Kind, Moved};
    ///
    /// let mut lane = Floor::open(Kind::Tree, 2, 3)?.into_lane();
    /// for client in [17, 5, 99] {
    ///     lane.enter(client, 0)?;
    /// }
    /// assert!(matches!(lane.step(0)?, Moved::On { client: 17, number: 0, .. }));
    /// while let Ok(wire) = lane.lowest() {
    ///     lane.sweep(wire)?;
    /// }
    /// assert_eq!(lane.step(0), Err(Error::NobodyThere));
    /// assert_eq!(lane.close()?.holders(), [17, 5, 99]);
    /// # Ok::<(), Error>(())
    /// ```
    ///
    /// # Errors
    /// [`Error::NoSuchEntry`], [`Error::QuotaSpent`], [`Error::Memory`]: the first that stands.
    pub fn enter(&mut self, client: u64, entry: u64) -> Result<(), Error> {
        self.raw.enter(client, entry)
    }

    /// Lets the lane's first client on a wire go by the wire's end, through a balancer or out with its name.
    ///
    /// # Errors
    /// [`Error::NobodyThere`].
    pub fn step(&mut self, wire: u64) -> Result<Moved, Error> {
        self.raw.step(wire)
    }

    /// Lets all of the lane's clients on a wire go by the wire's end, by one atomic add. If they left, the lane's last
    /// grants are theirs, in their order.
    ///
    /// # Errors
    /// [`Error::NobodyThere`].
    pub fn sweep(&mut self, wire: u64) -> Result<Swept, Error> {
        self.raw.sweep(wire)
    }

    /// The least wire on which a client of the lane stands.
    ///
    /// # Errors
    /// [`Error::NobodyThere`] if nobody of the lane is inside.
    pub fn lowest(&self) -> Result<u64, Error> {
        self.raw.lowest()
    }

    /// How many clients came in by all lanes, as far as this one can know: more than each name that it was given, and
    /// never more than came in.
    #[must_use]
    pub fn entered(&self) -> u64 {
        self.raw.entered()
    }

    /// How many clients more the lane may let in.
    #[must_use]
    pub fn quota(&self) -> u64 {
        self.raw.quota()
    }

    /// How many clients of the lane are inside.
    #[must_use]
    pub fn inside(&self) -> u64 {
        self.raw.inside()
    }

    /// How many entries the network has.
    #[must_use]
    pub fn entries(&self) -> u64 {
        self.raw.entries()
    }

    /// How many exits the network has: its width.
    #[must_use]
    pub fn exits(&self) -> u64 {
        self.raw.exits()
    }

    /// How many grants the lane has.
    #[must_use]
    pub fn grant_count(&self) -> u64 {
        self.raw.grant_count()
    }

    /// The lane's grants, in the order in which they were given.
    #[must_use]
    pub fn grants(&self) -> Vec<Grant> {
        let mut grants = vec![Grant::default(); index(self.grant_count())];
        self.raw.grants(0, &mut grants).expect("the size is that of the grants");
        grants
    }

    /// Copies the lane's grants from one with an index on, as many as the slice has space for.
    ///
    /// # Errors
    /// [`Error::Size`] if there are fewer.
    pub fn copy_grants(&self, first: u64, grants: &mut [Grant]) -> Result<(), Error> {
        self.raw.grants(first, grants)
    }
}

impl fmt::Debug for Lane {
    fn fmt(&self, out: &mut fmt::Formatter<'_>) -> fmt::Result {
        out.debug_struct("Lane")
            .field("quota", &self.quota())
            .field("inside", &self.inside())
            .field("grants", &self.grant_count())
            .finish_non_exhaustive()
    }
}
