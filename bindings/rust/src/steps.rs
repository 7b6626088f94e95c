//! Clients that walk by single steps.

/// What a client went by.
#[derive(Clone, Copy, Debug, PartialEq, Eq, Hash)]
pub enum Place {
    /// A balancer, with this number.
    Balancer(u64),
    /// An exit, with this number.
    Exit(u64),
}

impl Place {
    pub(crate) fn of(is_exit: bool, number: u64) -> Place {
        if is_exit {
            Place::Exit(number)
        } else {
            Place::Balancer(number)
        }
    }
}

/// Where a client went by one step.
#[derive(Clone, Copy, Debug, PartialEq, Eq, Hash)]
pub enum Moved {
    /// It passed a balancer.
    On {
        /// Who.
        client: u64,
        /// The balancer.
        balancer: u64,
        /// How many had passed it before.
        number: u64,
        /// The wire on which it stands now, as the last.
        wire: u64,
    },
    /// It left, with its name.
    Out {
        /// Who.
        client: u64,
        /// The exit.
        exit: u64,
        /// How many had left by it before.
        visit: u64,
        /// Its name.
        name: u64,
    },
}

/// Where the clients on a wire went by one step, in the order in which they stood.
#[derive(Clone, Copy, Debug, PartialEq, Eq, Hash)]
pub struct Swept {
    /// What they went by.
    pub place: Place,
    /// How many had gone by it before.
    pub first: u64,
    /// How many they are.
    pub clients: u64,
}
