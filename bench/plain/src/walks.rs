//! Runs of a batch, each token by single steps.

use crate::network::{End, Network};
use crate::reading::{Client, Epoch};
use std::sync::atomic::{AtomicU64, Ordering};

#[derive(Clone, Copy, Default)]
struct Line {
    first: u32,
    last: u32,
    count: u32,
}

/// Tokens on their wires, linked by number; each has its client.
struct Yard {
    clients: Vec<u64>,
    next: Vec<u32>,
    lines: Vec<Line>,
    marks: Vec<u64>,
    free: Vec<u32>,
}

impl Yard {
    fn new(wires: usize, tokens: usize) -> Yard {
        Yard {
            clients: vec![0; tokens],
            next: vec![0; tokens],
            lines: vec![Line::default(); wires],
            marks: vec![0; wires / 64 + 1],
            free: (0..tokens as u32).rev().collect(),
        }
    }

    fn push(&mut self, token: u32, wire: usize) {
        let line = &mut self.lines[wire];
        if line.count == 0 {
            line.first = token;
            self.marks[wire / 64] |= 1 << (wire % 64);
        } else {
            self.next[line.last as usize] = token;
        }
        line.last = token;
        line.count += 1;
    }

    fn pop(&mut self, wire: usize) -> u32 {
        let line = &mut self.lines[wire];
        let token = line.first;
        line.count -= 1;
        if line.count == 0 {
            self.marks[wire / 64] &= !(1 << (wire % 64));
        } else {
            line.first = self.next[token as usize];
        }
        token
    }

    fn admit(&mut self, client: u64, wire: usize) {
        let token = self.free.pop().expect("a token for each in hand");
        self.clients[token as usize] = client;
        self.push(token, wire);
    }

    fn lowest(&self) -> Option<usize> {
        let at = self.marks.iter().position(|word| *word != 0)?;
        Some(64 * at + self.marks[at].trailing_zeros() as usize)
    }
}

/// A network with its words.
pub struct Floor {
    pub network: Network,
    words: Vec<AtomicU64>,
}

impl Floor {
    pub fn new(network: Network) -> Floor {
        let count = network.entries + network.balancers() + network.width;
        let words = (0..count).map(|_| AtomicU64::new(0)).collect();
        Floor { network, words }
    }

    pub fn count(&self, exit: usize) -> u64 {
        let at = self.network.entries + self.network.balancers() + exit;
        self.words[at].load(Ordering::Acquire)
    }

    fn add(&self, at: usize) -> u64 {
        self.words[at].fetch_add(1, Ordering::AcqRel)
    }

    fn walk_out(&self, yard: &mut Yard, grants: &mut Vec<(u64, u64)>) {
        let entries = self.network.entries;
        while let Some(wire) = yard.lowest() {
            let token = yard.pop(wire);
            match &self.network.ends[wire] {
                End::Balancer(balancer) => {
                    let output = self.add(entries + balancer) as usize % 2;
                    yard.push(token, entries + 2 * balancer + output);
                }
                End::Exit(exit) => {
                    let visit = self.add(entries + self.network.balancers() + exit);
                    grants.push((yard.clients[token as usize], *exit as u64 + self.network.width as u64 * visit));
                    yard.free.push(token);
                }
            }
        }
    }

    fn walk(&self, yard: &mut Yard, clients: &[Client], hand: usize, grants: &mut Vec<(u64, u64)>) {
        for next in clients.chunks(hand) {
            for client in next {
                self.add(client.entry as usize);
                yard.admit(client.id, client.entry as usize);
            }
            self.walk_out(yard, grants);
        }
    }
}

/// A worker, with so many tokens in hand.
pub struct Worker {
    yard: Yard,
    grants: Vec<(u64, u64)>,
    hand: usize,
}

impl Worker {
    pub fn new(floor: &Floor, hand: usize) -> Worker {
        Worker { yard: Yard::new(floor.network.ends.len(), hand), grants: Vec::new(), hand }
    }

    /// The holders of the names of an epoch.
    pub fn run(&mut self, floor: &Floor, epoch: &Epoch) -> Vec<u64> {
        for word in &floor.words {
            word.store(0, Ordering::Release);
        }
        floor.walk(&mut self.yard, &epoch.clients, self.hand, &mut self.grants);
        let mut holders = vec![0; epoch.clients.len()];
        for (client, name) in self.grants.drain(..) {
            holders[name as usize] = client;
        }
        holders
    }
}
