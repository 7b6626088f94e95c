//! A batch as CSV, and what is printed of it.

use crate::network::Network;
use crate::walks::{Floor, Worker};
use csv::{ByteRecord, Reader, ReaderBuilder};
use indexmap::IndexSet;
use std::fmt::Write as _;
use std::fs;
use std::io::{self, Stdin};

pub type Refused = String;

fn number(field: &[u8]) -> Option<u64> {
    if field.is_empty() || field.len() > 20 || !field.iter().all(u8::is_ascii_digit) {
        return None;
    }
    std::str::from_utf8(field).ok()?.parse().ok()
}

fn open(header: [&[u8]; 3]) -> Result<Reader<Stdin>, Refused> {
    let mut rows = ReaderBuilder::new()
        .has_headers(false)
        .flexible(true)
        .from_reader(io::stdin());
    let mut row = ByteRecord::new();
    let found = rows.read_byte_record(&mut row).map_err(|e| e.to_string())?;
    if found && row.iter().eq(header) {
        Ok(rows)
    } else {
        Err("record 0: Header".to_string())
    }
}

fn three(at: u64, row: &ByteRecord) -> Result<(u64, u64, u64), Refused> {
    if row.len() != 3 {
        return Err(format!("record {at}: FieldCount"));
    }
    match (number(&row[0]), number(&row[1]), number(&row[2])) {
        (Some(first), Some(second), Some(third)) => Ok((first, second, third)),
        _ => Err(format!("record {at}: number")),
    }
}

pub struct Client {
    pub id: u64,
    pub entry: u64,
}

pub struct Epoch {
    number: u64,
    pub clients: Vec<Client>,
}

fn read_batch(entries: u64) -> Result<Vec<Epoch>, Refused> {
    let mut rows = open([b"epoch", b"client", b"entry"])?;
    let mut row = ByteRecord::new();
    let mut epochs: Vec<Epoch> = Vec::new();
    let mut standing = IndexSet::new();
    let mut at = 0;
    while rows.read_byte_record(&mut row).map_err(|e| e.to_string())? {
        at += 1;
        let (number, client, entry) = three(at, &row)?;
        if epochs.last().is_some_and(|latest| number < latest.number) {
            return Err(format!("record {at}: EpochBackwards"));
        }
        if entry >= entries {
            return Err(format!("record {at}: EntryRange"));
        }
        if epochs.last().map_or(true, |latest| number > latest.number) {
            epochs.push(Epoch { number, clients: Vec::new() });
            standing.clear();
        }
        if !standing.insert(client) {
            return Err(format!("record {at}: Duplicate"));
        }
        epochs.last_mut().unwrap().clients.push(Client { id: client, entry });
    }
    Ok(epochs)
}

fn put_end(text: &mut String, epochs: &[Epoch]) {
    let grants: usize = epochs.iter().map(|epoch| epoch.clients.len()).sum();
    writeln!(text, "end epochs {} grants {grants}", epochs.len()).unwrap();
}

fn put_walked(text: &mut String, floor: &Floor, epoch: &Epoch, holders: &[u64]) {
    writeln!(text, "epoch {} clients {}", epoch.number, holders.len()).unwrap();
    for exit in 0..floor.network.width {
        writeln!(text, "exit {exit} count {}", floor.count(exit)).unwrap();
    }
    for (name, client) in holders.iter().enumerate() {
        writeln!(text, "name {name} client {client}").unwrap();
    }
}

fn put_grants(text: &mut String, epoch: &Epoch, holders: &[u64]) {
    for (name, client) in holders.iter().enumerate() {
        writeln!(text, "{},{client},{name}", epoch.number).unwrap();
    }
}

pub fn walk(words: &[String]) -> Result<String, Refused> {
    let [wiring, hand, form] = words else {
        return Err("plain WIRING HAND FORM".to_string());
    };
    let wiring = fs::read_to_string(wiring).map_err(|e| e.to_string())?;
    let hand = hand.parse::<usize>().map_err(|e| e.to_string())?;
    let floor = Floor::new(Network::read(&wiring).ok_or("no network")?);
    let mut worker = Worker::new(&floor, hand);
    let epochs = read_batch(floor.network.entries as u64)?;
    let is_list = form == "grants";
    let mut text = if is_list { "epoch,client,name\n".to_string() } else { floor.network.heading.clone() };
    for epoch in &epochs {
        let holders = worker.run(&floor, epoch);
        if is_list {
            put_grants(&mut text, epoch, &holders);
        } else {
            put_walked(&mut text, &floor, epoch, &holders);
        }
    }
    if !is_list {
        put_end(&mut text, &epochs);
    }
    Ok(text)
}
