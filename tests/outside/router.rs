//! A second choice of the next route, from document 01, and the image of a routing table as it
//! passes through the door.

use crate::bits;
use crate::chart::StationBytes;
use crate::chart_draft::station_bytes;
use crate::rules::{try_rules, Rule};
use crate::wire::{Address, HIGHEST_NODE, HIGHEST_PORT};

pub const SIZE: usize = 196;
pub const MOST_ENTRIES: usize = 32;

// Widths in bits.
const HEAD: [usize; 3] = [8, 16, 8]; // own brigade and node, count
const ENTRY: [usize; 5] = [8, 8, 16, 8, 8]; // kind, brigade, node, port, on

// What an entry's destination is.
pub const ONE_NODE: usize = 0;
pub const BRIGADE: usize = 1;
pub const EVERYTHING: usize = 2;

/// An entry of the table; the numbers may be out of range.
#[derive(Clone, Copy)]
pub struct Entry {
    pub kind: usize,
    pub brigade: usize,
    pub node: usize,
    pub port: usize,
    pub on: usize,
}

impl Entry {
    // The node is part of one node's entry alone.
    fn in_range(self) -> bool {
        self.kind <= EVERYTHING
            && (self.kind != ONE_NODE || self.node <= HIGHEST_NODE)
            && (1..=HIGHEST_PORT).contains(&self.port)
            && self.on <= 1
    }

    fn matches(self, destination: Address) -> bool {
        match self.kind {
            ONE_NODE => (self.brigade, self.node) == (destination.brigade, destination.node),
            BRIGADE => self.brigade == destination.brigade,
            _ => true,
        }
    }
}

/// A routing table, with entries past its count; the numbers may be out of range.
#[derive(Clone)]
pub struct Table {
    pub brigade: usize,
    pub node: usize,
    pub count: usize,
    pub entries: Vec<Entry>,
}

/// Where a message goes next: to a port of this node, or out by one.
pub enum Choice {
    Local(usize),
    Out(usize),
}

impl Table {
    /// Gives the table that an image holds, or 50 for an image that is too short.
    pub fn take(image: &[u8]) -> Result<Table, u8> {
        if image.len() < SIZE {
            return Err(50);
        }
        let widths = [&HEAD[..], &ENTRY.repeat(MOST_ENTRIES)].concat();
        let fields = bits::take_fields(image, &widths);
        let (head, entries) = fields.split_at(HEAD.len());
        let entry =
            |f: &[usize]| Entry { kind: f[0], brigade: f[1], node: f[2], port: f[3], on: f[4] };
        Ok(Table {
            brigade: head[0],
            node: head[1],
            count: head[2],
            entries: entries.chunks(ENTRY.len()).map(entry).collect(),
        })
    }

    /// Gives the image of a table, as far as there are entries.
    pub fn lay(&self) -> Vec<u8> {
        let widths = [&HEAD[..], &ENTRY.repeat(self.entries.len())].concat();
        let mut fields = vec![self.brigade, self.node, self.count];
        fields.extend(self.entries.iter().flat_map(|e| [e.kind, e.brigade, e.node, e.port, e.on]));
        bits::lay_fields(&widths, &fields)
    }

    fn counted(&self) -> impl Iterator<Item = &Entry> {
        self.entries.iter().take(self.count)
    }

    /// Gives the own station as it stands in a chart.
    pub fn own(&self) -> StationBytes {
        station_bytes((self.brigade, self.node))
    }

    /// Whether the count, the own node and every entry that counts are in range.
    pub fn in_range(&self) -> bool {
        self.node <= HIGHEST_NODE
            && self.count <= MOST_ENTRIES
            && self.counted().all(|entry| entry.in_range())
    }
}

/// Gives the next route of a message to this destination, or the refusal.
pub fn choose(table: &Table, destination: Address, arrival: usize) -> Result<Choice, u8> {
    let rules: [Rule<(&Table, Address, usize)>; 2] = [
        (50, |(table, _, _)| !table.in_range()),
        (51, |(_, destination, arrival)| !destination.in_range() || *arrival > HIGHEST_PORT),
    ];
    try_rules(&rules, &(table, destination, arrival))?;
    let own = (table.brigade, table.node) == (destination.brigade, destination.node);
    let here = own.then_some(Choice::Local(destination.port));
    let onward = table
        .counted()
        .filter(|entry| entry.matches(destination) && entry.on == 1 && entry.port != arrival)
        .map(|entry| Choice::Out(entry.port));
    here.into_iter().chain(onward).next().ok_or(52)
}
