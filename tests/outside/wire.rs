//! A second reader and writer of `<envelope>`, from sections 3.2, 3.3, 3.6 and appendix A alone; and
//! where a refused frame is at fault, from document 02. A frame is one string of bits, and its fields
//! are taken or laid in the order of appendix A.4.

use crate::bits;
use crate::rules::{try_rules, Rule};
use std::collections::HashSet;
use std::fmt;

pub const MOST_DESTINATIONS: usize = 63;
pub const MOST_CONTENTS: usize = 1023;
pub const HIGHEST_NODE: usize = 1023;
pub const HIGHEST_PORT: usize = 63;
pub const HIGHEST_SEQ: usize = 32767;
const LOWEST_PRIORITY: usize = 9;

// Widths in bits (A.4).
const ADDRESS: [usize; 3] = [8, 10, 6]; // brigade, node, port
const COUNT_AND_LENGTH: [usize; 2] = [10, 6]; // the length stands first
const AFTER: [usize; 5] = [4, 4, 15, 1, 8]; // priority, prot_vers, seq, ack_req, message_type

/// A brigade, a node and a port (3.2.2); the numbers may be out of range.
#[derive(Clone, Copy, PartialEq, Eq, Hash)]
pub struct Address {
    pub brigade: usize,
    pub node: usize,
    pub port: usize,
}

impl Address {
    pub fn new(brigade: usize, node: usize, port: usize) -> Address {
        Address { brigade, node, port }
    }

    /// Takes an address off a list of fields.
    pub fn take(fields: &mut impl Iterator<Item = usize>) -> Address {
        let mut next = || fields.next().expect("a field of an address");
        Address::new(next(), next(), next())
    }

    pub fn fields(self) -> [usize; 3] {
        [self.brigade, self.node, self.port]
    }

    pub fn in_range(self) -> bool {
        self.brigade <= 255 && self.node <= HIGHEST_NODE && self.port <= HIGHEST_PORT
    }
}

impl fmt::Display for Address {
    fn fmt(&self, f: &mut fmt::Formatter) -> fmt::Result {
        write!(f, "{}/{}/{}", self.brigade, self.node, self.port)
    }
}

/// The values of an envelope (3.3.2), its contents apart; the numbers may be out of range.
pub struct Envelope {
    pub source: Address,
    pub count: usize,
    pub length: usize,
    pub destinations: Vec<Address>,
    pub priority: usize,
    pub version: usize,
    pub ack: usize,
    pub seq: usize,
    pub message_type: usize,
}

impl Envelope {
    /// Gives where the contents begin.
    pub fn offset(&self) -> usize {
        offset(self.count)
    }

    /// Gives the size of the frame that the two counts ask for.
    pub fn size(&self) -> usize {
        size(self.count, self.length)
    }

    fn in_range(&self) -> bool {
        self.source.in_range()
            && self.destinations.iter().all(|destination| destination.in_range())
            && self.seq <= HIGHEST_SEQ
            && self.ack <= 1
            && self.message_type <= 255
    }

    fn repeats_destination(&self) -> bool {
        self.destinations.iter().collect::<HashSet<_>>().len() < self.destinations.len()
    }
}

/// Gives the version that goes with a message type: 2 for Page_officer alone (3.3.2).
pub fn version_for(message_type: usize) -> usize {
    match message_type {
        3 => 2,
        _ => 1,
    }
}

const FRAME_RULES: [Rule<[u8]>; 3] = [
    (1, |f| asked_size(f).map_or(true, |size| f.len() < size)),
    (2, |f| asked_size(f).map_or(false, |size| f.len() > size)),
    (3, |f| check_character(f) != 0),
];

// 5 and 6 are the writer's alone: the widths on the wire leave no room for such values.
const VALUE_RULES: [Rule<Envelope>; 6] = [
    (4, |e| e.count < 1 || e.count > MOST_DESTINATIONS),
    (5, |e| e.length > MOST_CONTENTS),
    (6, |e| !e.in_range()),
    (7, |e| e.priority < 1 || e.priority > LOWEST_PRIORITY),
    (8, |e| e.repeats_destination()),
    (9, |e| e.version != version_for(e.message_type)),
];

// Gives the widths of all the fields before the contents.
fn layout(count: usize) -> Vec<usize> {
    let destinations = ADDRESS.repeat(count);
    [&ADDRESS[..], &COUNT_AND_LENGTH, &destinations, &AFTER].concat()
}

fn offset(count: usize) -> usize {
    layout(count).iter().sum::<usize>() / 8
}

// The check character stands last.
fn size(count: usize, length: usize) -> usize {
    offset(count) + length + 1
}

// Gives the exclusive or of the bytes, 0 for a whole frame that is undamaged.
fn check_character(bytes: &[u8]) -> u8 {
    bytes.iter().fold(0, |check, byte| check ^ byte)
}

/// Sets the last byte of a frame to its right check character.
pub fn mend(frame: &mut [u8]) {
    if let Some((last, before)) = frame.split_last_mut() {
        *last = check_character(before);
    }
}

/// Gives the first byte of the first field at fault of a frame that a number refuses (document 02,
/// Seven); 0 for a number that is none of the reader's.
pub fn place(frame: &[u8], number: u8) -> usize {
    let bits = |widths: &[usize]| widths.iter().sum::<usize>();
    let counted = bits(&ADDRESS) + bits(&COUNT_AND_LENGTH);
    let after = |count: usize| counted + count * bits(&ADDRESS);
    match number {
        1 => frame.len(),
        2 => asked_size(frame).expect("a size"),
        3 => asked_size(frame).expect("a size") - 1,
        // The length is in front of it, in its first byte too.
        4 => (counted - 1) / 8,
        7 | 9 => after(take(frame).count) / 8,
        8 => {
            let mut seen = HashSet::new();
            let first = take(frame).destinations.iter().position(|&a| !seen.insert(a));
            after(first.expect("two that are equal")) / 8
        }
        _ => 0,
    }
}

/// Gives the values of a frame, or the refusal.
pub fn read(frame: &[u8]) -> Result<Envelope, u8> {
    try_rules(&FRAME_RULES, frame)?;
    let envelope = take(frame);
    try_rules(&VALUE_RULES, &envelope)?;
    Ok(envelope)
}

/// Gives the size that a frame's two counts ask for, if its fixed fields are all there.
pub fn asked_size(frame: &[u8]) -> Option<usize> {
    if frame.len() < size(0, 0) {
        return None;
    }
    let (count, length) = take_counts(frame);
    Some(size(count, length))
}

fn take_counts(frame: &[u8]) -> (usize, usize) {
    let widths = [&ADDRESS[..], &COUNT_AND_LENGTH].concat();
    let fields = bits::take_fields(frame, &widths);
    (fields[4], fields[3])
}

// Takes the values of a frame that is as long as it asks.
fn take(frame: &[u8]) -> Envelope {
    let (count, length) = take_counts(frame);
    let mut fields = bits::take_fields(frame, &layout(count)).into_iter();
    let source = Address::take(&mut fields);
    let mut fields = fields.skip(COUNT_AND_LENGTH.len());
    let destinations = (0..count).map(|_| Address::take(&mut fields)).collect();
    let after: Vec<usize> = fields.collect();
    Envelope {
        source,
        count,
        length,
        destinations,
        priority: after[0],
        version: after[1],
        seq: after[2],
        ack: after[3],
        message_type: after[4],
    }
}

/// Gives the frame of these values for a buffer of this size, or the refusal.
pub fn write(envelope: &Envelope, contents: &[u8], room: usize) -> Result<Vec<u8>, u8> {
    try_rules(&VALUE_RULES, envelope)?;
    if envelope.size() > room {
        return Err(10);
    }
    Ok(lay(envelope, contents))
}

/// Lays values as they are, so that a frame can break the rules; its check character is right.
pub fn lay(e: &Envelope, contents: &[u8]) -> Vec<u8> {
    let mut fields = e.source.fields().to_vec();
    fields.extend([e.length, e.count]);
    fields.extend(e.destinations.iter().flat_map(|destination| destination.fields()));
    fields.extend([e.priority, e.version, e.seq, e.ack, e.message_type]);
    let mut frame = bits::lay_fields(&layout(e.destinations.len()), &fields);
    frame.extend(contents);
    frame.push(0);
    mend(&mut frame);
    frame
}
