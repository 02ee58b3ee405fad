//! The image of an envelope's values that passes through the door: whole bytes, high byte first.

use crate::bits;
use crate::wire::{Address, Envelope, MOST_DESTINATIONS};
use std::ops::Range;

pub const SIZE: usize = 267;

const COUNT: Range<usize> = 4..5;
pub const LENGTH: Range<usize> = 5..7;
pub const OFFSET: Range<usize> = 13..15;
const DESTINATIONS_AT: usize = 15;
const DESTINATION_SIZE: usize = 4;

// Widths in bits.
const ADDRESS: [usize; 3] = [8, 16, 8];
// Count, length, priority, version, ack, seq, type, offset.
const AFTER_SOURCE: [usize; 8] = [8, 16, 8, 8, 8, 16, 8, 16];

// Gives the widths of the fields, this many destinations included.
fn layout(used: usize) -> Vec<usize> {
    [&ADDRESS[..], &AFTER_SOURCE, &ADDRESS.repeat(used)].concat()
}

/// Gives the bytes of the destinations past the count.
pub fn unused(count: usize) -> Range<usize> {
    DESTINATIONS_AT + DESTINATION_SIZE * count.min(MOST_DESTINATIONS)..SIZE
}

/// Gives the number that stands in these bytes.
pub fn number(image: &[u8], bytes: Range<usize>) -> usize {
    bits::take(image, 8 * bytes.start, 8 * bytes.len())
}

/// Gives the image of these values, its unused destinations zero.
pub fn lay(e: &Envelope) -> Vec<u8> {
    let mut fields = e.source.fields().to_vec();
    fields.extend([e.count, e.length, e.priority, e.version]);
    fields.extend([e.ack, e.seq, e.message_type, e.offset()]);
    fields.extend(e.destinations.iter().flat_map(|destination| destination.fields()));
    let mut image = bits::lay_fields(&layout(e.destinations.len()), &fields);
    image.resize(SIZE, 0);
    image
}

/// Gives the values of an image beside contents of this length.
pub fn take(image: &[u8], length: usize) -> Envelope {
    let count = number(image, COUNT);
    let used = count.min(MOST_DESTINATIONS);
    let mut fields = bits::take_fields(image, &layout(used)).into_iter();
    let source = Address::take(&mut fields);
    let after: Vec<usize> = fields.by_ref().take(AFTER_SOURCE.len()).collect();
    Envelope {
        source,
        count,
        length,
        destinations: (0..used).map(|_| Address::take(&mut fields)).collect(),
        priority: after[2],
        version: after[3],
        ack: after[4],
        seq: after[5],
        message_type: after[6],
    }
}
