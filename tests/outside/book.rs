//! A second ledger of legs, from documents 01 and 02: a list of plain values, the four calls as each
//! makes a new list from it, and the list's image as it passes through the door.

use crate::bits;
use crate::router::{self, Table};
use crate::rules::{try_rules, Rule};
use crate::wire::{self, Address, Envelope, HIGHEST_SEQ};
use std::collections::HashSet;
use std::ops::Range;

pub const SIZE: usize = 1921;
pub const LEG_SIZE: usize = 15;
pub const MOST_LEGS: usize = 128;

// Widths in bits: source, destination, sequence number, ticks, standing, reason set and code.
const LEG: [usize; 11] = [8, 16, 8, 8, 16, 8, 16, 16, 8, 8, 8];

// The standings.
pub const OPEN: usize = 0;
pub const ACKNOWLEDGED: usize = 1;
pub const REFUSED: usize = 2;
pub const UNDELIVERABLE: usize = 3;
pub const TIMED_OUT: usize = 4;
pub const WAITING: usize = 5;

// The reason set "alerter" (appendix A) and its code "wait_ack" (D.1): the call is being made.
pub const WAIT: (usize, usize) = (2, 13);

/// A leg; the numbers may be out of range.
#[derive(Clone, Copy)]
pub struct Leg {
    pub source: Address,
    pub destination: Address,
    pub seq: usize,
    pub ticks: usize,
    pub standing: usize,
    pub set: usize,
    pub code: usize,
}

/// Whether a leg with this standing is open.
pub fn is_open(standing: usize) -> bool {
    standing == OPEN || standing == WAITING
}

impl Leg {
    pub fn is_open(&self) -> bool {
        is_open(self.standing)
    }

    // Gives what no two open legs have in common (3.3.4).
    fn reference(&self) -> (Address, Address, usize) {
        (self.source, self.destination, self.seq)
    }

    fn keeps_rules(&self) -> bool {
        self.source.in_range()
            && self.destination.in_range()
            && self.seq <= HIGHEST_SEQ
            && self.standing <= WAITING
            && self.is_open() == (self.ticks > 0)
            && (self.standing == REFUSED || (self.set, self.code) == (0, 0))
    }

    fn take(bytes: &[u8]) -> Leg {
        let mut fields = bits::take_fields(bytes, &LEG).into_iter();
        let source = Address::take(&mut fields);
        let destination = Address::take(&mut fields);
        let mut next = || fields.next().expect("a field of a leg");
        Leg {
            source,
            destination,
            seq: next(),
            ticks: next(),
            standing: next(),
            set: next(),
            code: next(),
        }
    }

    /// Gives the bytes of a leg.
    pub fn lay(&self) -> Vec<u8> {
        let mut fields = self.source.fields().to_vec();
        fields.extend(self.destination.fields());
        fields.extend([self.seq, self.ticks, self.standing, self.set, self.code]);
        bits::lay_fields(&LEG, &fields)
    }
}

/// Gives the bytes of a place in the image.
pub fn place(number: usize) -> Range<usize> {
    let start = 1 + LEG_SIZE * number;
    start..start + LEG_SIZE
}

/// Gives the legs that count in an image, whether or not they keep the rules.
pub fn legs(image: &[u8]) -> Vec<Leg> {
    (0..image[0].into()).map(|number| Leg::take(&image[place(number)])).collect()
}

/// Gives the count and the legs as they stand at the start of the image.
pub fn lay(legs: &[Leg]) -> Vec<u8> {
    let mut bytes = vec![legs.len() as u8];
    bytes.extend(legs.iter().flat_map(Leg::lay));
    bytes
}

fn open(legs: &[Leg]) -> impl Iterator<Item = &Leg> {
    legs.iter().filter(|leg| leg.is_open())
}

// Gives the legs of a ledger that keeps its rules, or 60.
fn sound(image: &[u8]) -> Result<Vec<Leg>, u8> {
    if image.len() < SIZE || usize::from(image[0]) > MOST_LEGS {
        return Err(60);
    }
    let legs = legs(image);
    let references: HashSet<_> = open(&legs).map(Leg::reference).collect();
    let all_differ = references.len() == open(&legs).count();
    match all_differ && legs.iter().all(Leg::keeps_rules) {
        true => Ok(legs),
        false => Err(60),
    }
}

/// Gives what a frame carries and a leg for each of its destinations: open for so many ticks, or
/// undeliverable where there is no route; or the refusal.
pub fn legs_for(
    frame: &[u8],
    arrival: usize,
    table: &[u8],
    ticks: usize,
) -> Result<(Envelope, Vec<Leg>), u8> {
    let envelope = wire::read(frame)?;
    let table = Table::take(table)?;
    let mut legs = Vec::new();
    for &destination in &envelope.destinations {
        let (standing, ticks) = match router::choose(&table, destination, arrival) {
            Ok(_) => (OPEN, ticks),
            Err(52) => (UNDELIVERABLE, 0),
            Err(number) => return Err(number),
        };
        let (source, seq) = (envelope.source, envelope.seq);
        legs.push(Leg { source, destination, seq, ticks, standing, set: 0, code: 0 });
    }
    Ok((envelope, legs))
}

/// Gives the legs after an Accept and how many were added, or the refusal.
pub fn accept(
    image: &[u8],
    frame: &[u8],
    arrival: usize,
    table: &[u8],
    ticks: usize,
) -> Result<(Vec<Leg>, usize), u8> {
    let (envelope, added) = legs_for(frame, arrival, table, ticks)?;
    let legs = sound(image)?;
    if envelope.ack == 0 {
        return Ok((legs, 0));
    }
    let rules: [Rule<(&[Leg], &Envelope, usize)>; 3] = [
        (61, |(_, _, ticks)| *ticks == 0),
        (62, |(legs, e, _)| open(legs).any(|leg| (leg.source, leg.seq) == (e.source, e.seq))),
        (63, |(legs, e, _)| legs.len() + e.count > MOST_LEGS),
    ];
    try_rules(&rules, &(&legs, &envelope, ticks))?;
    Ok(([&legs[..], &added].concat(), added.len()))
}

/// Gives the legs after an Answer, an ACK or a NAK with its reason set and code, or the refusal.
pub fn answer(
    image: &[u8],
    by: Address,
    to: Address,
    seq: usize,
    reason: Option<(usize, usize)>,
) -> Result<Vec<Leg>, u8> {
    let mut legs = sound(image)?;
    let is_answered = |leg: &&mut Leg| leg.is_open() && leg.reference() == (to, by, seq);
    let leg = legs.iter_mut().find(is_answered).ok_or(64)?;
    if reason == Some(WAIT) {
        leg.standing = WAITING;
        return Ok(legs);
    }
    leg.ticks = 0;
    leg.standing = reason.map_or(ACKNOWLEDGED, |_| REFUSED);
    (leg.set, leg.code) = reason.unwrap_or((0, 0));
    Ok(legs)
}

/// Gives the legs after a Tick and how many timed out, or the refusal.
pub fn tick(image: &[u8]) -> Result<(Vec<Leg>, usize), u8> {
    let before = sound(image)?;
    let count_down = |leg: &Leg| match (leg.is_open(), leg.ticks) {
        (true, 1) => Leg { ticks: 0, standing: TIMED_OUT, ..*leg },
        (true, ticks) => Leg { ticks: ticks - 1, ..*leg },
        _ => *leg,
    };
    let after: Vec<Leg> = before.iter().map(count_down).collect();
    let ended = open(&before).count() - open(&after).count();
    Ok((after, ended))
}

/// Gives the legs after a Clear, or the refusal.
pub fn clear(image: &[u8], place: usize) -> Result<Vec<Leg>, u8> {
    let mut legs = sound(image)?;
    legs.get(place).filter(|leg| !leg.is_open()).ok_or(65)?;
    legs.remove(place);
    Ok(legs)
}
