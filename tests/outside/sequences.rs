//! Drawn calls, thousands of them on one ledger: each is compared with the second ledger on every
//! byte, and the next one is made on what should have come.

use crate::book::{self, Leg, MOST_LEGS, OPEN, REFUSED, WAITING};
use crate::call::Call;
use crate::draw::Draw;
use crate::envelope::{Fault, CARRIED_FAULTS, FRAME_FAULTS};
use crate::group::{Group, Outcome, Tally, Tests};
use crate::router::Table;
use crate::routing::{draw_station, draw_table, TABLE_FAULTS};
use crate::wire::{self, Address, Envelope, MOST_DESTINATIONS};
use std::mem::swap;

pub const GROUPS: &[Tests] = &[("ledger sequences", sequences)];

const SEQUENCES: usize = 12;
const CALLS: usize = 5_000;

/// How often each call is made, in a stretch of calls.
pub struct Shares {
    pub accept: usize,
    pub answer: usize,
    pub tick: usize,
    pub clear: usize,
}

const STRETCHES: [Shares; 6] = [
    Shares { accept: 9, answer: 2, tick: 0, clear: 1 },
    Shares { accept: 4, answer: 3, tick: 1, clear: 6 },
    Shares { accept: 2, answer: 7, tick: 0, clear: 5 },
    Shares { accept: 3, answer: 2, tick: 6, clear: 5 },
    Shares { accept: 1, answer: 1, tick: 0, clear: 9 },
    Shares { accept: 5, answer: 6, tick: 2, clear: 8 },
];

struct Tallies {
    accept: Tally,
    accept_adding: Tally,
    answer: Tally,
    tick: Tally,
    tick_ending: Tally,
    clear: Tally,
}

fn sequences(group: &mut Group, draw: &mut Draw) -> Outcome {
    let mut tallies = Tallies {
        accept: Tally::new("pz_accept, none added"),
        accept_adding: Tally::new("pz_accept, legs added"),
        answer: Tally::new("pz_answer"),
        tick: Tally::new("pz_tick, none timed out"),
        tick_ending: Tally::new("pz_tick, legs timed out"),
        clear: Tally::new("pz_clear"),
    };
    for _ in 0..SEQUENCES {
        sequence(group, draw, &mut tallies)?;
    }
    let refusals = [1, 2, 3, 4, 7, 8, 9, 50, 51, 60, 61, 62, 63];
    tallies.accept.settle(group, &[&[0][..], &refusals].concat())?;
    tallies.accept_adding.settle(group, &[0])?;
    tallies.answer.settle(group, &[0, 60, 64])?;
    tallies.tick.settle(group, &[0, 60])?;
    tallies.tick_ending.settle(group, &[0])?;
    tallies.clear.settle(group, &[0, 60, 65])
}

fn sequence(group: &mut Group, draw: &mut Draw, tallies: &mut Tallies) -> Outcome {
    // An empty ledger in noise, often one with bytes behind it.
    let size = draw.one_of(&[book::SIZE, book::SIZE, book::SIZE + 1, book::SIZE + 60]);
    let mut ledger = draw.bytes(size);
    ledger[0] = 0;
    let mut table = draw_table(draw);
    let mut shares = &STRETCHES[0];
    for _ in 0..CALLS {
        if draw.below(100) == 0 {
            table = draw_table(draw);
            shares = &STRETCHES[draw.below(STRETCHES.len())];
        }
        if draw.below(20) == 0 {
            fill_past(&mut ledger, draw);
        }
        let call = draw_call(draw, shares, &table, &book::legs(&ledger));
        let mut handed_in = ledger.clone();
        if draw.below(20) == 0 {
            draw.one_of(&LEDGER_FAULTS)(&mut handed_in, draw);
        }
        let (came, given) = call.attempt(group, "drawn", &handed_in)?;
        let tally = match call {
            Call::Accept { .. } if came.first_beside() > 0 => &mut tallies.accept_adding,
            Call::Accept { .. } => &mut tallies.accept,
            Call::Answer { .. } => &mut tallies.answer,
            Call::Tick if came.first_beside() > 0 => &mut tallies.tick_ending,
            Call::Tick => &mut tallies.tick,
            Call::Clear(_) => &mut tallies.clear,
        };
        tally.saw(came.number);
        // A fault that did no harm stays.
        if let Some(given) = given {
            handed_in[..given.bytes.len()].copy_from_slice(&given.bytes);
            ledger = handed_in;
        }
    }
    Ok(())
}

/// Draws a call on a ledger with these legs; some of them are refused.
pub fn draw_call(draw: &mut Draw, shares: &Shares, table: &Table, legs: &[Leg]) -> Call {
    let Shares { accept, answer, tick, clear } = shares;
    let drawn = draw.below(accept + answer + tick + clear);
    if drawn < *accept {
        draw_accept(draw, table)
    } else if drawn < accept + answer {
        draw_answer(draw, legs)
    } else if drawn < accept + answer + tick {
        Call::Tick
    } else {
        Call::Clear(draw_place(draw, legs))
    }
}

// ---- Accept ----

// Draws one of a few addresses, so that legs are often alike in all but a field.
fn draw_address(draw: &mut Draw) -> Address {
    let (brigade, node) = draw_station(draw);
    Address::new(brigade, node, draw.one_of(&[0, 1, 5, 63]))
}

fn draw_source(draw: &mut Draw) -> Address {
    Address::new(draw.one_of(&[8, 9]), draw.one_of(&[1, 257]), draw.one_of(&[1, 5]))
}

fn draw_seq(draw: &mut Draw) -> usize {
    draw.one_of(&[0, 7, 8, 263, 16391, 32767])
}

// Draws a message that keeps every rule.
fn draw_envelope(draw: &mut Draw) -> Envelope {
    let few = draw.within(1, 6);
    let many = draw.within(7, MOST_DESTINATIONS);
    let count = if draw.below(16) == 0 { many } else { few };
    let mut destinations = Vec::new();
    while destinations.len() < count {
        let destination = draw_address(draw);
        if !destinations.contains(&destination) {
            destinations.push(destination);
        }
    }
    let message_type = draw.one_of(&[2, 3]);
    Envelope {
        source: draw_source(draw),
        count,
        length: draw.below(4),
        destinations,
        priority: draw.within(1, 9),
        version: wire::version_for(message_type),
        ack: draw.one_of(&[1, 1, 1, 1, 0]),
        seq: draw_seq(draw),
        message_type,
    }
}

fn draw_accept(draw: &mut Draw, table: &Table) -> Call {
    let mut envelope = draw_envelope(draw);
    let contents = draw.bytes(envelope.length);
    let fault = draw.below(16);
    if fault <= 2 {
        draw.one_of(&CARRIED_FAULTS)(&mut envelope, draw);
    }
    let mut frame = wire::lay(&envelope, &contents);
    if fault == 2 || fault == 3 {
        draw.one_of(&FRAME_FAULTS)(&mut frame, draw);
    }
    let mut table = table.clone();
    if draw.below(16) == 0 {
        draw.one_of(&TABLE_FAULTS)(&mut table, draw);
    }
    let mut table = table.lay();
    table.resize(draw.one_of(&[196, 196, 196, 196, 196, 196, 196, 197, 300, 195]), 0x02);
    let few = draw.within(2, 30);
    let many = draw.within(31, 600);
    let ticks = draw.one_of(&[0, 1, few, few, many, many, many, many, 65535]);
    let bad = draw.bad_port();
    let arrival = draw.one_of(&[0, 0, 0, 1, 2, 3, 62, 63, 1, 2, 3, bad]);
    Call::Accept { frame, arrival, table, ticks }
}

// ---- Answer ----

// Draws an answer that settles an open leg, the oldest, the newest or any, or just misses it.
fn draw_answer(draw: &mut Draw, legs: &[Leg]) -> Call {
    let open: Vec<&Leg> = legs.iter().filter(|leg| leg.is_open()).collect();
    let settled: Vec<&Leg> = legs.iter().filter(|leg| !leg.is_open()).collect();
    let aims = if draw.below(8) == 0 { settled } else { open };
    let (mut by, mut to, mut seq) = match aims.len() {
        0 => (draw_address(draw), draw_source(draw), draw_seq(draw)),
        count => {
            let any = draw.below(count);
            let aim = aims[draw.one_of(&[0, count - 1, any])];
            (aim.destination, aim.source, aim.seq)
        }
    };
    match draw.below(12) {
        0 => swap(&mut by, &mut to),
        1 => by = draw_address(draw),
        2 => to = draw_source(draw),
        3 => seq = draw_seq(draw),
        4 => {
            // One bit, also one that no such number has.
            let fields: [(&mut usize, usize); 7] = [
                (&mut by.brigade, 8),
                (&mut by.node, 16),
                (&mut by.port, 8),
                (&mut to.brigade, 8),
                (&mut to.node, 16),
                (&mut to.port, 8),
                (&mut seq, 16),
            ];
            let place = draw.below(fields.len());
            let (field, width) = fields.into_iter().nth(place).expect("a field");
            *field ^= 1 << draw.below(width);
        }
        _ => (),
    }
    let any = draw.within(1, 255);
    let nak = draw.one_of(&[0, 0, 0, 1, 1, any]);
    let any = (draw.below(256), draw.below(256));
    let (set, code) = draw.one_of(&[any, any, book::WAIT, book::WAIT, (2, any.1), (1, 9)]);
    let reply = [nak, set, code];
    Call::Answer { by, to, seq, reply }
}

// ---- Clear ----

// Draws the place of a settled leg, an open one, or none; in some the low bits alone are a place.
fn draw_place(draw: &mut Draw, legs: &[Leg]) -> usize {
    let settled: Vec<usize> = (0..legs.len()).filter(|&place| !legs[place].is_open()).collect();
    let place = match settled.len() {
        0 => draw.below(MOST_LEGS),
        count => {
            let any = draw.below(count);
            settled[draw.one_of(&[0, any, any, count - 1])]
        }
    };
    match draw.below(10) {
        0 => draw.below(MOST_LEGS),
        1 => legs.len() + draw.below(2),
        2 => place | draw.one_of(&[1 << 7, 1 << 8, 1 << 16, 1 << 32, 1 << 63]),
        3 => draw.one_of(&[0, 127, 128, 255, usize::MAX]),
        _ => place,
    }
}

// ---- ledgers that break a rule ----

// Puts into the places past the count noise, or legs that would be alike.
fn fill_past(ledger: &mut [u8], draw: &mut Draw) {
    let past = book::place(ledger[0].into()).start..book::SIZE;
    let noise = draw.bytes(past.len());
    match draw.below(3) {
        0 => ledger[past].copy_from_slice(&noise),
        1 => ledger[past].fill(0),
        _ => {
            let first = book::place(0);
            for place in ledger[0].into()..MOST_LEGS {
                ledger.copy_within(first.clone(), book::place(place).start);
            }
        }
    }
}

// Changes a leg that counts, if there is one.
fn change_leg(ledger: &mut [u8], draw: &mut Draw, change: fn(&mut Leg, &mut Draw)) {
    let legs = book::legs(ledger);
    if !legs.is_empty() {
        let any = draw.below(legs.len());
        let place = draw.one_of(&[0, any, any, legs.len() - 1]);
        let mut leg = legs[place];
        change(&mut leg, draw);
        ledger[book::place(place)].copy_from_slice(&leg.lay());
    }
}

// What a ledger can get wrong; some of it does no harm.
const LEDGER_FAULTS: [Fault<Vec<u8>>; 16] = [
    |l, draw| l.truncate(draw.one_of(&[0, 1, 1906, 1920, 1920])),
    |l, draw| l[0] = draw.one_of(&[129, 130, 192, 255]),
    |l, draw| l[0] = draw.below(MOST_LEGS) as u8,
    |l, draw| change_leg(l, draw, |leg, draw| leg.source.node = draw.bad_node()),
    |l, draw| change_leg(l, draw, |leg, draw| leg.source.port = draw.bad_port()),
    |l, draw| change_leg(l, draw, |leg, draw| leg.destination.node = draw.bad_node()),
    |l, draw| change_leg(l, draw, |leg, draw| leg.destination.port = draw.bad_port()),
    |l, draw| change_leg(l, draw, |leg, draw| leg.seq = draw.bad_seq()),
    |l, draw| change_leg(l, draw, |leg, _| leg.standing = OPEN),
    |l, draw| change_leg(l, draw, |leg, draw| leg.ticks = draw.one_of(&[0, 1, 256, 65535])),
    |l, draw| change_leg(l, draw, |leg, draw| leg.standing = draw.within(REFUSED, WAITING)),
    |l, draw| change_leg(l, draw, |leg, draw| leg.standing = draw.within(6, 255)),
    |l, draw| change_leg(l, draw, |leg, draw| leg.set = draw.within(1, 255)),
    |l, draw| change_leg(l, draw, |leg, draw| leg.code = draw.within(1, 255)),
    |l, draw| {
        // One leg over another: alike, unless one of them is settled.
        let count = usize::from(l[0]).max(1);
        let one = book::place(draw.below(count));
        l.copy_within(one, book::place(draw.below(count)).start);
    },
    |l, draw| {
        let place = draw.below(l.len());
        l[place] ^= 1 << draw.below(8);
    },
];
