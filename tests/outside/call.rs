//! A call on a ledger, to be made through the door and on the second ledger alike.

use crate::book::{self, LEG_SIZE};
use crate::door::{self, hex, Answer, Expected, Given};
use crate::group::{Group, Stop};
use crate::wire::{self, Address};
use std::fmt;

#[derive(Clone)]
pub enum Call {
    Accept {
        frame: Vec<u8>,
        arrival: usize,
        table: Vec<u8>,
        ticks: usize,
    },
    /// The reply is a number for ACK or NAK, then the reason set and the code.
    Answer {
        by: Address,
        to: Address,
        seq: usize,
        reply: [usize; 3],
    },
    Tick,
    Clear(usize),
}

impl Call {
    /// Makes the call on a copy of this ledger image.
    pub fn make(&self, ledger: &[u8]) -> Answer {
        match self {
            Call::Accept { frame, arrival, table, ticks } => {
                door::accept(ledger, frame, *arrival, table, *ticks)
            }
            Call::Answer { by, to, seq, reply } => door::answer(ledger, *by, *to, *seq, *reply),
            Call::Tick => door::tick(ledger),
            Call::Clear(place) => door::clear(ledger, *place),
        }
    }

    // Gives what the second ledger makes of it.
    fn expected(&self, ledger: &[u8]) -> Expected {
        match self {
            Call::Accept { frame, arrival, table, ticks } => {
                match book::accept(ledger, frame, *arrival, table, *ticks) {
                    Ok((legs, added)) => Ok(Given::new(book::lay(&legs), &[added, 0])),
                    Err(number) => {
                        let beside = vec![0, wire::place(frame, number)];
                        Ok(Given { number, bytes: Vec::new(), beside })
                    }
                }
            }
            Call::Answer { by, to, seq, reply: [nak, set, code] } => {
                let reason = (*nak != 0).then_some((*set, *code));
                let legs = book::answer(ledger, *by, *to, *seq, reason)?;
                Ok(Given::new(book::lay(&legs), &[]))
            }
            Call::Tick => {
                let (legs, ended) = book::tick(ledger)?;
                Ok(Given::new(book::lay(&legs), &[ended]))
            }
            Call::Clear(place) => {
                let legs = book::lay(&book::clear(ledger, *place)?);
                // The old last place is freed.
                Ok(Given::new([&legs[..], &[0; LEG_SIZE]].concat(), &[]))
            }
        }
    }

    /// Makes the call both ways and compares; gives what came, and what should be given if it is
    /// not refused.
    pub fn attempt(
        &self,
        group: &mut Group,
        name: &str,
        ledger: &[u8],
    ) -> Result<(Answer, Option<Given>), Stop> {
        let came = self.make(ledger);
        let expected = self.expected(ledger);
        group.compare(&came, &expected, || format!("{name}: {self}, ledger {}", hex(ledger)))?;
        Ok((came, expected.ok().filter(|given| given.number == 0)))
    }
}

impl fmt::Display for Call {
    fn fmt(&self, f: &mut fmt::Formatter) -> fmt::Result {
        match self {
            Call::Accept { frame, arrival, table, ticks } => {
                let (frame, table) = (hex(frame), hex(table));
                write!(f, "pz_accept from port {arrival} with {ticks} ticks, ")?;
                write!(f, "frame {frame}, table {table}")
            }
            Call::Answer { by, to, seq, reply: [nak, set, code] } => {
                write!(f, "pz_answer by {by} to {to} for {seq}, nak {nak}, set {set}, code {code}")
            }
            Call::Tick => write!(f, "pz_tick"),
            Call::Clear(place) => write!(f, "pz_clear at {place}"),
        }
    }
}
