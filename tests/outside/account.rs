//! A tutor's account of an afternoon, from document 02, Thirteen: a line for each accepted leg, in
//! order of acceptance, with what reached the leg, struck out when it is cleared. It is kept from
//! the calls and from the number and the count that each gave back; the ledger is not looked at.

use crate::book::{self, Leg};
use crate::book::{ACKNOWLEDGED, REFUSED, TIMED_OUT, UNDELIVERABLE, WAIT, WAITING};
use crate::call::Call;
use crate::wire::Address;

/// What can reach a leg; a NAK with its reason set and code.
#[derive(Clone, Copy, Debug, PartialEq)]
pub enum Event {
    Tick,
    Ack,
    Nak(usize, usize),
}

impl Event {
    /// Gives what an answer's number for ACK or NAK, its reason set and its code say.
    pub fn of_reply([nak, set, code]: [usize; 3]) -> Event {
        match nak {
            0 => Event::Ack,
            _ => Event::Nak(set, code),
        }
    }

    /// Whether it is a NAK that says wait.
    pub fn waits(self) -> bool {
        self == Event::Nak(WAIT.0, WAIT.1)
    }

    fn settles(self) -> bool {
        self != Event::Tick && !self.waits()
    }
}

pub struct Line {
    /// The leg as it was accepted, open or undeliverable.
    pub leg: Leg,
    pub events: Vec<Event>,
    pub struck: bool,
}

impl Line {
    fn new(leg: Leg) -> Line {
        Line { leg, events: Vec::new(), struck: false }
    }

    /// Whether an answer by this address to that one, with this sequence number, is for the leg.
    pub fn is_for(&self, by: Address, to: Address, seq: usize) -> bool {
        (self.leg.source, self.leg.destination, self.leg.seq) == (to, by, seq)
    }

    /// Gives the leg as the line says it stands: by the first settling answer to reach it while
    /// open, or by the tick that ended it, whichever came first.
    pub fn read(&self) -> Leg {
        let leg = self.leg;
        if leg.standing == UNDELIVERABLE {
            return leg;
        }
        let answer = self.events.iter().position(|event| event.settles());
        let places = 0..self.events.len();
        let mut ticks = places.filter(|&place| self.events[place] == Event::Tick).zip(1..);
        let end = ticks.find(|&(_, count)| count == leg.ticks).map(|(place, _)| place);
        let settled = |standing, set, code| Leg { ticks: 0, standing, set, code, ..leg };
        match (answer, end) {
            (Some(answer), end) if end.map_or(true, |end| answer < end) => {
                match self.events[answer] {
                    Event::Nak(set, code) => settled(REFUSED, set, code),
                    _ => settled(ACKNOWLEDGED, 0, 0),
                }
            }
            (_, Some(_)) => settled(TIMED_OUT, 0, 0),
            _ => self.read_open(),
        }
    }

    // Gives the leg while nothing has settled or ended it.
    fn read_open(&self) -> Leg {
        let gone = self.events.iter().filter(|&&event| event == Event::Tick).count();
        let marked = self.events.iter().any(|event| event.waits());
        let standing = if marked { WAITING } else { self.leg.standing };
        Leg { ticks: self.leg.ticks - gone, standing, ..self.leg }
    }
}

/// The lines, and what the calls add up to.
#[derive(Default)]
pub struct Account {
    pub lines: Vec<Line>,
    pub accepted: usize,
    pub timed_out: usize,
    pub cleared: usize,
}

impl Account {
    /// Writes down a call that gave back this number and this count.
    pub fn write(&mut self, call: &Call, number: u8, count: usize) {
        // What was handed in is no ledger.
        if number == 60 {
            return;
        }
        match call {
            Call::Accept { frame, arrival, table, ticks } => {
                let legs = book::legs_for(frame, *arrival, table, *ticks);
                let legs = legs.map_or(Vec::new(), |(_, legs)| legs);
                self.lines.extend(legs.into_iter().take(count).map(Line::new));
                self.accepted += count;
            }
            Call::Answer { by, to, seq, reply } => {
                let event = Event::of_reply(*reply);
                let lines = self.unstruck_mut().filter(|line| line.is_for(*by, *to, *seq));
                lines.for_each(|line| line.events.push(event));
            }
            Call::Tick => {
                self.unstruck_mut().for_each(|line| line.events.push(Event::Tick));
                self.timed_out += count;
            }
            Call::Clear(place) if number == 0 => {
                self.unstruck_mut().skip(*place).take(1).for_each(|line| line.struck = true);
                self.cleared += 1;
            }
            Call::Clear(_) => (),
        }
    }

    pub fn unstruck(&self) -> impl Iterator<Item = &Line> {
        self.lines.iter().filter(|line| !line.struck)
    }

    fn unstruck_mut(&mut self) -> impl Iterator<Item = &mut Line> {
        self.lines.iter_mut().filter(|line| !line.struck)
    }
}
