//! Drawn afternoons: thousands of calls on one ledger image from an empty one on, many of them
//! refused, compared with the tutor's account after each call. In "ledger sequences" a ledger is
//! changed between calls, so that it has no history.

use crate::account::{Account, Event, Line};
use crate::account_call::Afternoon;
use crate::book::{self, Leg};
use crate::book::{ACKNOWLEDGED, OPEN, REFUSED, TIMED_OUT, UNDELIVERABLE, WAITING};
use crate::call::Call;
use crate::draw::Draw;
use crate::group::{Group, Outcome, Tally, Tests};
use crate::routing::draw_table;
use crate::sequences::{draw_call, Shares};
use std::collections::VecDeque;

pub const GROUPS: &[Tests] = &[("account drawn", drawn)];

const AFTERNOONS: usize = 24;
const CALLS: usize = 5_000;

// Frames that may come once more.
const LATEST: usize = 6;

// In some stretches the ledger fills up, in others it is cleared; ticks come seldom or often.
const STRETCHES: [Shares; 5] = [
    Shares { accept: 9, answer: 3, tick: 1, clear: 1 },
    Shares { accept: 4, answer: 8, tick: 0, clear: 2 },
    Shares { accept: 3, answer: 5, tick: 8, clear: 1 },
    Shares { accept: 2, answer: 2, tick: 1, clear: 9 },
    Shares { accept: 5, answer: 6, tick: 3, clear: 5 },
];

// How often each number came, and how the legs stood that a call was for.
struct Tallies {
    accept: Tally,
    answer: Tally,
    tick: Tally,
    clear: Tally,
    added: Tally,
    again: Tally,
    again_cleared: Tally,
    settled: Tally,
    waits: Tally,
    late: Tally,
    late_cleared: Tally,
    ended: Tally,
    cleared: Tally,
    cleared_between: Tally,
    kept: Tally,
}

impl Tallies {
    fn new() -> Tallies {
        Tallies {
            accept: Tally::new("account, pz_accept"),
            answer: Tally::new("account, pz_answer"),
            tick: Tally::new("account, pz_tick"),
            clear: Tally::new("account, pz_clear"),
            added: Tally::new("legs accepted, their standings"),
            again: Tally::new("legs accepted again, the listed ones' standings"),
            again_cleared: Tally::new("legs accepted again, the cleared ones' standings"),
            settled: Tally::new("legs that an answer settled, their standings before"),
            waits: Tally::new("legs that were to wait, their standings before"),
            late: Tally::new("legs that an answer came too late for, their standings"),
            late_cleared: Tally::new("legs that an answer came for when cleared, their standings"),
            ended: Tally::new("legs that a tick ended, their standings before"),
            cleared: Tally::new("legs cleared, their standings"),
            cleared_between: Tally::new("legs cleared from between others, their standings"),
            kept: Tally::new("legs that were not cleared, their standings"),
        }
    }

    fn settle(&self, group: &mut Group) -> Outcome {
        let open = [OPEN, WAITING].map(|standing| standing as u8);
        let over = [ACKNOWLEDGED, REFUSED, UNDELIVERABLE, TIMED_OUT].map(|standing| standing as u8);
        let added = [OPEN, UNDELIVERABLE].map(|standing| standing as u8);
        self.accept.settle(group, &[0, 1, 2, 3, 4, 7, 8, 9, 50, 51, 60, 61, 62, 63])?;
        self.answer.settle(group, &[0, 60, 64])?;
        self.tick.settle(group, &[0, 60])?;
        self.clear.settle(group, &[0, 60, 65])?;
        self.added.settle(group, &added)?;
        for tally in [&self.settled, &self.waits, &self.ended, &self.kept] {
            tally.settle(group, &open)?;
        }
        let late = [&self.again, &self.again_cleared, &self.late, &self.late_cleared];
        for tally in late.into_iter().chain([&self.cleared, &self.cleared_between]) {
            tally.settle(group, &over)?;
        }
        Ok(())
    }

    // What a call that is not refused with 60 finds.
    fn see(&mut self, account: &Account, call: &Call) {
        let standing = |line: &Line| line.read().standing as u8;
        match call {
            Call::Accept { .. } => (),
            Call::Answer { by, to, seq, reply } => {
                for line in account.lines.iter().filter(|line| line.is_for(*by, *to, *seq)) {
                    let tally = match (line.struck, line.read().is_open()) {
                        (true, _) => &mut self.late_cleared,
                        (_, false) => &mut self.late,
                        _ if Event::of_reply(*reply).waits() => &mut self.waits,
                        _ => &mut self.settled,
                    };
                    tally.saw(standing(line));
                }
            }
            Call::Tick => {
                let ending = |line: &&Line| line.read().is_open() && line.read().ticks == 1;
                account.unstruck().filter(ending).for_each(|line| self.ended.saw(standing(line)));
            }
            Call::Clear(place) => {
                let lines: Vec<&Line> = account.unstruck().collect();
                match lines.get(*place) {
                    Some(line) if line.read().is_open() => self.kept.saw(standing(line)),
                    Some(line) => {
                        self.cleared.saw(standing(line));
                        if 0 < *place && *place + 1 < lines.len() {
                            self.cleared_between.saw(standing(line));
                        }
                    }
                    None => (),
                }
            }
        }
    }

    // The lines that an Accept added, beside the older ones for the same leg.
    fn see_added(&mut self, account: &Account, count: usize) {
        let (older, added) = account.lines.split_at(account.lines.len() - count);
        for line in added {
            self.added.saw(line.leg.standing as u8);
            let leg = line.leg;
            for older in older.iter().filter(|o| o.is_for(leg.destination, leg.source, leg.seq)) {
                let tally = if older.struck { &mut self.again_cleared } else { &mut self.again };
                tally.saw(older.read().standing as u8);
            }
        }
    }
}

// Changes one call of four: a frame comes once more, an answer says wait, an open leg is to be
// cleared.
fn change_call(draw: &mut Draw, call: Call, legs: &[Leg], latest: &VecDeque<Call>) -> Call {
    let open: Vec<usize> = (0..legs.len()).filter(|&place| legs[place].is_open()).collect();
    match (call, draw.below(4)) {
        (Call::Accept { .. }, 0) if !latest.is_empty() => latest[draw.below(latest.len())].clone(),
        (Call::Answer { by, to, seq, .. }, 0) => Call::Answer { by, to, seq, reply: [1, 2, 13] },
        (Call::Clear(_), 0) if !open.is_empty() => Call::Clear(open[draw.below(open.len())]),
        (call, _) => call,
    }
}

fn drawn(group: &mut Group, draw: &mut Draw) -> Outcome {
    let mut tallies = Tallies::new();
    for _ in 0..AFTERNOONS {
        afternoon(group, draw, &mut tallies)?;
    }
    tallies.settle(group)
}

fn afternoon(group: &mut Group, draw: &mut Draw, tallies: &mut Tallies) -> Outcome {
    // An empty ledger in noise, often one with bytes behind it.
    let size = draw.one_of(&[book::SIZE, book::SIZE, book::SIZE + 1, book::SIZE + 60]);
    let mut ledger = draw.bytes(size);
    ledger[0] = 0;
    let mut afternoon = Afternoon::new(ledger);
    let mut table = draw_table(draw);
    let mut shares = &STRETCHES[0];
    let mut latest: VecDeque<Call> = VecDeque::new();
    for _ in 0..CALLS {
        if draw.below(100) == 0 {
            table = draw_table(draw);
            shares = &STRETCHES[draw.below(STRETCHES.len())];
        }
        let legs = book::legs(&afternoon.ledger);
        let call = draw_call(draw, shares, &table, &legs);
        let call = change_call(draw, call, &legs, &latest);
        // Too few of the image's bytes are no ledger.
        let cut = draw.one_of(&[0, 1, 1906, 1920]);
        let handed_in = if draw.below(20) == 0 { cut } else { size };
        if handed_in == size {
            tallies.see(&afternoon.account, &call);
        }
        let (number, count) = afternoon.go(group, &call, handed_in)?;
        match call {
            Call::Accept { .. } => tallies.accept.saw(number),
            Call::Answer { .. } => tallies.answer.saw(number),
            Call::Tick => tallies.tick.saw(number),
            Call::Clear(_) => tallies.clear.saw(number),
        }
        if let Call::Accept { .. } = call {
            tallies.see_added(&afternoon.account, count);
            if count > 0 {
                latest.push_front(call);
                latest.truncate(LATEST);
            }
        }
    }
    afternoon.end(group)
}
