//! Afternoons of which all is known beforehand, and every order of a few calls.

use crate::account::{Event, Line};
use crate::account_call::Afternoon;
use crate::book::{self, Leg, SIZE};
use crate::book::{ACKNOWLEDGED, OPEN, REFUSED, TIMED_OUT, UNDELIVERABLE, WAITING};
use crate::call::Call;
use crate::door::hex;
use crate::draw::Draw;
use crate::group::{Group, Outcome, Tests};
use crate::ledger::{ACK, NAK};
use crate::router::{self, Entry, Table, BRIGADE};
use crate::wire::Address;

pub const GROUPS: &[Tests] = &[("account by hand", by_hand), ("account orders", orders)];

// ---- the worked afternoon ----

const SOURCE: Address = Address { brigade: 9, node: 1, port: 5 };
const SEQ: usize = 7;
const WAIT: [usize; 3] = [1, 2, 13];

// The three destinations: two that the table leads to, and one that it does not.
const HILL: Address = Address { brigade: 9, node: 20, port: 1 };
const QUAY: Address = Address { brigade: 9, node: 21, port: 1 };
const FAR: Address = Address { brigade: 12, node: 7, port: 1 };

// The frame from 9/1/5 with number 7 to the three, without its check character.
const FRAME: [u8; 18] = [9, 0, 69, 0, 3, 9, 5, 1, 9, 5, 65, 12, 1, 193, 33, 0, 15, 2];

// It comes in by port 4, at a node that sends brigade 9 out by port 3 and knows no other way.
fn comes(check: u8, ticks: usize) -> Call {
    let entry = Entry { kind: BRIGADE, brigade: 9, node: 0, port: 3, on: 1 };
    let mut table = Table { brigade: 9, node: 1, count: 1, entries: vec![entry] }.lay();
    table.resize(router::SIZE, 0xff);
    Call::Accept { frame: [&FRAME[..], &[check]].concat(), arrival: 4, table, ticks }
}

fn by(by: Address, reply: [usize; 3]) -> Call {
    Call::Answer { by, to: SOURCE, seq: SEQ, reply }
}

// Destination, ticks and standing of a leg.
type Shown = (Address, usize, usize);

fn leg((destination, ticks, standing): Shown) -> Leg {
    Leg { source: SOURCE, destination, seq: SEQ, ticks, standing, set: 0, code: 0 }
}

// Gives an image without legs in which every other byte would break a rule.
fn no_legs() -> Vec<u8> {
    [&[0][..], &[0xff; SIZE - 1]].concat()
}

// Makes a call of which all is known beforehand: its number, its count, and the legs after it.
fn known(
    group: &mut Group,
    afternoon: &mut Afternoon,
    call: Call,
    (number, count): (u8, usize),
    listed: &[Shown],
) -> Outcome {
    let came = afternoon.go(group, &call, SIZE)?;
    let legs: Vec<Leg> = listed.iter().copied().map(leg).collect();
    let held = came == (number, count) && afternoon.ledger.starts_with(&book::lay(&legs));
    group.check(held, || {
        let (came, ledger) = (format!("{}, {}", came.0, came.1), hex(&afternoon.ledger));
        format!("{call}, known beforehand\n  expected {number}, {count}\n  came {came}, {ledger}")
    })?;
    Ok(())
}

fn by_hand(group: &mut Group, _: &mut Draw) -> Outcome {
    let mut afternoon = Afternoon::new(no_legs());
    let mut go = |call, came, listed: &[Shown]| known(group, &mut afternoon, call, came, listed);
    let all = [(HILL, 2, OPEN), (QUAY, 2, OPEN), (FAR, 0, UNDELIVERABLE)];
    let called = [(HILL, 2, WAITING), (QUAY, 2, OPEN), (FAR, 0, UNDELIVERABLE)];
    let later = [(HILL, 1, WAITING), (QUAY, 1, OPEN), (FAR, 0, UNDELIVERABLE)];
    let two = [(HILL, 1, WAITING), (QUAY, 1, OPEN)];
    let answered = [(HILL, 0, ACKNOWLEDGED), (QUAY, 1, OPEN)];
    let over = [(HILL, 0, ACKNOWLEDGED), (QUAY, 0, TIMED_OUT)];
    let left = [(QUAY, 0, TIMED_OUT)];
    go(comes(239, 2), (0, 3), &all)?;
    go(comes(239, 2), (62, 0), &all)?;
    go(comes(238, 2), (3, 0), &all)?;
    go(by(HILL, WAIT), (0, 0), &called)?;
    go(Call::Tick, (0, 0), &later)?;
    go(by(FAR, ACK), (64, 0), &later)?;
    go(Call::Clear(0), (65, 0), &later)?;
    go(Call::Clear(2), (0, 0), &two)?;
    go(by(HILL, ACK), (0, 0), &answered)?;
    go(Call::Tick, (0, 1), &over)?;
    go(by(QUAY, ACK), (64, 0), &over)?;
    go(Call::Clear(0), (0, 0), &left)?;
    afternoon.end(group)?;
    let wait = Event::Nak(2, 13);
    let expected: [(Address, &[Event], usize, bool); 3] = [
        (HILL, &[wait, Event::Tick, Event::Ack, Event::Tick], ACKNOWLEDGED, true),
        (QUAY, &[Event::Tick, Event::Tick, Event::Ack], TIMED_OUT, false),
        (FAR, &[Event::Tick, Event::Ack], UNDELIVERABLE, true),
    ];
    let told = |line: &Line| {
        let (to, standing) = (line.leg.destination, line.read().standing);
        format!("{to} {:?} stands {standing}, struck out {}", line.events, line.struck)
    };
    let account: Vec<String> = afternoon.account.lines.iter().map(told).collect();
    let expected = expected.map(|(to, events, standing, struck)| {
        format!("{to} {events:?} stands {standing}, struck out {struck}")
    });
    group.check(account == expected, || {
        format!("the account\n  expected {expected:?}\n  came {account:?}")
    })?;
    stories(group)
}

// ---- one leg ----

// The ticks of the leg to the hill, what reaches it (A and N settle, W waits, t is a tick), and how
// it stands then.
const STORIES: [(usize, &str, usize, usize); 20] = [
    (1, "", 1, OPEN),
    (1, "t", 0, TIMED_OUT),
    (1, "A", 0, ACKNOWLEDGED),
    (1, "N", 0, REFUSED),
    (1, "W", 1, WAITING),
    (1, "Wt", 0, TIMED_OUT),
    (1, "At", 0, ACKNOWLEDGED),
    (1, "tA", 0, TIMED_OUT),
    (1, "tN", 0, TIMED_OUT),
    (1, "tW", 0, TIMED_OUT),
    (2, "AN", 0, ACKNOWLEDGED),
    (2, "NA", 0, REFUSED),
    (2, "AW", 0, ACKNOWLEDGED),
    (2, "WWA", 0, ACKNOWLEDGED),
    (2, "tWA", 0, ACKNOWLEDGED),
    (2, "tWt", 0, TIMED_OUT),
    (2, "WtWtA", 0, TIMED_OUT),
    (3, "tWt", 1, WAITING),
    (3, "ttNtt", 0, REFUSED),
    (65535, "tttW", 65532, WAITING),
];

fn stories(group: &mut Group) -> Outcome {
    for (given, story, ticks, standing) in STORIES {
        let mut afternoon = Afternoon::new(no_legs());
        afternoon.go(group, &comes(239, given), SIZE)?;
        for letter in story.chars() {
            let call = match letter {
                't' => Call::Tick,
                'A' => by(HILL, ACK),
                'N' => by(HILL, NAK),
                _ => by(HILL, WAIT),
            };
            afternoon.go(group, &call, SIZE)?;
        }
        let leg = book::legs(&afternoon.ledger)[0];
        group.check((leg.ticks, leg.standing) == (ticks, standing), || {
            let came = format!("came {} with {} ticks", leg.standing, leg.ticks);
            format!("{story} of {given} ticks\n  expected {standing} with {ticks} ticks\n  {came}")
        })?;
        afternoon.end(group)?;
    }
    Ok(())
}

// ---- every order ----

const AFTER_THE_FIRST: u32 = 5;

// Every order of a few calls after the first.
fn orders(group: &mut Group, _: &mut Draw) -> Outcome {
    for ticks in [1, 2] {
        let calls = [
            comes(239, ticks),
            by(HILL, ACK),
            by(HILL, NAK),
            by(HILL, WAIT),
            by(QUAY, ACK),
            by(FAR, ACK),
            Call::Tick,
            Call::Clear(0),
            Call::Clear(1),
        ];
        for order in 0..calls.len().pow(AFTER_THE_FIRST) {
            let mut afternoon = Afternoon::new(no_legs());
            afternoon.go(group, &calls[0], SIZE)?;
            let mut rest = order;
            for _ in 0..AFTER_THE_FIRST {
                afternoon.go(group, &calls[rest % calls.len()], SIZE)?;
                rest /= calls.len();
            }
            afternoon.end(group)?;
        }
    }
    Ok(())
}
