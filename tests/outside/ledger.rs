//! pz_accept, pz_answer, pz_tick and pz_clear against the second ledger: the cases of document 01,
//! both sides of every limit, and every value of the fields.

use crate::book::{self, Leg, MOST_LEGS};
use crate::book::{ACKNOWLEDGED, OPEN, REFUSED, TIMED_OUT, UNDELIVERABLE, WAITING};
use crate::call::Call;
use crate::door::{Answer, Expected, Given};
use crate::draw::Draw;
use crate::envelope;
use crate::group::{Group, Outcome, Stop, Tests};
use crate::router::{self, Table};
use crate::routing;
use crate::wire::{self, Address, Envelope};

pub const GROUPS: &[Tests] = &[
    ("ledger stories", stories),
    ("ledger room", room),
    ("ledger routes", routes),
    ("ledger offers", offers),
    ("ledger in the way", in_the_way),
    ("ledger answers", answers),
    ("ledger ticks", ticks),
    ("ledger clears", clears),
    ("ledger sweeps", sweeps),
];

pub type Change = fn(&mut Leg);

// ---- ledgers and calls ----

// Gives an image that starts with these bytes; whatever would count after them breaks a rule.
fn image(bytes: &[u8]) -> Vec<u8> {
    let mut image = bytes.to_vec();
    image.resize(book::SIZE, 0xff);
    image
}

pub fn image_of(legs: &[Leg]) -> Vec<u8> {
    image(&book::lay(legs))
}

/// Gives an open leg that is like no other.
pub fn leg(number: usize) -> Leg {
    Leg {
        source: Address::new(8, 2 + number, 3),
        destination: Address::new(12, 7, 1),
        seq: 7,
        ticks: 9 + number,
        standing: OPEN,
        set: 0,
        code: 0,
    }
}

/// Sets a standing and ticks, whether or not they go together.
pub fn stand(leg: &mut Leg, standing: usize, ticks: usize) {
    *leg = Leg { standing, ticks, set: 0, code: 0, ..*leg };
}

/// Sets a standing with ticks that go with it, and a reason whether or not that does.
pub fn reason(leg: &mut Leg, standing: usize, set: usize, code: usize) {
    *leg = Leg { standing, ticks: usize::from(book::is_open(standing)), set, code, ..*leg };
}

pub fn settled(leg: Leg, standing: usize) -> Leg {
    Leg { ticks: 0, standing, ..leg }
}

pub fn open_legs(count: usize) -> Vec<Leg> {
    (0..count).map(leg).collect()
}

/// Gives legs of each standing in turn: the first open, the second acknowledged.
pub fn mixed_legs(count: usize) -> Vec<Leg> {
    let mixed = |number: usize| match number % 6 {
        OPEN => leg(number),
        WAITING => Leg { standing: WAITING, ..leg(number) },
        REFUSED => Leg { set: number, code: 255 - number, ..settled(leg(number), REFUSED) },
        standing => settled(leg(number), standing),
    };
    (0..count).map(mixed).collect()
}

/// What an Accept is offered beside the ledger, as values.
pub struct Offer {
    pub envelope: Envelope,
    pub arrival: usize,
    pub table: Table,
    pub table_size: usize,
    pub ticks: usize,
}

impl Offer {
    pub fn frame(&self) -> Vec<u8> {
        wire::lay(&self.envelope, &vec![0x5a; self.envelope.length])
    }

    /// Gives the Accept, with this frame in the place of the right one.
    pub fn accept_as(&self, frame: Vec<u8>) -> Call {
        let mut table = self.table.lay();
        table.resize(self.table_size, 0xff);
        Call::Accept { frame, arrival: self.arrival, table, ticks: self.ticks }
    }

    pub fn accept(&self) -> Call {
        self.accept_as(self.frame())
    }
}

/// Gives a message that began here, with table T.
pub fn offer(destinations: usize, ack: usize) -> Offer {
    let mut envelope = Envelope { ack, ..envelope::plain() };
    envelope::spread(&mut envelope, destinations);
    let table = routing::table_t();
    Offer { envelope, arrival: 0, table, table_size: router::SIZE, ticks: 5 }
}

pub const ACK: [usize; 3] = [0, 0, 0];
pub const NAK: [usize; 3] = [1, 3, 25];

/// Gives the answer that settles this leg.
pub fn answer(leg: &Leg, reply: [usize; 3]) -> Call {
    Call::Answer { by: leg.destination, to: leg.source, seq: leg.seq, reply }
}

/// Gives calls of each kind; all go through on a sound ledger that begins as the mixed one does.
pub fn calls(legs: usize) -> Vec<Call> {
    let mut calls = vec![
        Call::Tick,
        offer(1, 0).accept(),
        answer(&leg(0), ACK),
        answer(&leg(0), NAK),
        Call::Clear(1),
    ];
    if legs < MOST_LEGS {
        calls.push(offer(1, 1).accept());
    }
    calls
}

/// Makes a call whose number is known beforehand.
pub fn known(
    group: &mut Group,
    name: &str,
    number: u8,
    call: &Call,
    ledger: &[u8],
) -> Result<Answer, Stop> {
    let (came, _) = call.attempt(group, name, ledger)?;
    group.known(name, number, came.number)?;
    Ok(came)
}

// Makes a call whose number, and the one beside it, are known beforehand.
fn known_beside(
    group: &mut Group,
    name: &str,
    number: u8,
    beside: usize,
    call: &Call,
    ledger: &[u8],
) -> Result<Answer, Stop> {
    let came = known(group, name, number, call, ledger)?;
    let number = came.first_beside();
    group.check(number == beside, || format!("{name}\n  expected {beside}\n  came {number}"))?;
    Ok(came)
}

/// Makes each of the calls on a ledger; the number is known beforehand.
pub fn known_for_all(group: &mut Group, name: &str, number: u8, ledger: &[u8]) -> Outcome {
    for call in calls(ledger[0].into()) {
        known(group, name, number, &call, ledger)?;
    }
    Ok(())
}

// Makes a call of which all is known beforehand, and hands the ledger on.
fn step(
    group: &mut Group,
    name: &str,
    ledger: &mut Vec<u8>,
    call: &Call,
    expected: Expected,
) -> Outcome {
    let (came, _) = call.attempt(group, name, ledger)?;
    group.compare(&came, &expected, || format!("{name}: {call}, known beforehand"))?;
    *ledger = came.bytes().to_vec();
    Ok(())
}

// ---- named cases ----

fn stories(group: &mut Group, _: &mut Draw) -> Outcome {
    two_sources(group)?;
    two_ticks(group)?;
    one_life(group)
}

fn two_sources(group: &mut Group) -> Outcome {
    let (one, two) = (Address::new(9, 1, 5), Address::new(9, 2, 5));
    let by = Address::new(9, 20, 1);
    let first = [9, 0, 1, 5, 9, 0, 20, 1, 0, 7, 0, 3, 0, 0, 0];
    let second = [9, 0, 2, 5, 9, 0, 20, 1, 0, 7, 1, 4, 0, 0, 0];
    let mut ledger = image(&[&[2][..], &first, &second].concat());

    let exchanged = Call::Answer { by: two, to: by, seq: 7, reply: ACK };
    step(group, "who and whom exchanged", &mut ledger, &exchanged, Err(64))?;
    let other = Call::Answer { by, to: two, seq: 8, reply: ACK };
    step(group, "another sequence number", &mut ledger, &other, Err(64))?;

    let acknowledged = [9, 0, 2, 5, 9, 0, 20, 1, 0, 7, 0, 0, 1, 0, 0];
    let ack = Call::Answer { by, to: two, seq: 7, reply: ACK };
    let after = Given::new([&[2][..], &first, &acknowledged].concat(), &[]);
    step(group, "P11", &mut ledger, &ack, Ok(after))?;
    step(group, "the same ACK again", &mut ledger, &ack, Err(64))?;

    let refused = [9, 0, 1, 5, 9, 0, 20, 1, 0, 7, 0, 0, 2, 3, 25];
    let nak = Call::Answer { by, to: one, seq: 7, reply: NAK };
    let after = Given::new([&[2][..], &refused, &acknowledged].concat(), &[]);
    step(group, "a NAK for the other", &mut ledger, &nak, Ok(after))
}

fn two_ticks(group: &mut Group) -> Outcome {
    let mut ledger = image(&[1, 9, 0, 1, 5, 9, 0, 20, 1, 0, 7, 0, 2, 0, 0, 0]);
    let after = Given::new(vec![1, 9, 0, 1, 5, 9, 0, 20, 1, 0, 7, 0, 1, 0, 0, 0], &[0]);
    step(group, "P12, first tick", &mut ledger, &Call::Tick, Ok(after))?;
    let after = Given::new(vec![1, 9, 0, 1, 5, 9, 0, 20, 1, 0, 7, 0, 0, 4, 0, 0], &[1]);
    step(group, "P12, second tick", &mut ledger, &Call::Tick, Ok(after))?;
    let (by, to) = (Address::new(9, 20, 1), Address::new(9, 1, 5));
    let ack = Call::Answer { by, to, seq: 7, reply: ACK };
    step(group, "P12, an ACK after that", &mut ledger, &ack, Err(64))?;
    let after = Given::new(vec![1, 9, 0, 1, 5, 9, 0, 20, 1, 0, 7, 0, 0, 4, 0, 0], &[0]);
    step(group, "P12, a tick after that", &mut ledger, &Call::Tick, Ok(after))
}

// A message from 9/1/2 to 9/20/1 and 255/1023/63, sequence number 5, through table T.
fn one_life(group: &mut Group) -> Outcome {
    let name = "one life";
    let (_, head, contents, check) = envelope::BY_HAND[0];
    let frame = [head, contents, &[check]].concat();
    let accept_from = |arrival: usize, ticks: usize| {
        Offer { arrival, ticks, ..offer(0, 0) }.accept_as(frame.clone())
    };
    let nak = Call::Answer {
        by: Address::new(9, 20, 1),
        to: Address::new(9, 1, 2),
        seq: 5,
        reply: [255, 3, 25],
    };
    let open = [9, 0, 1, 2, 9, 0, 20, 1, 0, 5, 1, 2, 0, 0, 0];
    let later = [9, 0, 1, 2, 9, 0, 20, 1, 0, 5, 1, 1, 0, 0, 0];
    let refused = [9, 0, 1, 2, 9, 0, 20, 1, 0, 5, 0, 0, 2, 3, 25];
    let routed = [9, 0, 1, 2, 255, 3, 255, 63, 0, 5, 255, 255, 0, 0, 0];
    let unrouted = [9, 0, 1, 2, 255, 3, 255, 63, 0, 5, 0, 0, 3, 0, 0];
    let last = [9, 0, 1, 2, 9, 0, 20, 1, 0, 5, 255, 255, 0, 0, 0];
    let free = [0; book::LEG_SIZE];
    let ledger = &mut image(&[0]);
    let mut go = |call: &Call, bytes: &[&[u8]], beside: &[usize]| {
        step(group, name, ledger, call, Ok(Given::new(bytes.concat(), beside)))
    };
    // Everything leaves by port 4, but what came from there has no such route.
    go(&accept_from(4, 258), &[&[2], &open, &unrouted], &[2, 0])?;
    go(&Call::Tick, &[&[2], &later, &unrouted], &[0])?;
    go(&nak, &[&[2], &refused, &unrouted], &[])?;
    go(&Call::Clear(0), &[&[1], &unrouted, &free], &[])?;
    go(&accept_from(0, 65535), &[&[3], &unrouted, &last, &routed], &[2, 0])?;
    go(&Call::Clear(0), &[&[2], &last, &routed, &free], &[])?;
    for (number, call) in [
        (62, accept_from(0, 1)),
        (65, Call::Clear(0)),
        (65, Call::Clear(1)),
        (65, Call::Clear(2)),
        (51, accept_from(64, 1)),
        (61, accept_from(0, 0)),
    ] {
        step(group, name, ledger, &call, Err(number))?;
    }
    Ok(())
}

fn no_routes() -> Table {
    Table { count: 0, ..routing::table_t() }
}

// Number, legs in the ledger, destinations.
const ROOM: [(u8, usize, usize); 13] = [
    (0, 0, 1),
    (0, 0, 63),
    (0, 1, 1),
    (0, 65, 63),
    (63, 66, 63),
    (0, 125, 3),
    (0, 126, 2),
    (63, 126, 3),
    (63, 126, 63),
    (0, 127, 1),
    (63, 127, 2),
    (63, 128, 1),
    (63, 128, 63),
];

fn room(group: &mut Group, _: &mut Draw) -> Outcome {
    for (number, legs, destinations) in ROOM {
        let ledger = image_of(&mixed_legs(legs));
        let name = format!("{destinations} destinations beside {legs} legs");
        let call = offer(destinations, 1).accept();
        let added = if number == 0 { destinations } else { 0 };
        known_beside(group, &name, number, added, &call, &ledger)?;
        let call = offer(destinations, 0).accept();
        known_beside(group, &name, 0, 0, &call, &ledger)?;
    }
    Ok(())
}

// Where a leg's bytes have its standing.
const STANDING: usize = 12;

// Arrival port, entries of table T that count, and the standings of three legs: to 9/1/6, which
// is local, to 9/20/1 and to 12/7/1.
const ROUTES: [(usize, usize, [usize; 3]); 7] = [
    (0, 3, [OPEN, OPEN, OPEN]),
    (3, 3, [OPEN, OPEN, OPEN]),
    (4, 3, [OPEN, OPEN, UNDELIVERABLE]),
    (0, 2, [OPEN, OPEN, UNDELIVERABLE]),
    (3, 2, [OPEN, UNDELIVERABLE, UNDELIVERABLE]),
    (0, 1, [OPEN, UNDELIVERABLE, UNDELIVERABLE]),
    (0, 0, [OPEN, UNDELIVERABLE, UNDELIVERABLE]),
];

fn routes(group: &mut Group, _: &mut Draw) -> Outcome {
    let ledger = image_of(&mixed_legs(5));
    for (arrival, count, standings) in ROUTES {
        let mut offer = Offer { arrival, ..offer(3, 1) };
        let stations = [(9, 1, 6), (9, 20, 1), (12, 7, 1)];
        offer.envelope.destinations = stations.map(|(b, n, p)| Address::new(b, n, p)).to_vec();
        offer.table.count = count;
        let name = format!("{count} entries, from port {arrival}");
        let came = known_beside(group, &name, 0, 3, &offer.accept(), &ledger)?;
        let standing = |number: usize| came.bytes()[book::place(number)][STANDING];
        let added = [5, 6, 7].map(|number| usize::from(standing(number)));
        group.check(added == standings, || {
            format!("{name}\n  expected standings {standings:?}\n  came {added:?}")
        })?;
    }
    Ok(())
}

// Number, ticks, whether the frame asks for an acknowledgement.
const TICKS: [(u8, usize, usize); 8] = [
    (61, 0, 1),
    (0, 0, 0),
    (0, 1, 1),
    (0, 1, 0),
    (0, 255, 1),
    (0, 256, 1),
    (0, 65535, 1),
    (0, 65535, 0),
];

fn offers(group: &mut Group, _: &mut Draw) -> Outcome {
    let ledger = image_of(&mixed_legs(5));
    for (number, ticks, ack) in TICKS {
        let name = format!("{ticks} ticks, ack {ack}");
        let call = Offer { ticks, ..offer(3, ack) }.accept();
        known(group, &name, number, &call, &ledger)?;
        let call = Offer { ticks, table: no_routes(), ..offer(3, ack) }.accept();
        known(group, &name, number, &call, &ledger)?;
    }
    for (number, arrival) in [(0, 0), (0, 3), (0, 63), (51, 64), (51, 67), (51, 255)] {
        let name = format!("arrival port {arrival}");
        for ack in [0, 1] {
            let call = Offer { arrival, ..offer(3, ack) }.accept();
            known(group, &name, number, &call, &ledger)?;
        }
    }
    Ok(())
}

// An open leg with a message's source and sequence number stands in its way (3.3.4).
const IN_THE_WAY: [(&str, u8, Change); 17] = [
    ("to another destination", 62, |_| ()),
    ("to the same destination", 62, |l| l.destination = Address::new(9, 20, 1)),
    ("with 65535 ticks", 62, |l| l.ticks = 65535),
    ("waiting", 62, |l| stand(l, WAITING, 1)),
    ("acknowledged", 0, |l| stand(l, ACKNOWLEDGED, 0)),
    ("refused", 0, |l| reason(l, REFUSED, 3, 25)),
    ("undeliverable", 0, |l| stand(l, UNDELIVERABLE, 0)),
    ("timed out", 0, |l| stand(l, TIMED_OUT, 0)),
    ("another source brigade", 0, |l| l.source.brigade = 8),
    ("another source node", 0, |l| l.source.node = 0),
    ("another source node's high byte", 0, |l| l.source.node = 257),
    ("another source port", 0, |l| l.source.port = 3),
    ("another sequence number", 0, |l| l.seq = 301),
    ("another sequence number's high byte", 0, |l| l.seq = 44),
    ("another sequence number's top bit", 0, |l| l.seq = 300 + 16384),
    ("source and destination exchanged", 0, |l| {
        l.source = Address::new(9, 20, 1);
        l.destination = Address::new(9, 1, 2);
    }),
    ("another source to the same destination", 0, |l| {
        l.source = Address::new(9, 2, 2);
        l.destination = Address::new(9, 20, 1);
    }),
];

fn in_the_way(group: &mut Group, _: &mut Draw) -> Outcome {
    for (name, number, change) in IN_THE_WAY {
        for (legs, place) in [(1, 0), (5, 0), (5, 4), (125, 0), (125, 60), (125, 124)] {
            let mut legs = mixed_legs(legs);
            legs[place] = Leg { source: Address::new(9, 1, 2), seq: 300, ..leg(1) };
            change(&mut legs[place]);
            let mut ledger = image_of(&legs);
            known(group, name, number, &offer(3, 1).accept(), &ledger)?;
            known(group, name, 0, &offer(3, 0).accept(), &ledger)?;
            let unrouted = Offer { table: no_routes(), ..offer(3, 1) };
            known(group, name, number, &unrouted.accept(), &ledger)?;
            ledger[0] = place as u8;
            known(group, name, 0, &offer(3, 1).accept(), &ledger)?;
        }
    }
    Ok(())
}

// A NAK that says wait leaves its leg open and its ticks as they were; a second one changes nothing;
// what settles comes after it. Reasons that only look like it settle.
fn waits(group: &mut Group) -> Outcome {
    for (count, place) in [(1, 0), (2, 1), (128, 0), (128, 64), (128, 127)] {
        let legs = open_legs(count);
        let wait = answer(&legs[place], [1, 2, 13]);
        let came = known(group, "wait", 0, &wait, &image_of(&legs))?;
        let mut marked = legs.clone();
        marked[place].standing = WAITING;
        let first = came.bytes().to_vec();
        group.check(first == image_of(&marked), || {
            "wait: another leg than its own changed".into()
        })?;
        let again = known(group, "wait again", 0, &wait, &first)?;
        group.check(again.bytes() == &first[..], || "wait again: a byte changed".into())?;
        known(group, "a waiting leg cleared", 65, &Call::Clear(place), &first)?;
        for reply in [ACK, NAK, [1, 2, 9], [1, 1, 9], [1, 1, 13], [1, 2, 12], [1, 13, 2]] {
            let call = answer(&legs[place], reply);
            let came = known(group, "an answer after a wait", 0, &call, &first)?;
            known(group, "a second one", 64, &call, came.bytes())?;
            known(group, "a wait after it", 64, &wait, came.bytes())?;
        }
        marked[place].ticks = 1;
        let came =
            known(group, "the last tick of a waiting leg", 0, &Call::Tick, &image_of(&marked))?;
        known(group, "an answer after it", 64, &answer(&legs[place], ACK), came.bytes())?;
    }
    Ok(())
}

fn answers(group: &mut Group, _: &mut Draw) -> Outcome {
    let nak = [1, 2, 128, 255].map(|nak| [nak, 0, 0]);
    let replies = [&nak[..], &[ACK, NAK, [0, 255, 255], [255, 255, 255]]].concat();
    for reply in replies {
        for (count, place) in [(1, 0), (2, 0), (2, 1), (128, 0), (128, 64), (128, 127)] {
            let mut legs = open_legs(count);
            let call = answer(&legs[place], reply);
            let mut ledger = image_of(&legs);
            let came = known(group, "an open leg", 0, &call, &ledger)?;
            known(group, "a leg answered before", 64, &call, came.bytes())?;
            ledger[0] = place as u8;
            known(group, "an open leg past the count", 64, &call, &ledger)?;
            for standing in [ACKNOWLEDGED, REFUSED, UNDELIVERABLE, TIMED_OUT] {
                legs[place] = settled(leg(place), standing);
                known(group, "a settled leg", 64, &call, &image_of(&legs))?;
            }
        }
        // Settled legs with the same reference stand before and after the open one.
        let twin = settled(leg(3), ACKNOWLEDGED);
        let ledger = image_of(&[twin, settled(leg(3), TIMED_OUT), leg(3), twin]);
        known(group, "one open leg of four alike", 0, &answer(&leg(3), reply), &ledger)?;
    }
    waits(group)?;
    // All alike but for one field each.
    let one = leg(0);
    let many = [
        one,
        Leg { source: Address::new(9, 2, 3), ..one },
        Leg { source: Address::new(8, 258, 3), ..one },
        Leg { source: Address::new(8, 2, 4), ..one },
        Leg { destination: Address::new(11, 7, 1), ..one },
        Leg { destination: Address::new(12, 6, 1), ..one },
        Leg { destination: Address::new(12, 263, 1), ..one },
        Leg { destination: Address::new(12, 7, 2), ..one },
        Leg { seq: 6, ..one },
        Leg { seq: 263, ..one },
        Leg { seq: 16391, ..one },
        Leg { source: one.destination, destination: one.source, ..one },
    ];
    for (place, leg) in many.iter().enumerate() {
        for reply in [ACK, NAK] {
            let ledger = image_of(&many);
            known(group, "one of many neighbours", 0, &answer(leg, reply), &ledger)?;
            let others = [&many[..place], &many[place + 1..]].concat();
            let ledger = image_of(&others);
            known(group, "none but neighbours", 64, &answer(leg, reply), &ledger)?;
        }
    }
    Ok(())
}

fn ticks(group: &mut Group, _: &mut Draw) -> Outcome {
    for count in [0, 1, 2, 127, 128] {
        for left in [1, 2, 255, 256, 257, 65535] {
            for mut legs in [open_legs(count), mixed_legs(count)] {
                let mut open = 0;
                for leg in legs.iter_mut().filter(|leg| leg.is_open()) {
                    leg.ticks = left;
                    open += 1;
                }
                let name = format!("{count} legs, {open} open with {left} ticks");
                let ended = if left == 1 { open } else { 0 };
                known_beside(group, &name, 0, ended, &Call::Tick, &image_of(&legs))?;
            }
        }
    }
    let longest = Leg { ticks: 65535, ..leg(0) };
    let mut ledger = image_of(&[longest, settled(leg(1), REFUSED)]);
    for tick in 1..=65536 {
        let ended = usize::from(tick == 65535);
        let name = "the longest wait";
        let came = known_beside(group, name, 0, ended, &Call::Tick, &ledger)?;
        ledger = came.bytes().to_vec();
    }
    Ok(())
}

fn clears(group: &mut Group, _: &mut Draw) -> Outcome {
    for count in [0, 1, 2, 5, 6, 127, 128] {
        let legs = mixed_legs(count);
        let ledger = image_of(&legs);
        for place in 0..=1024 {
            let is_settled = legs.get(place).map_or(false, |leg| !leg.is_open());
            let number = if is_settled { 0 } else { 65 };
            let name = format!("place {place} of {count} legs");
            known(group, &name, number, &Call::Clear(place), &ledger)?;
        }
        // Numbers whose low bits alone would be a place.
        for bit in 8..usize::BITS {
            for place in [0, 1, 127] {
                let name = "a place far past the count";
                known(group, name, 65, &Call::Clear(place | 1 << bit), &ledger)?;
            }
        }
        known(group, "the greatest place", 65, &Call::Clear(usize::MAX), &ledger)?;
    }
    // Down to none, from either end.
    for from_last in [false, true] {
        let all = open_legs(MOST_LEGS).into_iter().map(|leg| settled(leg, TIMED_OUT));
        let mut ledger = image_of(&all.collect::<Vec<Leg>>());
        for left in (0..MOST_LEGS).rev() {
            let place = if from_last { left } else { 0 };
            let came = known(group, "one after the other", 0, &Call::Clear(place), &ledger)?;
            ledger = came.bytes().to_vec();
        }
        let is_clear = ledger == [0; book::SIZE];
        group.check(is_clear, || "cleared places are not all 0".to_string())?;
        known(group, "none is left", 65, &Call::Clear(0), &ledger)?;
    }
    Ok(())
}

fn sweeps(group: &mut Group, _: &mut Draw) -> Outcome {
    let ledger = image_of(&mixed_legs(3));
    let (by, to, seq) = (leg(0).destination, leg(0).source, leg(0).seq);
    for word in 0..1 << 16 {
        let (high, low) = (word >> 8, word & 255);
        let answers = [
            (Address { node: word, ..by }, to, seq, ACK),
            (by, Address { node: word, ..to }, seq, ACK),
            (by, to, word, ACK),
            (Address { brigade: high, port: low, ..by }, to, seq, NAK),
            (by, Address { brigade: high, port: low, ..to }, seq, NAK),
            (by, to, seq, [1, high, low]),
            (by, to, seq, [high, low, 25]),
        ];
        for (by, to, seq, reply) in answers {
            let call = Call::Answer { by, to, seq, reply };
            call.attempt(group, "every field of an answer", &ledger)?;
        }
        let call = Offer { ticks: word, arrival: low % 64, ..offer(2, 1) }.accept();
        call.attempt(group, "every number of ticks", &ledger)?;
    }
    Ok(())
}
