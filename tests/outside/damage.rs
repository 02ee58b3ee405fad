//! Ledgers that break a rule, and those that just keep it, for each of the four calls; and the
//! order in which the calls give their refusals.

use crate::book::{self, Leg, MOST_LEGS};
use crate::book::{ACKNOWLEDGED, OPEN, REFUSED, TIMED_OUT, UNDELIVERABLE, WAITING};
use crate::call::Call;
use crate::draw::Draw;
use crate::envelope::{self, CARRIED};
use crate::group::{Group, Outcome, Tests};
use crate::ledger::{answer, calls, known, known_for_all, offer, Change, Offer, ACK, NAK};
use crate::ledger::{image_of, leg, mixed_legs, open_legs, reason, settled, stand};
use crate::router;
use crate::rules::{break_rules, Breach};
use crate::wire::Address;

pub const GROUPS: &[Tests] = &[
    ("ledger sizes", sizes),
    ("ledger damage", damage),
    ("ledger twins", twins),
    ("ledger bytes", bytes),
    ("ledger order", order),
];

// Image sizes, and the number for them.
const SIZES: [(u8, usize); 9] = [
    (60, 0),
    (60, 1),
    (60, 16),
    (60, 1906),
    (60, 1920),
    (0, 1921),
    (0, 1922),
    (0, 1936),
    (0, 1 << 16),
];

fn sizes(group: &mut Group, _: &mut Draw) -> Outcome {
    for (number, size) in SIZES {
        for count in [2, 127, 128] {
            let mut ledger = image_of(&mixed_legs(count));
            ledger.resize(size, 0xff);
            for call in calls(count) {
                known(group, &format!("image of {size}"), number, &call, &ledger)?;
            }
        }
    }
    // Sound legs stand where the 129th and those after it would.
    for (number, count) in [(0, 128), (60, 129), (60, 130), (60, 255)] {
        let mut ledger = book::lay(&mixed_legs(255));
        ledger[0] = count;
        known_for_all(group, &format!("count {count}"), number, &ledger)?;
    }
    Ok(())
}

const BROKEN: [(&str, Change); 36] = [
    ("open with 0 ticks", |l| stand(l, OPEN, 0)),
    ("acknowledged with 1 tick", |l| stand(l, ACKNOWLEDGED, 1)),
    ("acknowledged with 65535 ticks", |l| stand(l, ACKNOWLEDGED, 65535)),
    ("acknowledged with 256 ticks", |l| stand(l, ACKNOWLEDGED, 256)),
    ("refused with 1 tick", |l| stand(l, REFUSED, 1)),
    ("refused with 256 ticks", |l| stand(l, REFUSED, 256)),
    ("undeliverable with 1 tick", |l| stand(l, UNDELIVERABLE, 1)),
    ("undeliverable with 256 ticks", |l| stand(l, UNDELIVERABLE, 256)),
    ("timed out with 1 tick", |l| stand(l, TIMED_OUT, 1)),
    ("timed out with 256 ticks", |l| stand(l, TIMED_OUT, 256)),
    ("source node 1024", |l| l.source.node = 1024),
    ("source node 65535", |l| l.source.node = 65535),
    ("source port 64", |l| l.source.port = 64),
    ("source port 255", |l| l.source.port = 255),
    ("destination node 1024", |l| l.destination.node = 1024),
    ("destination node 65535", |l| l.destination.node = 65535),
    ("destination port 64", |l| l.destination.port = 64),
    ("destination port 255", |l| l.destination.port = 255),
    ("sequence number 32768", |l| l.seq = 32768),
    ("sequence number 65535", |l| l.seq = 65535),
    ("waiting with 0 ticks", |l| stand(l, WAITING, 0)),
    ("a reason set beside waiting", |l| reason(l, WAITING, 2, 0)),
    ("a code beside waiting", |l| reason(l, WAITING, 0, 13)),
    ("standing 6 with 1 tick", |l| stand(l, 6, 1)),
    ("standing 6", |l| stand(l, 6, 0)),
    ("standing 128", |l| stand(l, 128, 0)),
    ("standing 255", |l| stand(l, 255, 0)),
    ("standing 255 with 1 tick", |l| stand(l, 255, 1)),
    ("a reason set beside open", |l| reason(l, OPEN, 1, 0)),
    ("a code beside open", |l| reason(l, OPEN, 0, 1)),
    ("a reason set beside acknowledged", |l| reason(l, ACKNOWLEDGED, 255, 0)),
    ("a code beside acknowledged", |l| reason(l, ACKNOWLEDGED, 0, 255)),
    ("a reason set beside undeliverable", |l| reason(l, UNDELIVERABLE, 1, 0)),
    ("a code beside undeliverable", |l| reason(l, UNDELIVERABLE, 0, 1)),
    ("a reason set beside timed out", |l| reason(l, TIMED_OUT, 128, 0)),
    ("a code beside timed out", |l| reason(l, TIMED_OUT, 0, 128)),
];

const SOUND: [(&str, Change); 19] = [
    ("open with 1 tick", |l| stand(l, OPEN, 1)),
    ("open with 256 ticks", |l| stand(l, OPEN, 256)),
    ("open with 65535 ticks", |l| stand(l, OPEN, 65535)),
    ("waiting with 1 tick", |l| stand(l, WAITING, 1)),
    ("waiting with 65535 ticks", |l| stand(l, WAITING, 65535)),
    ("acknowledged", |l| stand(l, ACKNOWLEDGED, 0)),
    ("refused with reason 0 of set 0", |l| reason(l, REFUSED, 0, 0)),
    ("refused with reason 0 of set 255", |l| reason(l, REFUSED, 255, 0)),
    ("refused with reason 255 of set 0", |l| reason(l, REFUSED, 0, 255)),
    ("undeliverable", |l| stand(l, UNDELIVERABLE, 0)),
    ("timed out", |l| stand(l, TIMED_OUT, 0)),
    ("source brigade 255", |l| l.source.brigade = 255),
    ("source node 1023", |l| l.source.node = 1023),
    ("source port 63", |l| l.source.port = 63),
    ("destination brigade 255", |l| l.destination.brigade = 255),
    ("destination node 1023", |l| l.destination.node = 1023),
    ("destination port 63", |l| l.destination.port = 63),
    ("sequence number 0", |l| l.seq = 0),
    ("sequence number 32767", |l| l.seq = 32767),
];

fn damage(group: &mut Group, _: &mut Draw) -> Outcome {
    for count in [3, 5, 127, 128] {
        let legs = mixed_legs(count);
        for (name, change) in BROKEN {
            for place in [0, 1, 2, count / 2, count - 1] {
                let mut legs = legs.clone();
                change(&mut legs[place]);
                let name = format!("{name}, place {place} of {count}");
                known_for_all(group, &name, 60, &image_of(&legs))?;
            }
            for place in [count, MOST_LEGS - 1] {
                if count <= place && place < MOST_LEGS {
                    let mut past = leg(place);
                    change(&mut past);
                    let mut ledger = image_of(&legs);
                    ledger[book::place(place)].copy_from_slice(&past.lay());
                    let name = format!("{name}, place {place} past {count}");
                    known_for_all(group, &name, 0, &ledger)?;
                }
            }
        }
        for (name, change) in SOUND {
            for place in [2, count / 2, count - 1] {
                let mut legs = legs.clone();
                change(&mut legs[place.max(2)]);
                let name = format!("{name}, place {place} of {count}");
                known_for_all(group, &name, 0, &image_of(&legs))?;
            }
        }
    }
    Ok(())
}

// What makes two legs that have the same reference differ, or not enough.
const TWINS: [(&str, u8, Change); 16] = [
    ("alike", 60, |_| ()),
    ("alike but for the ticks", 60, |l| l.ticks = 1),
    ("one waiting", 60, |l| stand(l, WAITING, 1)),
    ("one acknowledged", 0, |l| stand(l, ACKNOWLEDGED, 0)),
    ("one refused", 0, |l| stand(l, REFUSED, 0)),
    ("one undeliverable", 0, |l| stand(l, UNDELIVERABLE, 0)),
    ("one timed out", 0, |l| stand(l, TIMED_OUT, 0)),
    ("another source brigade", 0, |l| l.source.brigade = 7),
    ("another source node", 0, |l| l.source.node += 512),
    ("another source port", 0, |l| l.source.port = 0),
    ("another destination brigade", 0, |l| l.destination.brigade = 11),
    ("another destination node", 0, |l| l.destination.node = 6),
    ("another destination port", 0, |l| l.destination.port = 0),
    ("another sequence number", 0, |l| l.seq = 8),
    ("another sequence number's high byte", 0, |l| l.seq = 263),
    ("source and destination exchanged", 0, |l| {
        *l = Leg { source: l.destination, destination: l.source, ..*l }
    }),
];

fn twins(group: &mut Group, _: &mut Draw) -> Outcome {
    // The second leg is there for a Clear.
    let mut legs = open_legs(MOST_LEGS);
    legs[1] = settled(leg(1), ACKNOWLEDGED);
    let pairs = [(2, 3), (2, 4), (2, 126), (63, 64), (3, 125), (125, 126), (2, 127), (126, 127)];
    for (name, number, change) in TWINS {
        for (one, other) in pairs {
            for exchanged in [false, true] {
                let mut legs = legs.clone();
                legs[other] = Leg { ticks: 700, ..legs[one] };
                change(&mut legs[other]);
                if exchanged {
                    legs.swap(one, other);
                }
                let name = format!("{name}, places {one} and {other}");
                let mut ledger = image_of(&legs);
                known_for_all(group, &name, number, &ledger)?;
                ledger[0] = other as u8;
                known_for_all(group, &format!("{name} past the count"), 0, &ledger)?;
                ledger[0] = other as u8 + 1;
                known_for_all(group, &name, number, &ledger)?;
            }
        }
    }
    let calls = calls(MOST_LEGS);
    for other in 0..MOST_LEGS {
        for one in (0..other).filter(|&one| one != 1 && other != 1) {
            let mut legs = legs.clone();
            legs[other] = Leg { ticks: 700, ..legs[one] };
            let name = format!("every pair, places {one} and {other}");
            let ledger = image_of(&legs);
            match (one, other) {
                (0, _) | (_, 127) => known_for_all(group, &name, 60, &ledger)?,
                _ => {
                    let call = &calls[(one + other) % calls.len()];
                    known(group, &name, 60, call, &ledger)?;
                }
            }
        }
    }
    Ok(())
}

fn bytes(group: &mut Group, _: &mut Draw) -> Outcome {
    let ledger = image_of(&mixed_legs(3));
    for place in 0..book::place(4).start {
        for value in 0..=u8::MAX {
            let mut ledger = ledger.clone();
            ledger[place] = value;
            for call in calls(3) {
                call.attempt(group, "every byte of a ledger", &ledger)?;
            }
        }
    }
    for count in 0..=u8::MAX {
        let mut ledger = image_of(&mixed_legs(MOST_LEGS));
        ledger[0] = count;
        for call in calls(0) {
            call.attempt(group, "every count", &ledger)?;
        }
    }
    Ok(())
}

// A message and the ledger that is to take it.
struct Request {
    offer: Offer,
    legs: Vec<Leg>,
    size: usize,
}

// The last number first, as a later row decides, and may undo what an earlier one needs.
const BREACHES: [Breach<Request>; 12] = [
    (63, |r| r.legs = mixed_legs(126)),
    (62, |r| r.legs[0] = Leg { source: Address::new(9, 1, 2), seq: 300, ..leg(0) }),
    (61, |r| r.offer.ticks = 0),
    (60, |r| r.legs[1].ticks = 1),
    (60, |r| r.size = book::SIZE - 1),
    (51, |r| r.offer.arrival = 64),
    (50, |r| r.offer.table.count = 33),
    (50, |r| r.offer.table_size = router::SIZE - 1),
    (9, |r| CARRIED[0].1(&mut r.offer.envelope)),
    (8, |r| CARRIED[1].1(&mut r.offer.envelope)),
    (7, |r| CARRIED[2].1(&mut r.offer.envelope)),
    (4, |r| CARRIED[3].1(&mut r.offer.envelope)),
];

// Every choice of breaches at once: the lowest number comes.
fn order(group: &mut Group, _: &mut Draw) -> Outcome {
    for chosen in 0..1 << BREACHES.len() {
        for ack in [0, 1] {
            let (offer, legs) = (offer(3, ack), mixed_legs(3));
            let mut request = Request { offer, legs, size: book::SIZE };
            let lowest = break_rules(&BREACHES, chosen, &mut request);
            // Without <ack_req> some are not tried.
            let is_tried = |number: &u8| ack == 1 || !(61..=63).contains(number);
            let number = lowest.filter(is_tried).unwrap_or(0);
            let mut ledger = image_of(&request.legs);
            ledger.truncate(request.size);
            for (first, frame) in envelope::damaged(&request.offer.frame()) {
                let call = request.offer.accept_as(frame);
                known(group, "order", first.unwrap_or(number), &call, &ledger)?;
            }
        }
    }
    // The other calls try 60 first.
    let stranger = leg(200);
    let out_of_range = Leg { seq: 65535, ..leg(0) };
    for (number, call) in [
        (64, answer(&stranger, ACK)),
        (64, answer(&out_of_range, NAK)),
        (65, Call::Clear(0)),
        (65, Call::Clear(3)),
        (65, Call::Clear(usize::MAX)),
    ] {
        let mut legs = mixed_legs(3);
        known(group, "order", number, &call, &image_of(&legs))?;
        known(group, "order", 60, &call, &image_of(&legs)[..book::SIZE - 1])?;
        legs[2].ticks = 1;
        known(group, "order", 60, &call, &image_of(&legs))?;
    }
    Ok(())
}
