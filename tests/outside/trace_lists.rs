//! Routes listed in slots: worked by hand, in the order of the refusals, in slots of any size, and
//! more of them than one call lists.

use crate::chart_cases::{largest, ONE_WAY, S};
use crate::chart_draft::Draft;
use crate::door::{self, Expected, Given};
use crate::draw::Draw;
use crate::group::{Group, Outcome, Tests};
use crate::rules::{break_rules, Breach};
use crate::trace::{slot, MOST_SLOTS, MOST_STEPS, SLOT_SIZE};
use crate::trace_call::{list_rooms, try_list};
use crate::trace_cases::{ask, complete, routes_of, thousand, turn};

pub const GROUPS: &[Tests] = &[
    ("list stories", stories),
    ("list order", order),
    ("list rooms", rooms),
    ("list of many", many),
];

// ---- stories ----

fn listed(bytes: &[u8], count: usize, more: usize) -> Expected {
    Ok(Given::new(bytes.to_vec(), &[count, more, 0]))
}

fn refused(number: u8, place: usize) -> Expected {
    Ok(Given { number, bytes: Vec::new(), beside: vec![0, 0, place] })
}

// A chart, slots of so many bytes, and what is known to come.
fn stories(group: &mut Group, _: &mut Draw) -> Outcome {
    // The four routes of S.
    #[rustfmt::skip]
    let slots = [
        2, 0, 2, 0, 0, 0, 0, 0, 0, 0, 0, 0, 0, 0, 0, 0,
        3, 0, 4, 3, 0, 0, 0, 0, 0, 0, 0, 0, 0, 0, 0, 0,
        2, 1, 3, 0, 0, 0, 0, 0, 0, 0, 0, 0, 0, 0, 0, 0,
        3, 1, 4, 2, 0, 0, 0, 0, 0, 0, 0, 0, 0, 0, 0, 0,
    ];
    // Link 0 out and link 4 back: the second is lost.
    let one_way = [&slots[..16], &slots[32..]].concat();
    let mut off = Draft::s();
    off.links[4].on = 0;
    let two = [&slots[..16], &slots[32..48]].concat();
    let mut apart = off.clone();
    for place in [0, 1] {
        apart.links[place].on = 0;
    }
    let here = ask(Draft::s(), 0, 0).lay();
    let (off, apart) = (off.lay(), apart.lay());
    let known: [(&str, &[u8], usize, Expected); 18] = [
        ("S", &S, 64, listed(&slots, 4, 0)),
        ("S, a byte more", &S, 65, listed(&slots, 4, 0)),
        ("S, a byte less", &S, 63, listed(&slots[..48], 3, 1)),
        ("S, one slot", &S, 16, listed(&slots[..16], 1, 1)),
        ("S, one slot and 15 bytes", &S, 31, listed(&slots[..16], 1, 1)),
        ("S, no slot", &S, 15, Err(42)),
        ("S, no byte", &S, 0, Err(42)),
        ("one way", &ONE_WAY, 48, listed(&one_way, 3, 0)),
        ("one way, two slots", &ONE_WAY, 47, listed(&one_way[..32], 2, 1)),
        ("link 4 off", &off, 1000, listed(&two, 2, 0)),
        ("from a node to itself", &here, 16, listed(&[0; 16], 1, 0)),
        ("from a node to itself, no slot", &here, 15, Err(42)),
        ("no route", &apart, 16, Err(43)),
        ("no route and no slot", &apart, 15, Err(42)),
        ("nothing", &[], 16, refused(31, 0)),
        ("node 1,024", &[1, 0, 3, 9, 4, 0], 16, refused(24, 0)),
        ("no question, no slot", &S[..115], 0, refused(31, 115)),
        ("a question that is cut short", &S[..120], 64, refused(21, 115)),
    ];
    for (name, chart, room, expected) in known {
        group.compare(&door::routes(chart, room), &expected, || name.to_string())?;
    }
    Ok(())
}

// ---- order ----

struct Request {
    chart: Vec<u8>,
    room: usize,
}

// The last number first, as a later row decides.
const BREACHES: [Breach<Request>; 4] = [
    (43, |r| [r.chart[54], r.chart[66]] = [0, 0]),
    (42, |r| r.room = SLOT_SIZE - 1),
    (24, |r| r.chart[54] = 2),
    (21, |r| r.chart.insert(0, 1)),
];

// Every choice of breaches at once: the chart's number, then 42 and 43.
fn order(group: &mut Group, _: &mut Draw) -> Outcome {
    for chosen in 0..1 << BREACHES.len() {
        let mut request = Request { chart: S.to_vec(), room: SLOT_SIZE };
        let lowest = break_rules(&BREACHES, chosen, &mut request);
        let Request { chart, room } = request;
        let came = try_list(group, "order", &chart, &routes_of(&chart), room)?;
        group.known("order", lowest.unwrap_or(0), came.number)?;
    }
    Ok(())
}

// ---- rooms ----

fn rooms(group: &mut Group, _: &mut Draw) -> Outcome {
    let here = ask(Draft::s(), 0, 0);
    for draft in [Draft::s(), here, Draft::row(2), complete(5), largest()] {
        let chart = draft.lay();
        let routes = routes_of(&chart);
        for room in 0..SLOT_SIZE * (routes.list().len() + 2) {
            try_list(group, "rooms", &chart, &routes, room)?;
        }
    }
    for draft in [thousand(0), thousand(1), complete(8)] {
        let chart = draft.lay();
        let routes = routes_of(&chart);
        list_rooms(group, "rooms", &chart, &routes)?;
        for slots in [31, 32, 33, 999, 1000, 1001] {
            try_list(group, "rooms", &chart, &routes, SLOT_SIZE * slots)?;
        }
    }
    Ok(())
}

// ---- many ----

// Nodes in a row, with so many links from each to the next.
fn row_of(links: &[usize]) -> Draft {
    let mut draft = Draft::row(links.len() + 1);
    for (place, count) in links.iter().enumerate() {
        (0..*count).for_each(|_| draft.join(place, place + 1));
    }
    draft
}

// As many routes as one call lists, one more, and a great many; the rest is had from pz_next.
fn many(group: &mut Group, _: &mut Draw) -> Outcome {
    let most = row_of(&[3, 3, 5, 7, 13]);
    let mut above = most.clone();
    above.join(0, 5);
    let known = [
        ("4,095 routes", MOST_SLOTS, most),
        ("4,096 routes", MOST_SLOTS + 1, above),
        ("each two of 9", 13_700, complete(9)),
        ("each two of 9, its links turned", 13_700, turn(complete(9))),
    ];
    for (name, count, draft) in known {
        let chart = draft.lay();
        let routes = routes_of(&chart);
        let list = routes.list();
        group.check(list.len() == count, || format!("{name}: {} routes", list.len()))?;
        let most = SLOT_SIZE * MOST_SLOTS;
        let all = SLOT_SIZE * count;
        for room in [most - SLOT_SIZE, most - 1, most, most + 1, 1 << 16, all, all + SLOT_SIZE] {
            try_list(group, name, &chart, &routes, room)?;
        }
        let came = door::routes(&chart, 1 << 16);
        let rest = &list[MOST_SLOTS..];
        let numbers = [MOST_SLOTS, usize::from(!rest.is_empty()), 0];
        let slots = list[..MOST_SLOTS].iter().flat_map(|route| slot(route)).collect();
        group.compare(&came, &Ok(Given::new(slots, &numbers)), || name.to_string())?;
        // In the links of the last slot, as it stands.
        let last = &came.bytes()[most - SLOT_SIZE..][..SLOT_SIZE];
        let mut length = usize::from(last[0]);
        let mut buffer = last[1..].to_vec();
        assert_eq!(buffer.len(), MOST_STEPS);
        let ends = rest.iter().map(|route| Ok(Given::route(route))).chain([Err(43)]);
        for expected in ends {
            let came = door::next(&chart, &buffer, length);
            group.compare(&came, &expected, || format!("{name}, after {:?}", &buffer[..length]))?;
            length = usize::from(came.number);
            buffer = came.bytes().to_vec();
        }
    }
    Ok(())
}
