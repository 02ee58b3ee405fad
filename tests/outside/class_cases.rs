//! Messages whose way is known beforehand, in S and in shapes of up to 16 nodes; the order of the
//! refusals, ways and images of any size, every value of every byte of chart, tables and message;
//! and S with every way of switching its links and of turning them.

use crate::chart::Refusal;
use crate::chart_call::known;
use crate::chart_cases::{largest, ONE_WAY, S};
use crate::chart_draft::{Draft, Station};
use crate::class::{DELIVERED, MESSAGE, MET_BEFORE, TABLES, WAY, WITHOUT_LINK, WITHOUT_ROUTE};
use crate::class_call::{all_refusals, journey, lay_tables, made};
use crate::class_call::{try_begin, try_pass, try_step, Handed};
use crate::door::{self, Given};
use crate::draw::Draw;
use crate::group::{Group, Outcome, Stop, Tests};
use crate::router::{Entry, Table, EVERYTHING, MOST_ENTRIES, SIZE};
use crate::routing::table_t;
use crate::rules::{break_rules, Breach};
use crate::trace_cases::{chain, complete, turn};
use crate::trace_combs::{mesh, strands};
use crate::wire::Address;

pub const GROUPS: &[Tests] = &[
    ("class by hand", by_hand),
    ("class step by step", step_by_step),
    ("class refused", refused),
    ("class shapes", shapes),
    ("class order", order),
    ("class rooms", rooms),
    ("class chart sweeps", chart_sweeps),
    ("class table sweeps", table_sweeps),
    ("class asked sweeps", asked_sweeps),
    ("class messages", messages),
    ("class switches", switches),
    ("class directions", directions),
];

// The stations of S, in their order.
const STATIONS: [Station; 4] = [(9, 1), (9, 20), (9, 21), (9, 30)];

// Port 5 of 9/30.
const QUAY: Address = Address { brigade: 9, node: 30, port: 5 };

// The table of a node that sends everything out by a port, or nothing.
fn sends((brigade, node): Station, port: usize) -> Table {
    let entry = Entry { kind: EVERYTHING, brigade: 0, node: 0, port, on: 1 };
    Table { brigade, node, count: usize::from(port > 0), entries: vec![entry; MOST_ENTRIES] }
}

// Such tables for the four nodes of S, and for the places past them what is out of range.
fn typed(ports: [usize; 4]) -> Vec<u8> {
    let tables: Vec<Table> = STATIONS.into_iter().zip(ports).map(|(s, p)| sends(s, p)).collect();
    lay_tables(&tables, 0xff)
}

// The tables that are made from S.
fn made_of_s() -> Vec<u8> {
    Handed::made(&S).tables
}

// ---- by hand ----

// The tables as bytes that S has by document 02, as far as there are entries.
const MADE: [[u8; 22]; 4] = [
    [9, 0, 1, 3, 0, 9, 0, 20, 2, 1, 0, 9, 0, 21, 3, 1, 0, 9, 0, 30, 2, 1],
    [9, 0, 20, 3, 0, 9, 0, 1, 1, 1, 0, 9, 0, 21, 3, 1, 0, 9, 0, 30, 2, 1],
    [9, 0, 21, 3, 0, 9, 0, 1, 1, 1, 0, 9, 0, 20, 3, 1, 0, 9, 0, 30, 2, 1],
    [9, 0, 30, 3, 0, 9, 0, 1, 1, 1, 0, 9, 0, 20, 1, 1, 0, 9, 0, 21, 2, 1],
];

// Table T of document 01 for 9/1, and tables that send everything by a port.
fn with_t(ports: [usize; 3]) -> Vec<u8> {
    let [q, r, s] = ports;
    let mut tables = typed([1, q, r, s]);
    let t = table_t().lay();
    tables[..t.len()].copy_from_slice(&t);
    tables
}

// A message and what becomes of it: where it begins, where it is for, its way and its ending.
type Story = (&'static str, Station, (usize, usize, usize), &'static [u8], u8);

fn tell(group: &mut Group, handed: &Handed, story: &Story) -> Outcome {
    let (name, from, (brigade, node, port), way, ending) = *story;
    let came = journey(group, name, handed, from, Address::new(brigade, node, port))?;
    let held = came.number == 0 && came.way == way && came.ending == ending;
    group.check(held, || {
        let came = (came.number, came.way, came.ending);
        format!("{name}\n  expected {way:?} and {ending}\n  came {came:?}")
    })?;
    Ok(())
}

const BY_MADE: [Story; 8] = [
    ("by the first Hill", (9, 1), (9, 30, 5), &[0, 1, 3], DELIVERED),
    ("back the same way", (9, 30), (9, 1, 2), &[3, 1, 0], DELIVERED),
    ("to the other Hill", (9, 30), (9, 21, 63), &[3, 2], DELIVERED),
    ("at home", (9, 30), (9, 30, 0), &[3], DELIVERED),
    ("to a node that is not there", (9, 1), (9, 99, 1), &[0], WITHOUT_ROUTE),
    ("to another brigade", (9, 21), (8, 30, 1), &[2], WITHOUT_ROUTE),
    ("to the same low byte", (9, 1), (9, 286, 1), &[0], WITHOUT_ROUTE),
    ("to node 1023", (9, 20), (9, 1023, 1), &[1], WITHOUT_ROUTE),
];

// The links are 9/1/2 9/20/1, 9/1/3 9/21/1, 9/20/2 9/30/1, 9/21/2 9/30/2, 9/20/3 9/21/3, and off
// 9/1/4 9/30/3.
const BY_TYPED: [([usize; 4], Story); 18] = [
    ([2, 2, 0, 0], ("sent on twice", (9, 1), (9, 30, 5), &[0, 1, 3], DELIVERED)),
    ([2, 0, 0, 0], ("no entry", (9, 1), (9, 30, 5), &[0, 1], WITHOUT_ROUTE)),
    ([0, 2, 0, 0], ("no entry at the start", (9, 1), (9, 30, 5), &[0], WITHOUT_ROUTE)),
    ([2, 1, 0, 0], ("not back by its port", (9, 1), (9, 30, 5), &[0, 1], WITHOUT_ROUTE)),
    ([3, 0, 1, 0], ("nor there", (9, 1), (9, 30, 5), &[0, 2], WITHOUT_ROUTE)),
    ([2, 3, 1, 0], ("round by both Hills", (9, 1), (9, 30, 5), &[0, 1, 2, 0], MET_BEFORE)),
    ([3, 1, 3, 0], ("the other way round", (9, 1), (9, 30, 5), &[0, 2, 1, 0], MET_BEFORE)),
    ([2, 2, 3, 2], ("not to the start", (9, 1), (12, 7, 1), &[0, 1, 3, 2, 1], MET_BEFORE)),
    ([4, 0, 0, 0], ("a link that is off", (9, 1), (9, 30, 5), &[0], WITHOUT_LINK)),
    ([0, 0, 0, 3], ("off at its other end", (9, 30), (9, 1, 5), &[3], WITHOUT_LINK)),
    ([9, 0, 0, 0], ("no link at the port", (9, 1), (9, 30, 5), &[0], WITHOUT_LINK)),
    ([2, 63, 0, 0], ("no link at port 63", (9, 1), (9, 30, 5), &[0, 1], WITHOUT_LINK)),
    ([2, 3, 2, 9], ("through all nodes", (9, 1), (9, 30, 5), &[0, 1, 2, 3], DELIVERED)),
    ([2, 3, 2, 9], ("and no further", (9, 1), (12, 7, 1), &[0, 1, 2, 3], WITHOUT_LINK)),
    ([2, 3, 2, 1], ("and back to the second", (9, 1), (12, 7, 1), &[0, 1, 2, 3, 1], MET_BEFORE)),
    ([2, 3, 2, 0], ("and without a route", (9, 1), (12, 7, 1), &[0, 1, 2, 3], WITHOUT_ROUTE)),
    ([9, 9, 9, 9], ("at home by any table", (9, 21), (9, 21, 1), &[2], DELIVERED)),
    ([2, 2, 2, 2], ("it comes home on the way", (9, 21), (9, 30, 1), &[2, 3], DELIVERED)),
];

// The same with link 0 out and link 4 back.
const ONE_WAY_BY_TYPED: [([usize; 4], Story); 6] = [
    ([2, 2, 0, 0], ("out by link 0", (9, 1), (9, 30, 5), &[0, 1, 3], DELIVERED)),
    ([0, 1, 0, 0], ("not back by link 0", (9, 20), (9, 1, 5), &[1], WITHOUT_LINK)),
    ([0, 3, 0, 0], ("not out by link 4", (9, 20), (9, 21, 5), &[1], WITHOUT_LINK)),
    ([0, 2, 3, 0], ("back by link 4", (9, 21), (9, 30, 5), &[2, 1, 3], DELIVERED)),
    ([3, 1, 3, 0], ("round, but for link 0", (9, 1), (9, 30, 5), &[0, 2, 1], WITHOUT_LINK)),
    ([3, 1, 1, 0], ("not back where it came in", (9, 1), (9, 30, 5), &[0, 2], WITHOUT_ROUTE)),
];

// By table T: 9/20 is off, brigade 9 goes by port 3, everything else by port 4, which has no usable
// link.
const BY_T: [([usize; 3], Story); 5] = [
    ([0, 3, 0], ("an entry that is off", (9, 1), (9, 20, 5), &[0, 2, 1], DELIVERED)),
    ([0, 2, 0], ("a whole brigade", (9, 1), (9, 30, 5), &[0, 2, 3], DELIVERED)),
    ([0, 2, 0], ("everything else", (9, 1), (12, 7, 1), &[0], WITHOUT_LINK)),
    (
        [0, 2, 1],
        ("a brigade's node that is not there", (9, 1), (9, 99, 1), &[0, 2, 3, 1], WITHOUT_ROUTE),
    ),
    ([1, 2, 1], ("and round", (9, 1), (9, 99, 1), &[0, 2, 3, 1, 0], MET_BEFORE)),
];

fn by_hand(group: &mut Group, _: &mut Draw) -> Outcome {
    let mut tables = Vec::new();
    for known in MADE {
        tables.extend(known);
        (0..29).for_each(|_| tables.extend([2, 0, 0, 0, 0, 0]));
    }
    tables.resize(TABLES, 0xff);
    group.check(tables == made_of_s(), || "the tables of S are not made as by hand".to_string())?;
    let handed = Handed::new(&S, tables);
    for story in &BY_MADE {
        tell(group, &handed, story)?;
    }
    for (ports, story) in &BY_TYPED {
        tell(group, &Handed::new(&S, typed(*ports)), story)?;
        let directed = Draft::s().directed().lay();
        tell(group, &Handed::new(&directed, typed(*ports)), story)?;
    }
    for (ports, story) in &ONE_WAY_BY_TYPED {
        tell(group, &Handed::new(&ONE_WAY, typed(*ports)), story)?;
    }
    for (ports, story) in &BY_T {
        tell(group, &Handed::new(&S, with_t(*ports)), story)?;
    }
    Ok(())
}

// ---- step by step ----

// Tables, where a message begins and where it is for, and the image after each call, the last one
// twice.
type Steps = (&'static str, Vec<u8>, Station, Address, &'static [[u8; 5]]);

fn step_by_step(group: &mut Group, _: &mut Draw) -> Outcome {
    let there = Address::new(9, 1, 2);
    let stranger = Address::new(12, 7, 1);
    let stories: [Steps; 6] = [
        (
            "by the first Hill",
            made_of_s(),
            (9, 1),
            QUAY,
            &[[0, 0, 0, 1, 0], [1, 1, 0, 3, 0], [3, 1, 0, 11, 0], [3, 1, 0, 11, 1]],
        ),
        (
            "back the same way",
            made_of_s(),
            (9, 30),
            there,
            &[[3, 0, 0, 8, 0], [1, 2, 0, 10, 0], [0, 2, 0, 11, 0], [0, 2, 0, 11, 1]],
        ),
        ("at home", made_of_s(), (9, 30), QUAY, &[[3, 0, 0, 8, 0], [3, 0, 0, 8, 1]]),
        ("nowhere", made_of_s(), (9, 20), stranger, &[[1, 0, 0, 2, 0], [1, 0, 0, 2, 2]]),
        (
            "round by both Hills",
            typed([2, 3, 1, 0]),
            (9, 1),
            QUAY,
            &[[0, 0, 0, 1, 0], [1, 1, 0, 3, 0], [2, 3, 0, 7, 0], [0, 3, 0, 7, 4]],
        ),
        (
            "no link at the port",
            typed([3, 0, 9, 0]),
            (9, 1),
            QUAY,
            &[[0, 0, 0, 1, 0], [2, 1, 0, 5, 0], [2, 1, 0, 5, 3]],
        ),
    ];
    for (name, tables, from, to, images) in stories {
        let handed = Handed::new(&S, tables);
        let given = |image: &[u8; 5]| Ok(Given::new(image.to_vec(), &[0]));
        let begun = try_begin(group, name, &handed, from, to, 9)?;
        group.compare(&begun, &given(&images[0]), || format!("{name}, begun"))?;
        let last = images[images.len() - 1];
        let after = images[1..].iter().chain([&last]);
        for (before, after) in images.iter().zip(after) {
            let came = try_step(group, name, &handed, to, &[&before[..], &[7; 3]].concat())?;
            group.compare(&came, &given(after), || format!("{name}, after {before:?}"))?;
        }
    }
    // Whatever the ending is, but 0, nothing changes, and no nodes need to be met for a step.
    let handed = Handed::new(&S, typed([2, 3, 1, 0]));
    for (before, after) in [
        ([0, 0, 0, 1, 5], [0, 0, 0, 1, 5]),
        ([3, 63, 255, 255, 255], [3, 63, 255, 255, 255]),
        ([0, 0, 0, 0, 0], [1, 1, 0, 2, 0]),
        ([0, 0, 255, 253, 0], [1, 1, 255, 255, 0]),
        ([0, 0, 0, 2, 0], [1, 1, 0, 2, 4]),
        ([0, 2, 0, 1, 0], [0, 2, 0, 1, 2]),
        ([3, 0, 0, 0, 0], [3, 0, 0, 0, 1]),
        ([3, 63, 128, 0, 0], [3, 63, 128, 0, 1]),
    ] {
        let came = try_step(group, "any message", &handed, QUAY, &before)?;
        let expected = Ok(Given::new(after.to_vec(), &[0]));
        group.compare(&came, &expected, || format!("after {before:?}"))?;
    }
    Ok(())
}

// ---- refused ----

// The three calls, and the number and place that all give.
fn known_refusal(
    group: &mut Group,
    name: &str,
    refusal: Refusal,
    handed: &Handed,
    from: Station,
    to: Address,
) -> Outcome {
    let place = STATIONS.iter().position(|station| *station == from).unwrap_or(STATIONS.len());
    for came in all_refusals(group, name, handed, (from, place), to)? {
        known(group, name, refusal, came)?;
    }
    Ok(())
}

// Changes one byte of the table at a place.
fn changed(place: usize, at: usize, value: u8) -> Vec<u8> {
    let mut tables = typed([2, 2, 2, 2]);
    tables[place * SIZE + at] = value;
    tables
}

// The tables with one of them as another.
fn exchanged(one: usize, other: usize) -> Vec<u8> {
    let mut tables = made_of_s();
    let (low, high) = tables.split_at_mut(other * SIZE);
    low[one * SIZE..][..SIZE].swap_with_slice(&mut high[..SIZE]);
    tables
}

fn cut(size: usize) -> Vec<u8> {
    let mut tables = made_of_s();
    tables.resize(size, 0xff);
    tables
}

fn refused(group: &mut Group, _: &mut Draw) -> Outcome {
    let charts: [(&str, Refusal, &[u8]); 5] = [
        ("nothing", (31, 0), &[]),
        ("node 1024", (24, 0), &[1, 0, 3, 9, 4, 0]),
        ("no question", (31, 115), &S[..115]),
        ("cut short", (21, 115), &S[..120]),
        ("bytes after it", (21, 124), &[&S[..], &[1]].concat()),
    ];
    for (name, refusal, chart) in charts {
        for tables in [made_of_s(), cut(0)] {
            let handed = Handed::new(chart, tables);
            known_refusal(group, name, refusal, &handed, (9, 2), Address::new(9, 1, 64))?;
        }
    }
    // Tables: the entry that counts has its port at 8 and its on at 9, the next one does not count.
    let tables: [(&str, u8, Vec<u8>); 30] = [
        ("as they are", 0, made_of_s()),
        ("typed", 0, typed([2, 2, 2, 2])),
        ("no tables", 50, cut(0)),
        ("one table", 50, cut(SIZE)),
        ("as many as nodes", 50, cut(4 * SIZE)),
        ("15 tables", 50, cut(15 * SIZE)),
        ("a byte less", 50, cut(TABLES - 1)),
        ("a byte more", 0, cut(TABLES + 1)),
        ("17 tables", 0, cut(17 * SIZE)),
        ("own node 1024", 50, changed(0, 1, 4)),
        ("count 33", 50, changed(1, 3, 33)),
        ("kind 3", 50, changed(2, 4, 3)),
        ("port 0", 50, changed(3, 8, 0)),
        ("port 64", 50, changed(3, 8, 64)),
        ("on 2", 50, changed(0, 9, 2)),
        ("kind 3 past the count", 0, changed(2, 10, 3)),
        ("port 64 past the count", 0, changed(3, 14, 64)),
        ("on 2 past the count", 0, changed(0, 15, 2)),
        ("count 33 in the fifth table", 0, changed(4, 3, 33)),
        ("own node 1024 in the last table", 0, changed(15, 1, 4)),
        ("one node's number 1024", 50, {
            let mut tables = changed(3, 4, 0);
            tables[3 * SIZE + 6] = 4;
            tables
        }),
        ("a brigade's node bytes 1024", 0, {
            let mut tables = changed(3, 4, 1);
            tables[3 * SIZE + 6] = 4;
            tables
        }),
        ("another brigade", 95, changed(0, 0, 8)),
        ("another node", 95, changed(1, 2, 21)),
        ("another node's high byte", 95, changed(2, 1, 1)),
        ("the last one's node", 95, changed(3, 2, 31)),
        ("the first two exchanged", 95, exchanged(0, 1)),
        ("first and last exchanged", 95, exchanged(0, 3)),
        ("the last one and none exchanged", 50, exchanged(3, 4)),
        ("two past the nodes exchanged", 0, exchanged(4, 15)),
    ];
    for (name, number, tables) in tables {
        let handed = Handed::new(&S, tables);
        for from in STATIONS {
            known_refusal(group, name, (number, 0), &handed, from, QUAY)?;
        }
    }
    let handed = Handed::new(&S, typed([2, 2, 2, 2]));
    for from in [(9, 2), (8, 1), (9, 257), (9, 1025), (0, 0), (255, 65535)] {
        known_refusal(group, "no such node", (44, 0), &handed, from, QUAY)?;
    }
    for (number, node, port) in [(51, 1024, 1), (51, 65535, 1), (51, 30, 64), (51, 30, 255)]
        .into_iter()
        .chain([(0, 1023, 1), (0, 30, 63), (0, 30, 0)])
    {
        let to = Address::new(9, node, port);
        known_refusal(group, "a destination", (number, 0), &handed, (9, 1), to)?;
        // Also of what has ended.
        let came = try_step(group, "a destination", &handed, to, &[0, 0, 0, 1, 1])?;
        group.known("a destination", number, came.number)?;
    }
    for (number, arrival) in [(0, 0), (0, 63), (51, 64), (51, 128), (51, 255)] {
        let came = try_step(group, "arrival port", &handed, QUAY, &[0, arrival, 0, 1, 0])?;
        group.known("arrival port", number, came.number)?;
        let came = try_step(group, "arrival port", &handed, QUAY, &[0, arrival, 0, 1, 1])?;
        group.known("arrival port, ended", number, came.number)?;
    }
    Ok(())
}

// ---- shapes ----

// Tables for a row of nodes 9/100 and on, each sending everything by its port.
fn row_tables(ports: &[usize]) -> Vec<u8> {
    let table = |(place, port): (usize, &usize)| sends((9, 100 + place), *port);
    lay_tables(&ports.iter().enumerate().map(table).collect::<Vec<Table>>(), 0xff)
}

fn shapes(group: &mut Group, _: &mut Draw) -> Outcome {
    let mut ring = chain(16, 1);
    ring.join(0, 15);
    // In the ring port 1 of the first node and port 2 of the others lead on, the others back.
    let mut on = [2; 16];
    on[0] = 1;
    let mut back = [1; 16];
    back[0] = 2;
    let until = |port: usize| {
        let mut ports = on;
        ports[15] = port;
        ports
    };
    let one_way = ring.clone().direct(&[1; 16]);
    let up: Vec<u8> = (0..16).collect();
    let round = [&up[..], &[0]].concat();
    let down: Vec<u8> = [0].into_iter().chain((0..16).rev()).collect();
    let half: Vec<u8> = (7..16).chain(0..8).collect();
    let stranger = (8, 100);
    let pair = chain(2, 48);
    let known: [(&str, &Draft, &[usize], usize, Station, &[u8], u8); 16] = [
        ("the longest way", &ring, &on, 0, stranger, &round, MET_BEFORE),
        ("the other way round", &ring, &back, 0, stranger, &down, MET_BEFORE),
        ("from the middle", &ring, &on, 7, stranger, &half, MET_BEFORE),
        ("delivered at the last node", &ring, &on, 0, (9, 115), &up, DELIVERED),
        ("not at the last node", &ring, &until(0), 0, stranger, &up, WITHOUT_ROUTE),
        ("not from the last node", &ring, &until(9), 0, stranger, &up, WITHOUT_LINK),
        ("back where it came in", &ring, &until(1), 0, stranger, &up, WITHOUT_ROUTE),
        ("one way", &one_way, &on, 0, stranger, &up, WITHOUT_LINK),
        ("one way, back", &one_way, &back, 0, stranger, &[0, 15], WITHOUT_LINK),
        ("over the last of 48", &pair, &[48, 48], 0, stranger, &[0, 1], WITHOUT_ROUTE),
        ("back over another", &pair, &[48, 47], 0, stranger, &[0, 1, 0], MET_BEFORE),
        ("no 49th", &pair, &[49, 1], 0, stranger, &[0], WITHOUT_LINK),
        ("one node, at home", &Draft::row(1), &[1], 0, (9, 100), &[0], DELIVERED),
        ("one node, no link", &Draft::row(1), &[1], 0, stranger, &[0], WITHOUT_LINK),
        ("one node, no entry", &Draft::row(1), &[0], 0, stranger, &[0], WITHOUT_ROUTE),
        ("no links", &Draft::row(16), &[63; 16], 15, (9, 100), &[15], WITHOUT_LINK),
    ];
    for (name, draft, ports, from, to, way, ending) in known {
        let handed = Handed::new(&draft.lay(), row_tables(ports));
        let came = journey(group, name, &handed, (9, 100 + from), Address::new(to.0, to.1, 1))?;
        group.check(came.number == 0 && came.way == way && came.ending == ending, || {
            let came = (came.number, came.way, came.ending);
            format!("{name}\n  expected {way:?} and {ending}\n  came {came:?}")
        })?;
    }
    let drafts = [chain(2, 48), chain(16, 1), turn(chain(16, 1)), ring, one_way, complete(10)];
    let others = [strands(), mesh(), largest(), Draft::row(16), Draft::row(1)];
    for draft in drafts.iter().chain(&others) {
        made(group, "by made tables", &draft.lay())?;
    }
    Ok(())
}

// ---- order ----

struct Asked {
    chart: Vec<u8>,
    tables: Vec<u8>,
    from: Station,
    to: Address,
    message: Vec<u8>,
    room: usize,
}

// The arrival port is the message's alone.
const ARRIVAL: usize = 1 << 1;

// The last number first, as a later row decides.
const BREACHES: [Breach<Asked>; 12] = [
    (10, |a| {
        a.room = WAY - 1;
        a.message.truncate(4);
    }),
    (51, |a| a.message[1] = 64),
    (51, |a| a.to.port = 64),
    (51, |a| a.to.node = 1024),
    (95, |a| a.tables[2] = 2),
    (95, |a| a.tables[3 * SIZE] = 8),
    (44, |a| {
        a.from = (9, 2);
        a.message[0] = 4;
    }),
    (50, |a| a.tables[3 * SIZE + 8] = 64),
    (50, |a| a.tables.truncate(TABLES - 1)),
    (28, |a| a.chart[123] = 31),
    (24, |a| a.chart[54] = 2),
    (21, |a| a.chart.insert(0, 1)),
];

fn asked(chosen: usize) -> (u8, Asked) {
    let mut asked = Asked {
        chart: S.to_vec(),
        tables: made_of_s(),
        from: (9, 1),
        to: QUAY,
        message: vec![0, 0, 0, 1, 0],
        room: WAY,
    };
    let lowest = break_rules(&BREACHES, chosen, &mut asked);
    (lowest.unwrap_or(0), asked)
}

// Every choice of breaches at once: the chart's number, then 50, 44, 95, 51 and 10.
fn order(group: &mut Group, _: &mut Draw) -> Outcome {
    for chosen in 0..1 << BREACHES.len() {
        let refusal = |number: u8| match number {
            28 => (28, 115),
            24 => (24, 43),
            number => (number, 0),
        };
        let (number, Asked { chart, tables, from, to, message, room }) = asked(chosen);
        let handed = Handed::new(&chart, tables);
        let came = try_step(group, "order", &handed, to, &message)?;
        known(group, "order", refusal(number), (came.number, came.first_beside()))?;
        if chosen & ARRIVAL == 0 {
            let came = try_pass(group, "order", &handed, from, to, room)?;
            known(group, "order", refusal(number), (came.number, came.numbers_beside()[2]))?;
            let came = try_begin(group, "order", &handed, from, to, message.len())?;
            known(group, "order", refusal(number), (came.number, came.first_beside()))?;
        }
    }
    Ok(())
}

// ---- rooms ----

// Every size of a way and of an image, for a message that is taken and for refused ones.
fn rooms(group: &mut Group, _: &mut Draw) -> Outcome {
    let (made, off) = (made_of_s(), changed(0, 8, 0));
    let requests: [(u8, &[u8], &[u8], Station, usize); 5] = [
        (0, &S, &made, (9, 1), 5),
        (31, &S[..115], &made, (9, 1), 5),
        (50, &S, &off, (9, 1), 5),
        (44, &S, &made, (9, 2), 5),
        (51, &S, &made, (9, 1), 64),
    ];
    for (number, chart, tables, from, port) in requests {
        let handed = Handed::new(chart, tables.to_vec());
        let to = Address::new(9, 30, port);
        let or_short = |short: bool| if number == 0 && short { 10 } else { number };
        for room in (0..=40).chain([255, 256, 1000, 1 << 16]) {
            let name = format!("a way of {room}");
            let came = try_pass(group, &name, &handed, from, to, room)?;
            group.known(&name, or_short(room < 17), came.number)?;
            let name = format!("an image of {room}");
            let came = try_begin(group, &name, &handed, from, to, room)?;
            group.known(&name, or_short(room < 5), came.number)?;
            let mut image = vec![0x99; room];
            let place = if from == (9, 1) { 0 } else { 4 };
            image.iter_mut().zip([place, 0, 0, 1, 0]).for_each(|(at, byte)| *at = byte);
            let came = try_step(group, &name, &handed, to, &image)?;
            let number = if number == 44 && room == 0 { 10 } else { or_short(room < 5) };
            group.known(&name, number, came.number)?;
        }
    }
    // What an image lacks is 0: place 0 is a node, and so is port 0 an arrival port.
    let handed = Handed::new(&S, made);
    let short: [(u8, &[u8]); 8] = [
        (10, &[]),
        (10, &[3]),
        (44, &[4]),
        (44, &[255]),
        (10, &[3, 63]),
        (51, &[3, 64]),
        (44, &[4, 64]),
        (10, &[3, 0, 255, 255]),
    ];
    for (number, image) in short {
        let came = try_step(group, "a short image", &handed, QUAY, image)?;
        group.known("a short image", number, came.number)?;
    }
    Ok(())
}

// ---- sweeps ----

// All three calls, one after the other.
fn all_calls(
    group: &mut Group,
    name: &str,
    handed: &Handed,
    from: Station,
    to: Address,
) -> Result<u8, Stop> {
    let number = try_pass(group, name, handed, from, to, WAY)?.number;
    let begun = try_begin(group, name, handed, from, to, MESSAGE)?;
    let message = if begun.number == 0 { begun.bytes() } else { &[1, 1, 0, 3, 0] };
    try_step(group, name, handed, to, message)?;
    Ok(number)
}

// S and the one-way chart with every value of every byte, beside tables for their four nodes.
fn chart_sweeps(group: &mut Group, _: &mut Draw) -> Outcome {
    let mut taken = 0;
    for (whole, tables) in [(&S[..], made_of_s()), (&ONE_WAY, typed([3, 2, 3, 2]))] {
        for at in 0..whole.len() {
            for value in 0..=u8::MAX {
                let mut chart = whole.to_vec();
                chart[at] = value;
                let handed = Handed::new(&chart, tables.clone());
                let number = all_calls(group, "every byte of a chart", &handed, (9, 1), QUAY)?;
                taken += u64::from(number == 0);
            }
        }
    }
    group.check(taken > 5_000, || format!("{taken} charts taken"))?;
    Ok(())
}

// The tables of S with every value of every byte that is looked at and of the place after it, with
// some values of those further on, and of the tables past the nodes, which tell nothing.
fn table_sweeps(group: &mut Group, _: &mut Draw) -> Outcome {
    let mut tables = made_of_s();
    for at in 0..4 * SIZE {
        let is_tried = |value: &u8| at % SIZE < MADE[0].len() + 6 || value.count_ones() < 2;
        for value in (0..=u8::MAX).filter(is_tried) {
            let old = std::mem::replace(&mut tables[at], value);
            let handed = Handed::new(&S, tables.clone());
            let turn = at + usize::from(value);
            let (brigade, node) = STATIONS[turn / 4 % 4];
            let to = Address::new(brigade, node, 1);
            all_calls(group, "every byte of a table", &handed, STATIONS[turn % 4], to)?;
            tables[at] = old;
        }
    }
    let expected = Ok(Given::new(vec![0, 1, 3], &[3, 1, 0]));
    for at in 4 * SIZE..TABLES {
        for value in [0, 1, 2, 9, 33] {
            let old = std::mem::replace(&mut tables[at], value);
            let came = door::pass(&S, &tables, (9, 1), QUAY, WAY);
            group.compare(&came, &expected, || format!("byte {at} of the tables is {value}"))?;
            tables[at] = old;
        }
    }
    Ok(())
}

// Every node to begin at, every destination's node and brigade, and every port.
fn asked_sweeps(group: &mut Group, _: &mut Draw) -> Outcome {
    let handed = Handed::new(&S, typed([2, 2, 1, 0]));
    let mut taken = 0;
    for word in 0..1 << 16 {
        let name = "every node";
        let came = try_pass(group, name, &handed, (9, word), QUAY, WAY)?;
        taken += u64::from(came.number == 0);
        try_pass(group, name, &handed, (9, 1), Address::new(9, word, 1), WAY)?;
        let (brigade, port) = (word >> 8, word & 255);
        try_pass(group, "every port", &handed, (9, 21), Address::new(brigade, 30, port), WAY)?;
        if word % 61 == 0 || word < 1100 {
            all_calls(group, name, &handed, (9, word), QUAY)?;
            all_calls(group, name, &handed, (9, 1), Address::new(9, word, 1))?;
            all_calls(group, name, &handed, (brigade, 30), Address::new(brigade, 30, port))?;
        }
    }
    group.check(taken == 4, || format!("{taken} nodes of S to begin at"))?;
    Ok(())
}

// ---- messages ----

// Every place with every arrival port, every word of nodes met and every ending.
fn messages(group: &mut Group, _: &mut Draw) -> Outcome {
    let tables = [made_of_s(), typed([2, 3, 2, 1])];
    for handed in tables.map(|tables| Handed::new(&S, tables)) {
        for word in 0..1 << 16 {
            let [high, low] = (word as u16).to_be_bytes();
            let place = low % 5;
            try_step(group, "every place and port", &handed, QUAY, &[high, low, 0, 1, 0])?;
            try_step(group, "all nodes met", &handed, QUAY, &[word as u8 % 4, 0, high, low, 0])?;
            let name = "every place and ending";
            try_step(group, name, &handed, QUAY, &[high, 0, 0, low, place])?;
            try_step(group, name, &handed, QUAY, &[place, high, 0, 9, low])?;
        }
    }
    Ok(())
}

// ---- switches and directions ----

// Every choice of on and off for the links of S.
fn switches(group: &mut Group, _: &mut Draw) -> Outcome {
    for chosen in 0..1 << 6 {
        let mut draft = Draft::s();
        for (place, link) in draft.links.iter_mut().enumerate() {
            link.on = chosen >> place & 1;
        }
        made(group, "switches", &draft.lay())?;
        made(group, "switches, directed", &draft.directed().lay())?;
    }
    Ok(())
}

// Every choice of a direction for the links of S, all on: by the tables made, and by some typed.
fn directions(group: &mut Group, _: &mut Draw) -> Outcome {
    let tables = [[2, 3, 2, 1], [3, 1, 3, 3], [4, 2, 1, 2]].map(typed);
    for chosen in 0..3usize.pow(6) {
        let mut draft = Draft::s().directed();
        for (place, link) in draft.links.iter_mut().enumerate() {
            link.on = 1;
            link.direction = chosen / 3usize.pow(place as u32) % 3;
        }
        made(group, "directions", &draft.lay())?;
        for tables in &tables {
            let handed = Handed::new(&draft.lay(), tables.clone());
            for from in STATIONS {
                journey(group, "directions, typed", &handed, from, Address::new(9, 99, 1))?;
            }
        }
    }
    Ok(())
}
