//! pz_choose against the second choice: the cases of document 01, both sides of every limit, the
//! order of the refusals, every value of every byte, and drawn tables and destinations.

use crate::door::{self, hex, Answer, Expected, Given};
use crate::draw::Draw;
use crate::group::{Group, Outcome, Stop, Tally, Tests};
use crate::router::{self, Choice, Entry, Table, BRIGADE, EVERYTHING, MOST_ENTRIES, ONE_NODE};
use crate::rules::{break_rules, Breach};
use crate::wire::Address;

pub const GROUPS: &[Tests] = &[
    ("routing stories", stories),
    ("routing limits", limits),
    ("routing order", order),
    ("routing sweeps", sweeps),
    ("routing draws", draws),
];

const DRAWN: usize = 200_000;

// A table, a destination, an arrival port and the size of the image that is lent.
#[derive(Clone)]
struct Case {
    table: Table,
    destination: Address,
    arrival: usize,
    size: usize,
}

type Change = fn(&mut Case);
type Fault = fn(&mut Case, &mut Draw);

// ---- one call, compared ----

fn expected_choice(image: &[u8], destination: Address, arrival: usize) -> Expected {
    let choice = router::choose(&Table::take(image)?, destination, arrival)?;
    Ok(match choice {
        Choice::Local(port) => Given::new(vec![], &[1, port]),
        Choice::Out(port) => Given::new(vec![], &[0, port]),
    })
}

fn try_choose(
    group: &mut Group,
    name: &str,
    image: &[u8],
    destination: Address,
    arrival: usize,
) -> Result<Answer, Stop> {
    let came = door::choose(image, destination, arrival);
    group.compare(&came, &expected_choice(image, destination, arrival), || {
        format!("{name}: pz_choose, {destination} from port {arrival}, table {}", hex(image))
    })?;
    Ok(came)
}

// Checks number, local and out port that are known beforehand.
fn known(group: &mut Group, name: &str, [number, local, out]: [u8; 3], case: &Case) -> Outcome {
    // Past the entries stand such as would be refused, or would qualify.
    for filler in [[0xff; 6], [2, 0, 0, 0, 61, 1]] {
        let mut image = case.table.lay();
        image.extend(filler.iter().cycle().take(case.size));
        image.truncate(case.size);
        let came = try_choose(group, name, &image, case.destination, case.arrival)?;
        let expected = match number {
            0 => Ok(Given::new(vec![], &[local.into(), out.into()])),
            _ => Err(number),
        };
        group.compare(&came, &expected, || format!("{name}: pz_choose, known beforehand"))?;
    }
    Ok(())
}

// ---- named cases ----

fn one_node(brigade: usize, node: usize, port: usize) -> Entry {
    Entry { kind: ONE_NODE, brigade, node, port, on: 1 }
}

fn brigade(brigade: usize, port: usize) -> Entry {
    Entry { kind: BRIGADE, brigade, node: 0, port, on: 1 }
}

fn everything(port: usize) -> Entry {
    Entry { kind: EVERYTHING, brigade: 0, node: 0, port, on: 1 }
}

fn off(entry: Entry) -> Entry {
    Entry { on: 0, ..entry }
}

/// Table T of document 01.
pub fn table_t() -> Table {
    let entries = vec![off(one_node(9, 20, 2)), brigade(9, 3), everything(4)];
    Table { brigade: 9, node: 1, count: entries.len(), entries }
}

// Table T, and the destination of P7.
fn plain() -> Case {
    let destination = Address::new(9, 20, 5);
    Case { table: table_t(), destination, arrival: 0, size: router::SIZE }
}

fn hold(case: &mut Case, entries: &[Entry]) {
    case.table.entries = entries.to_vec();
    case.table.count = entries.len();
}

// Sets this many entries, of which the last alone matches the destination.
fn hold_many(case: &mut Case, count: usize) {
    let mut entries = vec![one_node(9, 21, 2); count];
    entries[count - 1] = one_node(9, 20, 7);
    hold(case, &entries);
}

// T as its image's bytes: own 9/1, three entries.
const T: [u8; 22] = [9, 0, 1, 3, 0, 9, 0, 20, 2, 0, 1, 9, 0, 0, 3, 1, 2, 0, 0, 0, 4, 1];

fn stories(group: &mut Group, _: &mut Draw) -> Outcome {
    group.check(table_t().lay() == T, || "table T is not laid as by hand".to_string())?;
    for (name, came, destination, arrival) in [
        ("P7", [0, 0, 3], Address::new(9, 20, 5), 0),
        ("P8", [0, 0, 4], Address::new(9, 20, 5), 3),
        ("P9", [52, 0, 0], Address::new(12, 7, 1), 4),
    ] {
        known(group, name, came, &Case { destination, arrival, ..plain() })?;
    }
    for arrival in 0..=255 {
        let came = if arrival <= 63 { [0, 1, 6] } else { [51, 0, 0] };
        let destination = Address::new(9, 1, 6);
        known(group, "P10", came, &Case { destination, arrival, ..plain() })?;
    }
    Ok(())
}

const LIMITS: [(&str, [u8; 3], Change); 75] = [
    ("own node 1023", [0, 0, 3], |c| c.table.node = 1023),
    ("own node 1024", [50, 0, 0], |c| c.table.node = 1024),
    ("own node 65535", [50, 0, 0], |c| c.table.node = 65535),
    ("own node 1023, local", [0, 1, 5], |c| {
        c.table.node = 1023;
        c.destination.node = 1023;
    }),
    ("own node and destination 1024", [50, 0, 0], |c| {
        c.table.node = 1024;
        c.destination.node = 1024;
    }),
    ("own brigade 0", [0, 0, 3], |c| c.table.brigade = 0),
    ("own brigade 255", [0, 0, 3], |c| c.table.brigade = 255),
    ("own node, another brigade", [0, 0, 4], |c| c.destination = Address::new(8, 1, 5)),
    ("own brigade, another node", [0, 0, 3], |c| c.destination = Address::new(9, 2, 5)),
    ("own node but for its high byte", [0, 0, 3], |c| c.destination.node = 257),
    ("own station at port 0", [0, 1, 0], |c| c.destination = Address::new(9, 1, 0)),
    ("own station at port 63", [0, 1, 63], |c| c.destination = Address::new(9, 1, 63)),
    ("own station at port 64", [51, 0, 0], |c| c.destination = Address::new(9, 1, 64)),
    ("own station in an entry", [0, 1, 6], |c| {
        hold(c, &[one_node(9, 1, 2)]);
        c.destination = Address::new(9, 1, 6);
    }),
    ("own station in the arrival port's entry", [0, 1, 2], |c| {
        hold(c, &[one_node(9, 1, 2)]);
        c.destination = Address::new(9, 1, 2);
        c.arrival = 2;
    }),
    ("own station without entries", [0, 1, 6], |c| {
        hold(c, &[]);
        c.destination = Address::new(9, 1, 6);
    }),
    ("an entry's node 1023", [0, 0, 7], |c| {
        hold(c, &[one_node(9, 1023, 7)]);
        c.destination.node = 1023;
    }),
    ("an entry's node 1024", [50, 0, 0], |c| hold(c, &[one_node(9, 1024, 7), everything(4)])),
    ("an entry's node 65535", [50, 0, 0], |c| hold(c, &[one_node(9, 65535, 7), everything(4)])),
    ("an off entry's node 1024", [50, 0, 0], |c| c.table.entries[0].node = 1024),
    ("the last entry's node 1024", [50, 0, 0], |c| hold(c, &[everything(4), one_node(9, 1024, 7)])),
    ("32nd entry's node 1024", [50, 0, 0], |c| {
        hold_many(c, MOST_ENTRIES);
        c.table.entries[31].node = 1024;
    }),
    ("local beside an entry's node 1024", [50, 0, 0], |c| {
        hold(c, &[one_node(9, 1024, 7)]);
        c.destination = Address::new(9, 1, 6);
    }),
    ("a brigade's node bytes 1024", [0, 0, 3], |c| c.table.entries[1].node = 1024),
    ("a brigade's node bytes 65535", [0, 0, 3], |c| c.table.entries[1].node = 65535),
    ("everything's node bytes 65535", [0, 0, 4], |c| {
        c.table.entries[2].node = 65535;
        c.arrival = 3;
    }),
    ("everything's brigade byte 255", [0, 0, 4], |c| {
        c.table.entries[2].brigade = 255;
        c.arrival = 3;
    }),
    ("out port 0", [50, 0, 0], |c| c.table.entries[1].port = 0),
    ("out port 1", [0, 0, 1], |c| c.table.entries[1].port = 1),
    ("out port 63", [0, 0, 63], |c| c.table.entries[1].port = 63),
    ("out port 64", [50, 0, 0], |c| c.table.entries[1].port = 64),
    ("out port 255", [50, 0, 0], |c| c.table.entries[1].port = 255),
    ("an off entry's out port 0", [50, 0, 0], |c| c.table.entries[0].port = 0),
    ("an off entry's out port 64", [50, 0, 0], |c| c.table.entries[0].port = 64),
    ("the last entry's out port 0", [50, 0, 0], |c| c.table.entries[2].port = 0),
    ("the last entry's out port 64", [50, 0, 0], |c| c.table.entries[2].port = 64),
    ("32nd entry's out port 64", [50, 0, 0], |c| {
        hold_many(c, MOST_ENTRIES);
        c.table.entries[31].port = 64;
    }),
    ("kind 2 in the second entry", [0, 0, 3], |c| c.table.entries[1].kind = 2),
    ("kind 3", [50, 0, 0], |c| c.table.entries[1].kind = 3),
    ("kind 255", [50, 0, 0], |c| c.table.entries[1].kind = 255),
    ("an off entry's kind 3", [50, 0, 0], |c| c.table.entries[0].kind = 3),
    ("the last entry's kind 3", [50, 0, 0], |c| c.table.entries[2].kind = 3),
    ("the first entry on", [0, 0, 2], |c| c.table.entries[0].on = 1),
    ("on 2", [50, 0, 0], |c| c.table.entries[0].on = 2),
    ("on 255", [50, 0, 0], |c| c.table.entries[0].on = 255),
    ("the last entry's on 2", [50, 0, 0], |c| c.table.entries[2].on = 2),
    ("destination node 1023", [0, 0, 3], |c| c.destination.node = 1023),
    ("destination node 1024", [51, 0, 0], |c| c.destination.node = 1024),
    ("destination node 1044, 20 in ten bits", [51, 0, 0], |c| c.destination.node = 1044),
    ("destination port 0", [0, 0, 3], |c| c.destination.port = 0),
    ("destination port 63", [0, 0, 3], |c| c.destination.port = 63),
    ("destination port 64", [51, 0, 0], |c| c.destination.port = 64),
    ("destination brigade 255", [0, 0, 4], |c| c.destination.brigade = 255),
    ("arrival port 63", [0, 0, 3], |c| c.arrival = 63),
    ("arrival port 64", [51, 0, 0], |c| c.arrival = 64),
    ("arrival port 67, 3 in six bits", [51, 0, 0], |c| c.arrival = 67),
    ("arrival port 255", [51, 0, 0], |c| c.arrival = 255),
    ("arrival port 63, the one out port", [52, 0, 0], |c| {
        hold(c, &[everything(63)]);
        c.arrival = 63;
    }),
    ("no entries", [52, 0, 0], |c| hold(c, &[])),
    ("1 entry", [0, 0, 7], |c| hold_many(c, 1)),
    ("1 entry, off", [52, 0, 0], |c| hold(c, &[off(everything(7))])),
    ("32 entries, the last one matches", [0, 0, 7], |c| hold_many(c, MOST_ENTRIES)),
    ("31 of 32 entries count", [52, 0, 0], |c| {
        hold_many(c, MOST_ENTRIES);
        c.table.count = 31;
    }),
    ("count 33", [50, 0, 0], |c| {
        hold_many(c, MOST_ENTRIES);
        c.table.count = 33;
    }),
    ("33 entries in an image with room", [50, 0, 0], |c| {
        hold_many(c, MOST_ENTRIES + 1);
        c.size = router::SIZE + 6;
    }),
    ("32 of 33 entries in an image with room", [52, 0, 0], |c| {
        hold_many(c, MOST_ENTRIES + 1);
        c.table.count = 32;
        c.size = router::SIZE + 6;
    }),
    ("count 255", [50, 0, 0], |c| c.table.count = 255),
    ("two that qualify", [0, 0, 7], |c| hold(c, &[one_node(9, 20, 7), one_node(9, 20, 8)])),
    ("two that qualify, the wide one first", [0, 0, 8], |c| {
        hold(c, &[everything(8), brigade(9, 6), one_node(9, 20, 7)])
    }),
    ("the same out port twice, it is the arrival port", [0, 0, 9], |c| {
        hold(c, &[one_node(9, 20, 7), brigade(9, 7), everything(9)]);
        c.arrival = 7;
    }),
    ("an entry alike but for the brigade", [52, 0, 0], |c| hold(c, &[one_node(8, 20, 7)])),
    ("an entry alike but for the node's high byte", [52, 0, 0], |c| {
        hold(c, &[one_node(9, 276, 7)])
    }),
    ("an entry alike but for the node's low byte", [52, 0, 0], |c| hold(c, &[one_node(9, 21, 7)])),
    ("an entry of another brigade", [52, 0, 0], |c| hold(c, &[brigade(20, 7)])),
    ("the entry for it is past the count", [0, 0, 4], |c| {
        hold(c, &[everything(4), one_node(9, 20, 7)]);
        c.table.count = 1;
    }),
];

// Image sizes, and whether that is enough.
const SIZES: [(usize, bool); 7] =
    [(0, false), (4, false), (22, false), (195, false), (196, true), (197, true), (1 << 16, true)];

fn limits(group: &mut Group, _: &mut Draw) -> Outcome {
    for (name, came, change) in LIMITS {
        let mut case = plain();
        change(&mut case);
        known(group, name, came, &case)?;
    }
    for (size, is_enough) in SIZES {
        let came = if is_enough { [0, 0, 3] } else { [50, 0, 0] };
        known(group, "image sizes", came, &Case { size, ..plain() })?;
    }
    Ok(())
}

// The last number first, as a later row decides.
const BREACHES: [Breach<Case>; 13] = [
    (52, |c| c.table.entries[0].on = 0),
    (52, |c| c.arrival = 4),
    (51, |c| c.destination.node = 1024),
    (51, |c| c.destination.port = 64),
    (51, |c| c.arrival = 64),
    (50, |c| c.table.node = 1024),
    (50, |c| c.table.entries[0].kind = 3),
    (50, |c| c.table.entries[0].on = 2),
    (50, |c| c.table.entries[0].port = 0),
    (50, |c| c.table.entries[0].port = 64),
    (50, |c| c.table.entries[0].node = 1024),
    (50, |c| c.table.count = 33),
    (50, |c| c.size = router::SIZE - 1),
];

// Every choice of breaches at once: the lowest number comes.
fn order(group: &mut Group, _: &mut Draw) -> Outcome {
    for chosen in 0..1 << BREACHES.len() {
        let mut case = plain();
        hold(&mut case, &[one_node(9, 20, 4)]);
        let lowest = break_rules(&BREACHES, chosen, &mut case);
        let came = lowest.map_or([0, 0, 4], |number| [number, 0, 0]);
        known(group, "order", came, &case)?;
    }
    Ok(())
}

fn sweeps(group: &mut Group, _: &mut Draw) -> Outcome {
    let mut case = plain();
    case.table.entries[0].on = 1;
    case.table.entries.push(one_node(12, 1023, 63));
    case.table.entries.resize(MOST_ENTRIES, one_node(12, 7, 62));
    let targets = [(9, 20), (12, 7), (12, 1023), (9, 1)];
    let destinations = targets.map(|(brigade, node)| Address::new(brigade, node, 5));
    for (count, arrival) in [(4, 2), (MOST_ENTRIES, 63)] {
        case.table.count = count;
        let image = case.table.lay();
        for place in 0..image.len() {
            for value in 0..=u8::MAX {
                let mut image = image.clone();
                image[place] = value;
                let destination = destinations[(place + usize::from(value)) % targets.len()];
                try_choose(group, "every byte of a table", &image, destination, arrival)?;
            }
        }
        for word in 0..1 << 16 {
            let destination = Address::new(9, word, 5);
            try_choose(group, "every destination node", &image, destination, arrival)?;
            let (port, arrival) = (word >> 8, word & 255);
            let destination = Address::new(12, 1023, port);
            try_choose(group, "every port and arrival port", &image, destination, arrival)?;
            let own = Address::new(9, 1, port);
            try_choose(group, "every own port and arrival port", &image, own, arrival)?;
        }
    }
    Ok(())
}

// ---- drawn cases ----

/// Draws one of a few stations, many of them alike but for the brigade or a byte of the node.
pub fn draw_station(draw: &mut Draw) -> (usize, usize) {
    (draw.one_of(&[0, 8, 9, 255]), draw.one_of(&[0, 1, 2, 257, 1023]))
}

// Draws an entry that keeps every rule; what means nothing in it is noise.
fn draw_entry(draw: &mut Draw, kinds: &[usize]) -> Entry {
    let (brigade, node) = draw_station(draw);
    let noise = draw.below(1 << 16);
    let any = draw.within(1, 63);
    let entry = Entry {
        kind: draw.one_of(kinds),
        brigade,
        node,
        port: draw.one_of(&[1, 2, 3, 63, any]),
        on: draw.one_of(&[1, 1, 1, 0]),
    };
    match entry.kind {
        ONE_NODE => entry,
        BRIGADE => Entry { node: noise, ..entry },
        _ => Entry { node: noise, brigade: noise >> 8, ..entry },
    }
}

/// Draws a table that keeps every rule, with more such entries past its count, or noise.
pub fn draw_table(draw: &mut Draw) -> Table {
    let (brigade, node) = draw_station(draw);
    let few = draw.within(2, 6);
    let many = draw.within(7, 31);
    let count = draw.one_of(&[0, 1, 1, few, few, few, many, MOST_ENTRIES]);
    let kinds: &[usize] = match draw.below(4) {
        0 => &[ONE_NODE],
        1 => &[ONE_NODE, BRIGADE],
        _ => &[ONE_NODE, ONE_NODE, ONE_NODE, BRIGADE, BRIGADE, EVERYTHING],
    };
    let mut entries: Vec<Entry> = (0..MOST_ENTRIES).map(|_| draw_entry(draw, kinds)).collect();
    if draw.below(2) == 0 {
        let noise = draw.bytes(router::SIZE);
        let noise = Table::take(&noise).expect("a table's size").entries;
        entries[count..].copy_from_slice(&noise[count..]);
    }
    Table { brigade, node, count, entries }
}

// Changes an entry, most often one that counts.
fn change_entry(table: &mut Table, draw: &mut Draw, change: fn(&mut Entry, &mut Draw)) {
    let counted = table.count.clamp(1, MOST_ENTRIES);
    let reach = draw.one_of(&[counted, counted, counted, MOST_ENTRIES]);
    change(&mut table.entries[draw.below(reach)], draw);
}

/// What a table can get wrong; a node out of range means nothing in some kinds of entry.
pub const TABLE_FAULTS: [fn(&mut Table, &mut Draw); 7] = [
    |t, draw| t.count = draw.one_of(&[33, 34, 64, 128, 255]),
    |t, draw| t.node = draw.bad_node(),
    |t, draw| change_entry(t, draw, |e, draw| e.kind = draw.within(3, 255)),
    |t, draw| change_entry(t, draw, |e, draw| e.on = draw.within(2, 255)),
    |t, draw| change_entry(t, draw, |e, draw| e.node = draw.bad_node()),
    |t, draw| change_entry(t, draw, |e, draw| e.port = draw.bad_port()),
    |t, draw| change_entry(t, draw, |e, _| e.port = 0),
];

const CASE_FAULTS: [Fault; 6] = [
    |c, draw| draw.one_of(&TABLE_FAULTS)(&mut c.table, draw),
    |c, draw| draw.one_of(&TABLE_FAULTS)(&mut c.table, draw),
    |c, draw| c.size = draw.one_of(&[0, 4, 195, 195]),
    |c, draw| c.destination.node = draw.bad_node(),
    |c, draw| c.destination.port = draw.bad_port(),
    |c, draw| c.arrival = draw.bad_port(),
];

// Draws a case without a fault: to the own station, to an entry's, or to any.
fn draw_case(draw: &mut Draw) -> Case {
    let table = draw_table(draw);
    let looked_at = table.count.max(1);
    let aim = table.entries[draw.below(looked_at)];
    let other = table.entries[draw.below(looked_at)];
    let (brigade, node) = match draw.below(5) {
        0 => (table.brigade, table.node),
        1 | 2 => (aim.brigade, aim.node.min(1023)),
        3 => draw_station(draw),
        _ => (draw.below(256), draw.below(1024)),
    };
    let any = draw.within(0, 63);
    let arrival = draw.one_of(&[0, aim.port.min(63), other.port.min(63), any]);
    let destination = Address::new(brigade, node, draw.within(0, 63));
    let size = draw.one_of(&[196, 196, 196, 196, 197, 202, 300]);
    Case { table, destination, arrival, size }
}

fn draws(group: &mut Group, draw: &mut Draw) -> Outcome {
    let mut local = Tally::new("pz_choose, local");
    let mut other = Tally::new("pz_choose, not local");
    for _ in 0..DRAWN {
        let mut case = draw_case(draw);
        for _ in 0..draw.one_of(&[0, 0, 0, 0, 1, 1, 1, 2]) {
            draw.one_of(&CASE_FAULTS)(&mut case, draw);
        }
        let mut image = case.table.lay();
        let noise = draw.bytes(300);
        image.extend(noise);
        image.truncate(case.size);
        let came = try_choose(group, "drawn", &image, case.destination, case.arrival)?;
        let tally = if came.first_beside() == 1 { &mut local } else { &mut other };
        tally.saw(came.number);
    }
    local.settle(group, &[0])?;
    other.settle(group, &[0, 50, 51, 52])
}
