//! Drawn charts with a table for each node: made from the chart, then damaged, or typed by somebody
//! who knows the ports; messages from each node to each and to others, begun and taken on; messages
//! of any bytes; and charts and tables that are refused.

use crate::chart_draft::{Draft, Station};
use crate::chart_draws::{damage, draw_draft, draw_other};
use crate::class::{DELIVERED, MESSAGE, MET_BEFORE, TABLES, WAY, WITHOUT_LINK, WITHOUT_ROUTE};
use crate::class_call::{journey, lay_tables, made, try_begin, try_pass, try_step, Handed};
use crate::draw::Draw;
use crate::group::{Group, Outcome, Stop, Tally, Tests};
use crate::router::{Entry, Table, BRIGADE, EVERYTHING, MOST_ENTRIES, ONE_NODE, SIZE};
use crate::routing::TABLE_FAULTS;
use crate::table::Tables;
use crate::trace_draws::draw_net;
use crate::wire::Address;

pub const GROUPS: &[Tests] =
    &[("class made", by_made), ("class typed", by_typed), ("class drawn", drawn)];

const MADE: usize = 300;
const TYPED: usize = 700;
const DRAWN: usize = 4_000;
const ANEW: usize = 6;

// Times that each number must come, and each ending.
const OFTEN: u64 = 40;

// ---- charts and tables ----

// Draws a chart of any size, or of a shape with many routes.
fn draw_chart(draw: &mut Draw) -> Draft {
    match draw.below(2) {
        0 => draw_draft(draw),
        _ => draw_net(draw),
    }
}

fn stations(draft: &Draft) -> Vec<Station> {
    draft.nodes.iter().map(|node| node.station).collect()
}

// The ports of a node that have a link, on or off and in any direction.
fn ports(draft: &Draft, (brigade, node): Station) -> Vec<usize> {
    let ends = draft.links.iter().flat_map(|link| link.ends);
    ends.filter(|end| (end.brigade, end.node) == (brigade, node)).map(|end| end.port).collect()
}

// The ports of a node at which a link can be left.
fn usable_ports(draft: &Draft, (brigade, node): Station) -> Vec<usize> {
    let mut ports = Vec::new();
    for link in draft.links.iter().filter(|link| link.on == 1) {
        for (near, against) in [(link.ends[0], 2), (link.ends[1], 1)] {
            if (near.brigade, near.node) == (brigade, node) && link.direction != against {
                ports.push(near.port);
            }
        }
    }
    ports
}

// Draws a port of a node, most often one that has a link.
fn draw_port(draw: &mut Draw, draft: &Draft, own: Station) -> usize {
    let ports = ports(draft, own);
    match ports.len() {
        0 => draw.within(1, 63),
        _ if draw.below(12) == 0 => draw.within(1, 63),
        count => ports[draw.below(count)],
    }
}

// Draws an entry of a node's table, for a node of the chart, for its brigade or for everything;
// what means nothing in it is noise.
fn draw_entry(draw: &mut Draw, draft: &Draft, own: Station, kinds: &[usize]) -> Entry {
    let stations = stations(draft);
    let (brigade, node) = stations[draw.below(stations.len())];
    let port = draw_port(draw, draft, own);
    let noise = draw.below(1 << 16);
    let entry =
        Entry { kind: draw.one_of(kinds), brigade, node, port, on: draw.one_of(&[1, 1, 1, 1, 0]) };
    match entry.kind {
        ONE_NODE => entry,
        BRIGADE => Entry { node: noise, ..entry },
        _ => Entry { node: noise, brigade: noise >> 8, ..entry },
    }
}

// Draws a node's table as somebody types it, in range.
fn draw_typed(draw: &mut Draw, draft: &Draft, own: Station) -> Table {
    let few = draw.within(2, 5);
    let count = draw.one_of(&[0, 1, 1, 1, 1, few, few, few, MOST_ENTRIES]);
    let kinds: &[usize] = draw.one_of(&[
        &[ONE_NODE],
        &[EVERYTHING],
        &[EVERYTHING],
        &[ONE_NODE, BRIGADE],
        &[ONE_NODE, ONE_NODE, BRIGADE, EVERYTHING],
    ]);
    let entries = (0..MOST_ENTRIES).map(|_| draw_entry(draw, draft, own, kinds)).collect();
    Table { brigade: own.0, node: own.1, count, entries }
}

// What somebody does to a table that was right: it stays in range, and its node's own.
type Slip = fn(&mut Table, &mut Draw, &Draft);

// An entry that counts, if there is one.
fn slip(table: &mut Table, draw: &mut Draw, change: impl FnOnce(&mut Entry, &mut Draw)) {
    if table.count > 0 {
        let place = draw.below(table.count);
        change(&mut table.entries[place], draw);
    }
}

// Two entries that count, one in the other's place.
fn exchange(table: &mut Table, draw: &mut Draw) {
    if table.count > 1 {
        let (one, other) = (draw.below(table.count), draw.below(table.count));
        table.entries.swap(one, other);
    }
}

fn own(table: &Table) -> Station {
    (table.brigade, table.node)
}

const SLIPS: [Slip; 9] = [
    |t, draw, draft| {
        let port = draw_port(draw, draft, own(t));
        slip(t, draw, |entry, _| entry.port = port);
    },
    |t, draw, _| slip(t, draw, |entry, draw| entry.port = draw.within(1, 63)),
    |t, draw, _| slip(t, draw, |entry, _| entry.on = 0),
    |t, draw, _| slip(t, draw, |entry, _| entry.kind = EVERYTHING),
    |t, draw, _| slip(t, draw, |entry, _| entry.kind = BRIGADE),
    |t, draw, _| exchange(t, draw),
    |t, draw, _| {
        let before = t.entries.clone();
        exchange(t, draw);
        // The ports alone.
        for (entry, old) in t.entries.iter_mut().zip(before) {
            *entry = Entry { port: entry.port, ..old };
        }
    },
    |t, _, _| t.count = t.count.max(1) - 1,
    |t, draw, draft| {
        // One more in front of the others.
        let entry = draw_entry(draw, draft, own(t), &[ONE_NODE, BRIGADE, EVERYTHING]);
        t.entries.insert(0, entry);
        t.entries.truncate(MOST_ENTRIES);
        t.count = (t.count + 1).min(MOST_ENTRIES);
    },
];

// Draws one that sends everything on, by one of the links that can be passed from there.
fn draw_onward(draw: &mut Draw, draft: &Draft, own: Station) -> Table {
    let mut table = draw_typed(draw, draft, own);
    let ports = usable_ports(draft, own);
    table.count = ports.len().min(draw.within(1, 4));
    for entry in &mut table.entries[..table.count] {
        let port = ports[draw.below(ports.len())];
        *entry = Entry { kind: EVERYTHING, port, on: 1, ..*entry };
    }
    table
}

// Draws the tables of a chart's nodes: typed, for going on and on, or made from it, with slips.
fn draw_tables(draw: &mut Draw, draft: &Draft) -> Vec<Table> {
    let mut tables = Tables::of(&draft.lay()).all();
    match draw.below(4) {
        0 => tables = stations(draft).iter().map(|own| draw_typed(draw, draft, *own)).collect(),
        1 => tables = stations(draft).iter().map(|own| draw_onward(draw, draft, *own)).collect(),
        2 => {
            for _ in 0..draw.within(1, 3) {
                let place = draw.below(tables.len());
                draw.one_of(&SLIPS)(&mut tables[place], draw, draft);
            }
        }
        _ => {
            for table in &mut tables {
                (0..draw.below(4)).for_each(|_| draw.one_of(&SLIPS)(table, draw, draft));
            }
        }
    }
    tables
}

// Draws a destination: a node of the chart, or nearly, or any; at port 0, 63 or any.
fn draw_to(draw: &mut Draw, stations: &[Station]) -> Address {
    let one = stations[draw.below(stations.len())];
    let other = stations[draw.below(stations.len())];
    let stranger = draw_other(draw, stations);
    let (brigade, node) = draw.one_of(&[one, one, one, one, (one.0, other.1), stranger]);
    let any = draw.below(64);
    Address::new(brigade, node, draw.one_of(&[0, 63, any, any]))
}

// ---- made ----

fn by_made(group: &mut Group, draw: &mut Draw) -> Outcome {
    for _ in 0..MADE {
        made(group, "drawn", &draw_chart(draw).lay())?;
    }
    Ok(())
}

// ---- typed ----

// From each node to each and to one that is not there, by tables that keep every rule.
fn by_typed(group: &mut Group, draw: &mut Draw) -> Outcome {
    let mut endings = Tally::new("pz_pass, the endings");
    let mut longest = 0;
    for _ in 0..TYPED {
        let draft = draw_chart(draw);
        let tables = draw_tables(draw, &draft);
        let handed = Handed::new(&draft.lay(), lay_tables(&tables, draw.below(256) as u8));
        let stations = stations(&draft);
        let stranger = draw_other(draw, &stations);
        for from in &stations {
            for to in stations.iter().chain([&stranger]) {
                let to = Address::new(to.0, to.1, draw.one_of(&[0, 1, 63]));
                let came = journey(group, "typed", &handed, *from, to)?;
                group.known("typed", 0, came.number)?;
                let again = usize::from(came.ending == MET_BEFORE);
                group.check(came.way.len() <= stations.len() + again, || {
                    format!("{} nodes, and a way of {:?}", stations.len(), came.way)
                })?;
                endings.saw(came.ending);
                longest = longest.max(came.way.len());
            }
        }
    }
    group.check(longest > 10, || format!("{longest} nodes on the longest way"))?;
    endings.settle_often(group, &[DELIVERED, WITHOUT_ROUTE, WITHOUT_LINK, MET_BEFORE], 25 * OFTEN)
}

// ---- drawn ----

// A fault in the tables as they are handed over.
type Fault = fn(&mut Vec<u8>, &mut Draw, usize);

fn change_table(tables: &mut [u8], draw: &mut Draw, place: usize) {
    let part = &mut tables[place * SIZE..][..SIZE];
    let mut table = Table::take(part).expect("a whole table");
    draw.one_of(&TABLE_FAULTS)(&mut table, draw);
    part.copy_from_slice(&table.lay());
}

const FAULTS: [Fault; 9] = [
    // Out of range, in a table that counts or past them.
    |t, draw, nodes| {
        let place = draw.below(nodes);
        change_table(t, draw, place);
    },
    |t, draw, nodes| change_table(t, draw, nodes - 1),
    |t, draw, nodes| change_table(t, draw, nodes.min(15)),
    // Another node's table, or one of another brigade or node.
    |t, draw, nodes| {
        let (one, other) = (draw.below(nodes), draw.below(nodes));
        let part = t[one * SIZE..][..SIZE].to_vec();
        t.copy_within(other * SIZE..(other + 1) * SIZE, one * SIZE);
        t[other * SIZE..][..SIZE].copy_from_slice(&part);
    },
    |t, draw, nodes| t[draw.below(nodes) * SIZE] ^= 1 << draw.below(8),
    |t, draw, nodes| t[draw.below(nodes) * SIZE + 2] ^= 1 << draw.below(8),
    |t, draw, nodes| t[(nodes - 1) * SIZE + 1] ^= 1 << draw.below(2),
    |t, draw, _| t[draw.below(TABLES)] ^= 1 << draw.below(8),
    |t, draw, nodes| {
        let any = draw.below(TABLES);
        t.resize(draw.one_of(&[0, nodes * SIZE, TABLES - 1, any, TABLES + 1, TABLES + SIZE]), 1);
    },
];

// Draws a node to begin at: one of the chart's, or nearly, or none.
fn draw_from(draw: &mut Draw, stations: &[Station]) -> Station {
    let (brigade, node) = stations[draw.below(stations.len())];
    let stranger = draw_other(draw, stations);
    let near = (brigade, node ^ 1 << draw.below(16));
    draw.one_of(&[
        (brigade, node),
        (brigade, node),
        (brigade, node),
        (brigade, node),
        near,
        stranger,
    ])
}

// Draws five bytes that may be a message: most often a node's place and a port in range.
fn draw_message(draw: &mut Draw, nodes: usize) -> Vec<u8> {
    let noise = draw.bytes(MESSAGE);
    let place = draw.below(nodes);
    let near = draw.one_of(&[nodes, 15, 16]);
    let any = draw.within(1, 63);
    let arrival = draw.one_of(&[0, any, any, any, 63, 64]);
    vec![
        draw.one_of(&[place as u8, place as u8, place as u8, near as u8, noise[0]]),
        draw.one_of(&[arrival as u8, arrival as u8, arrival as u8, noise[1]]),
        draw.one_of(&[0, noise[2]]),
        draw.one_of(&[0, 1, noise[3]]),
        draw.one_of(&[0, 0, 0, 1, 4, 5, noise[4]]),
    ]
}

// How often each number came, and each ending beside 0.
struct Tallies {
    pass: Tally,
    begin: Tally,
    step: Tally,
    ended: Tally,
}

// All three calls with one choice of what is handed over and lent.
fn ask(
    group: &mut Group,
    draw: &mut Draw,
    tallies: &mut Tallies,
    handed: &Handed,
    nodes: &[Station],
) -> Result<(), Stop> {
    let from = draw_from(draw, nodes);
    let mut to = draw_to(draw, nodes);
    match draw.below(16) {
        0 => to.port = draw.bad_port(),
        1 => to.node = draw.bad_node(),
        _ => (),
    }
    let any = draw.below(WAY);
    let room = draw.one_of(&[WAY, WAY, WAY, WAY, WAY, WAY + 1, 40, 0, WAY - 1, any]);
    tallies.pass.saw(try_pass(group, "drawn", handed, from, to, room)?.number);
    let any = draw.below(MESSAGE);
    let room =
        draw.one_of(&[MESSAGE, MESSAGE, MESSAGE, MESSAGE, MESSAGE + 1, 40, MESSAGE - 1, any]);
    tallies.begin.saw(try_begin(group, "drawn", handed, from, to, room)?.number);
    let mut message = draw_message(draw, nodes.len());
    message.resize(room, 0x99);
    let came = try_step(group, "drawn", handed, to, &message)?;
    tallies.step.saw(came.number);
    if came.number == 0 && message[4] == 0 {
        tallies.ended.saw(came.bytes()[4]);
    }
    Ok(())
}

fn drawn(group: &mut Group, draw: &mut Draw) -> Outcome {
    let mut tallies = Tallies {
        pass: Tally::new("pz_pass"),
        begin: Tally::new("pz_begin"),
        step: Tally::new("pz_step"),
        ended: Tally::new("pz_step, a message under way"),
    };
    for _ in 0..DRAWN {
        let draft = draw_chart(draw);
        let nodes = stations(&draft);
        let tables = draw_tables(draw, &draft);
        let mut tables = lay_tables(&tables, draw.below(256) as u8);
        let handed = Handed::new(&draft.lay(), tables.clone());
        (0..ANEW).try_for_each(|_| ask(group, draw, &mut tallies, &handed, &nodes))?;
        draw.one_of(&FAULTS)(&mut tables, draw, nodes.len());
        let handed = Handed::new(&draft.lay(), tables.clone());
        (0..ANEW).try_for_each(|_| ask(group, draw, &mut tallies, &handed, &nodes))?;
        // A damaged chart often keeps its nodes, and then the tables are theirs.
        let handed = Handed::new(&damage(draw, draft), tables);
        (0..ANEW).try_for_each(|_| ask(group, draw, &mut tallies, &handed, &nodes))?;
    }
    let refusals: Vec<u8> = (21..=31).collect();
    let numbers = [&[0, 10][..], &refusals, &[44, 50, 51, 95]].concat();
    tallies.pass.settle_often(group, &numbers, OFTEN)?;
    tallies.begin.settle_often(group, &numbers, OFTEN)?;
    tallies.step.settle_often(group, &numbers, OFTEN)?;
    tallies.ended.settle_often(group, &[0, 1, 2, 3, 4], OFTEN)
}
