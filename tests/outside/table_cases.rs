//! Tables that are known beforehand, in images of any size and in the order of the refusals; the
//! tables of S with every value of every byte, for every node number, and for every way of switching
//! its links and of turning them.

use crate::chart::Refusal;
use crate::chart_call::known;
use crate::chart_cases::{largest, ONE_WAY, S};
use crate::chart_draft::{Draft, Station};
use crate::door::{hex, Given};
use crate::draw::Draw;
use crate::group::{Group, Outcome, Tests};
use crate::router::SIZE;
use crate::rules::{break_rules, Breach};
use crate::table::Tables;
use crate::table_call::{journeys, same_tables, try_nodes, try_table};
use crate::trace_cases::{chain, complete, turn};
use crate::trace_combs::{mesh, strands};

pub const GROUPS: &[Tests] = &[
    ("tables by hand", by_hand),
    ("tables of shapes", shapes),
    ("tables order", order),
    ("tables rooms", rooms),
    ("tables sweeps", sweeps),
    ("tables of any node", any_node),
    ("tables switches", switches),
    ("tables directions", directions),
];

// More beginnings of routes than S has.
const MANY: usize = 1_000;

// ---- by hand ----

// The tables of S for 9/1 and for 9/30, as far as there are entries.
const CONTROL: [u8; 22] = [
    9, 0, 1, 3, //
    0, 9, 0, 20, 2, 1, //
    0, 9, 0, 21, 3, 1, //
    0, 9, 0, 30, 2, 1,
];
const QUAY: [u8; 22] = [
    9, 0, 30, 3, //
    0, 9, 0, 1, 1, 1, //
    0, 9, 0, 20, 1, 1, //
    0, 9, 0, 21, 2, 1,
];

// The image of such a table: everything, port 0, off in the places that are left.
fn filled(mut image: Vec<u8>) -> Vec<u8> {
    while image.len() < 196 {
        image.extend([2, 0, 0, 0, 0, 0]);
    }
    image
}

// The image of the table of 9/own, from nodes of brigade 9 and the ports to them.
fn image(own: u8, entries: &[(u8, u8)]) -> Vec<u8> {
    let mut image = vec![9, 0, own, entries.len() as u8];
    entries.iter().for_each(|(node, port)| image.extend([0, 9, 0, *node, *port, 1]));
    filled(image)
}

fn by_hand(group: &mut Group, _: &mut Draw) -> Outcome {
    let off = |places: &[usize]| {
        let mut draft = Draft::s();
        places.iter().for_each(|place| draft.links[*place].on = 0);
        draft.lay()
    };
    let mut twin = Draft::s();
    twin.join(0, 3);
    let mut direct = Draft::s();
    direct.links[5].on = 1;
    // A chart, a node of brigade 9 and its table.
    let cases: [(&str, &[u8], u8, Vec<u8>); 20] = [
        ("S, 9/1", &S, 1, filled(CONTROL.to_vec())),
        ("S, 9/20", &S, 20, image(20, &[(1, 1), (21, 3), (30, 2)])),
        ("S, 9/21", &S, 21, image(21, &[(1, 1), (20, 3), (30, 2)])),
        ("S, 9/30", &S, 30, filled(QUAY.to_vec())),
        // Link 0 out and link 4 back: from 9/20 all goes by 9/30, from there to 9/1 by 9/21.
        ("one way, 9/1", &ONE_WAY, 1, image(1, &[(20, 2), (21, 3), (30, 2)])),
        ("one way, 9/20", &ONE_WAY, 20, image(20, &[(1, 2), (21, 2), (30, 2)])),
        ("one way, 9/21", &ONE_WAY, 21, image(21, &[(1, 1), (20, 3), (30, 2)])),
        ("one way, 9/30", &ONE_WAY, 30, image(30, &[(1, 2), (20, 1), (21, 2)])),
        ("link 0 off", &off(&[0]), 1, image(1, &[(20, 3), (21, 3), (30, 3)])),
        ("links 2 and 3 off", &off(&[2, 3]), 1, image(1, &[(20, 2), (21, 3)])),
        ("links 2 and 3 off, 9/30", &off(&[2, 3]), 30, image(30, &[])),
        ("links 0 and 1 off", &off(&[0, 1]), 1, image(1, &[])),
        ("links 0 and 1 off, 9/20", &off(&[0, 1]), 20, image(20, &[(21, 3), (30, 2)])),
        ("all links off", &off(&[0, 1, 2, 3, 4]), 21, image(21, &[])),
        // It comes last of the routes to 9/30, and has the fewest links.
        ("link 5 on", &direct.lay(), 1, image(1, &[(20, 2), (21, 3), (30, 4)])),
        ("link 5 on, 9/30", &direct.lay(), 30, image(30, &[(1, 3), (20, 1), (21, 2)])),
        ("a link beside link 5", &twin.lay(), 1, image(1, &[(20, 2), (21, 3), (30, 1)])),
        ("a link beside link 5, 9/30", &twin.lay(), 30, image(30, &[(1, 4), (20, 1), (21, 2)])),
        ("one node", &Draft::row(1).lay(), 100, image(100, &[])),
        ("two nodes, no link", &Draft::row(2).lay(), 101, image(101, &[])),
    ];
    for (name, chart, node, table) in cases {
        let tables = Tables::of(chart);
        let came = try_table(group, name, chart, &tables, (9, node.into()), 200)?;
        let expected = Ok(Given::new(table, &[0]));
        group.compare(&came, &expected, || format!("{name}, known beforehand"))?;
        same_tables(group, name, chart, &tables, MANY)?;
        let images = try_nodes(group, name, chart, &tables)?;
        journeys(group, name, &tables, &images)?;
    }
    let refused: [(&str, Refusal, &[u8], Station); 9] = [
        ("no such node", (44, 0), &S, (9, 2)),
        ("another brigade", (44, 0), &S, (8, 1)),
        ("node 1,025, 1 in ten bits", (44, 0), &S, (9, 1025)),
        ("node 257, 1 in eight bits", (44, 0), &S, (9, 257)),
        ("nothing", (31, 0), &[], (9, 1)),
        ("nothing, no such node", (31, 0), &[], (9, 2)),
        ("node 1,024", (24, 0), &[1, 0, 3, 9, 4, 0], (9, 1024)),
        ("no question", (31, 115), &S[..115], (9, 1)),
        ("a question that is cut short", (21, 115), &S[..120], (9, 1)),
    ];
    for (name, refusal, chart, node) in refused {
        for room in [0, SIZE - 1, SIZE] {
            let came = try_table(group, name, chart, &Tables::of(chart), node, room)?;
            known(group, name, refusal, (came.number, came.first_beside()))?;
        }
    }
    Ok(())
}

// ---- shapes ----

// The port to each node, as a port and how many nodes one after the other have it; 0 where none
// leads there.
fn ports(runs: &[(u8, usize)]) -> Vec<u8> {
    runs.iter().flat_map(|(port, count)| vec![*port; *count]).collect()
}

// The image of a table in a row of nodes, which are 9/100 and on.
fn row_image(own: u8, ports: &[u8]) -> Vec<u8> {
    let nodes = (100..).filter(|node| *node != own);
    let entries: Vec<(u8, u8)> =
        nodes.zip(ports.iter().copied()).filter(|(_, port)| *port > 0).collect();
    image(own, &entries)
}

fn shapes(group: &mut Group, _: &mut Draw) -> Outcome {
    let mut ring = chain(16, 1);
    ring.join(0, 15);
    let mut off = chain(2, 48);
    off.links[..47].iter_mut().for_each(|link| link.on = 0);
    let outward = ring.clone().direct(&[1; 16]);
    let mut star = Draft::row(16);
    (0..16).filter(|place| *place != 5).for_each(|place| star.join(5, place));
    // In the mesh the ports 1, 3 and 5 of the first node lead to the next three, 2, 4 and 6 to the
    // three before it; the nodes at seven and at eight are three links away.
    let in_mesh = vec![1, 3, 5, 1, 3, 5, 1, 2, 6, 4, 2, 6, 4, 2];
    // A node by its number, and the ports to the others.
    let known: [(&str, Draft, u8, Vec<u8>); 24] = [
        ("one link", chain(2, 1), 100, ports(&[(1, 1)])),
        ("48 links between two nodes", chain(2, 48), 100, ports(&[(1, 1)])),
        ("48 links between two nodes, turned", turn(chain(2, 48)), 101, ports(&[(48, 1)])),
        ("47 of 48 links off", off, 101, ports(&[(48, 1)])),
        ("a row of 16, its start", chain(16, 1), 100, ports(&[(1, 15)])),
        ("a row of 16, its end", chain(16, 1), 115, ports(&[(1, 15)])),
        ("a row of 16, in it", chain(16, 1), 107, ports(&[(1, 7), (2, 8)])),
        ("a row of 16, turned", turn(chain(16, 1)), 107, ports(&[(1, 7), (2, 8)])),
        // The node that is as far either way is reached by the smaller link place.
        ("a ring of 16, its start", ring.clone(), 100, ports(&[(1, 8), (2, 7)])),
        ("a ring of 16, in it", ring.clone(), 104, ports(&[(1, 4), (2, 7), (1, 4)])),
        ("a ring of 16, its end", ring.clone(), 115, ports(&[(2, 7), (1, 8)])),
        ("a ring of 16, turned", turn(ring), 104, ports(&[(1, 4), (2, 8), (1, 3)])),
        // Links 0 to 14 lead on, and link 15 from the first node to the last.
        ("a ring of 16, one way", outward.clone(), 104, ports(&[(0, 4), (2, 11)])),
        ("a ring of 16, one way, its start", outward, 100, ports(&[(1, 14), (2, 1)])),
        ("each two of 10", complete(10), 100, (1..=9).collect()),
        ("a star of 16, its middle", star.clone(), 105, (1..=15).collect()),
        ("a star of 16, at its edge", star, 115, ports(&[(1, 15)])),
        ("16 nodes, no link", Draft::row(16), 108, vec![]),
        ("strands, its start", strands(), 100, ports(&[(1, 14)])),
        ("strands, in it", strands(), 107, ports(&[(1, 7), (4, 7)])),
        ("strands, the node apart", strands(), 115, vec![]),
        ("mesh", mesh(), 100, in_mesh),
        ("mesh, the node apart", mesh(), 115, vec![]),
        ("the largest", largest(), 100, ports(&[(2, 8), (5, 7)])),
    ];
    for (name, draft, own, ports) in known {
        let chart = draft.lay();
        let tables = Tables::of(&chart);
        let images = try_nodes(group, name, &chart, &tables)?;
        let (came, known) = (&images[&(9, own.into())], row_image(own, &ports));
        group.check(*came == known, || {
            format!("{name}\n  expected {}\n  came {}", hex(&known), hex(came))
        })?;
        journeys(group, name, &tables, &images)?;
    }
    Ok(())
}

// ---- order ----

struct Request {
    chart: Vec<u8>,
    node: Station,
    room: usize,
}

// The last number first, as a later row decides.
const BREACHES: [Breach<Request>; 6] = [
    (10, |r| r.room = SIZE - 1),
    (10, |r| r.room = 0),
    (44, |r| r.node = (9, 2)),
    (28, |r| r.chart[123] = 31),
    (24, |r| r.chart[54] = 2),
    (21, |r| r.chart.insert(0, 1)),
];

// Every choice of breaches at once: the chart's number, then 44 and 10.
fn order(group: &mut Group, _: &mut Draw) -> Outcome {
    for chosen in 0..1 << BREACHES.len() {
        let mut request = Request { chart: S.to_vec(), node: (9, 30), room: SIZE };
        let lowest = break_rules(&BREACHES, chosen, &mut request).unwrap_or(0);
        let Request { chart, node, room } = request;
        let came = try_table(group, "order", &chart, &Tables::of(&chart), node, room)?;
        let place = match lowest {
            28 => 115,
            24 => 43,
            _ => 0,
        };
        known(group, "order", (lowest, place), (came.number, came.first_beside()))?;
    }
    Ok(())
}

// ---- rooms ----

// Every size of an image, for every node of S and one more, and for a refused chart.
fn rooms(group: &mut Group, _: &mut Draw) -> Outcome {
    let stations = Tables::of(&S).stations();
    for room in (0..=200).chain([255, 256, 1000, 1 << 16]) {
        for chart in [&S[..], &ONE_WAY, &S[..115]] {
            let tables = Tables::of(chart);
            for node in stations.iter().copied().chain([(9, 22)]) {
                let name = format!("an image of {room}");
                let came = try_table(group, &name, chart, &tables, node, room)?;
                let number = match (chart.len(), node.1) {
                    (115, _) => 31,
                    (_, 22) => 44,
                    _ if room < 196 => 10,
                    _ => 0,
                };
                group.known(&name, number, came.number)?;
            }
        }
    }
    Ok(())
}

// ---- sweeps ----

// S and the one-way chart with every value of every byte, each asked for two of their nodes.
fn sweeps(group: &mut Group, _: &mut Draw) -> Outcome {
    for whole in [&S[..], &ONE_WAY] {
        for at in 0..whole.len() {
            for value in 0..=u8::MAX {
                let mut chart = whole.to_vec();
                chart[at] = value;
                let tables = Tables::of(&chart);
                for node in [(9, 20), (9, 30)] {
                    try_table(group, "sweeps", &chart, &tables, node, SIZE)?;
                }
            }
        }
    }
    Ok(())
}

// Every node number of brigade 9 and every brigade of node 30 is asked for in S.
fn any_node(group: &mut Group, _: &mut Draw) -> Outcome {
    let tables = Tables::of(&S);
    let mut written = 0;
    let stations = (0..1 << 16).map(|node| (9, node)).chain((0..256).map(|brigade| (brigade, 30)));
    for node in stations {
        let came = try_table(group, "any node", &S, &tables, node, SIZE)?;
        written += u64::from(came.number == 0);
    }
    group.check(written == 5, || format!("{written} tables of S"))?;
    Ok(())
}

// ---- switches and directions ----

fn all_of_s(group: &mut Group, name: &str, draft: &Draft) -> Outcome {
    let chart = draft.lay();
    let tables = Tables::of(&chart);
    same_tables(group, name, &chart, &tables, MANY)?;
    let images = try_nodes(group, name, &chart, &tables)?;
    journeys(group, name, &tables, &images)
}

// Every choice of on and off for the links of S.
fn switches(group: &mut Group, _: &mut Draw) -> Outcome {
    for chosen in 0..1 << 6 {
        let mut draft = Draft::s();
        for (place, link) in draft.links.iter_mut().enumerate() {
            link.on = chosen >> place & 1;
        }
        all_of_s(group, "switches", &draft)?;
        all_of_s(group, "switches, directed", &draft.directed())?;
    }
    Ok(())
}

// Every choice of a direction for the links of S, all on.
fn directions(group: &mut Group, _: &mut Draw) -> Outcome {
    for chosen in 0..3usize.pow(6) {
        let mut draft = Draft::s().directed();
        for (place, link) in draft.links.iter_mut().enumerate() {
            link.on = 1;
            link.direction = chosen / 3usize.pow(place as u32) % 3;
        }
        all_of_s(group, "directions", &draft)?;
    }
    Ok(())
}
