//! pz_table beside the second maker of tables; and a message that goes from node to node by the
//! tables that it wrote, through pz_choose.

use crate::chart_draft::Station;
use crate::door::{self, hex, Answer, Given};
use crate::group::{Group, Outcome, Stop};
use crate::router::SIZE;
use crate::table::{Onward, Tables};
use crate::wire::Address;
use std::collections::BTreeMap;

/// Calls pz_table and lends it an image of so many bytes.
pub fn try_table(
    group: &mut Group,
    name: &str,
    chart: &[u8],
    tables: &Tables,
    node: Station,
    room: usize,
) -> Result<Answer, Stop> {
    let came = door::table(chart, node, room);
    group.compare(&came, &tables.expected(node, room), || {
        let (brigade, node) = node;
        format!("{name}: pz_table of {brigade}/{node}, image of {room}, chart {}", hex(chart))
    })?;
    Ok(came)
}

/// Calls it for every node of a chart, or for one of a refused chart, and gives the images.
pub fn try_nodes(
    group: &mut Group,
    name: &str,
    chart: &[u8],
    tables: &Tables,
) -> Result<BTreeMap<Station, Vec<u8>>, Stop> {
    let mut images = BTreeMap::new();
    for node in tables.stations() {
        let came = try_table(group, name, chart, tables, node, SIZE)?;
        images.insert(node, came.bytes().to_vec());
    }
    // In no chart: its number is out of range.
    try_table(group, name, chart, tables, (9, 1024), SIZE)?;
    Ok(images)
}

/// Checks that the second maker has the same tables by distances and by all routes, if these are
/// few; gives whether they are.
pub fn same_tables(
    group: &mut Group,
    name: &str,
    chart: &[u8],
    tables: &Tables,
    most: usize,
) -> Result<bool, Stop> {
    let Some(sentence) = Tables::of_all_routes(chart, most) else {
        return Ok(false);
    };
    group.check(sentence.agree(tables), || {
        let [sentence, distances] = [&sentence, tables].map(Tables::print);
        format!("{name}: {}\n  by all routes {sentence}\n  by distances {distances}", hex(chart))
    })?;
    Ok(true)
}

// ---- journeys ----

// Asks a table and compares with what is known.
fn choose(
    group: &mut Group,
    name: &str,
    image: &[u8],
    to: Address,
    arrival: usize,
    known: Option<[usize; 2]>,
) -> Outcome {
    let expected = known.map(|beside| Given::new(vec![], &beside)).ok_or(52);
    group.compare(&door::choose(image, to, arrival), &expected, || {
        format!("{name}: pz_choose, {to} from port {arrival}, table {}", hex(image))
    })?;
    Ok(())
}

// The links that a message passes that begins at a node and goes by the tables; none where it is
// not delivered before it has met as many nodes as there are.
fn follow(
    tables: &Tables,
    images: &BTreeMap<Station, Vec<u8>>,
    from: Station,
    to: Address,
) -> Option<usize> {
    let (mut at, mut arrival) = (from, 0);
    for links in 0..images.len() {
        let came = door::choose(&images[&at], to, arrival);
        match (came.number, &came.numbers_beside()[..]) {
            (0, [1, port]) => return (*port == to.port).then_some(links),
            (0, [0, port]) => (at, arrival) = tables.far_end(at, *port)?,
            _ => return None,
        }
    }
    None
}

/// From each node to each: where its table sends a message that begins there or came in by a port,
/// and where one comes to who goes on by the tables from node to node, and how far that is.
pub fn journeys(
    group: &mut Group,
    name: &str,
    tables: &Tables,
    images: &BTreeMap<Station, Vec<u8>>,
) -> Outcome {
    for (from, image) in images {
        for to in images.keys() {
            let destination = Address::new(to.0, to.1, (from.1 + to.1) % 64);
            let onward = tables.onward(*from, *to);
            let known = match onward {
                Some(Onward { port, .. }) => Some([0, port.into()]),
                None => (from == to).then_some([1, destination.port]),
            };
            choose(group, name, image, destination, 0, known)?;
            if let Some(Onward { port, .. }) = onward {
                // Not back by the port it came in on, whatever the other entries are.
                choose(group, name, image, destination, port.into(), None)?;
                choose(group, name, image, destination, usize::from(port) ^ 1, known)?;
            }
            let links = if from == to { Some(0) } else { onward.map(|onward| onward.links) };
            let came = follow(tables, images, *from, destination);
            group.check(came == links, || {
                let tables = tables.print();
                format!(
                    "{name}: from {from:?} to {to:?} in {came:?} links, not {links:?}\n{tables}"
                )
            })?;
        }
        // The same node number in another brigade, which few charts have.
        let other = (from.0 ^ 255, from.1);
        let known = tables.onward(*from, other).map(|onward| [0, onward.port.into()]);
        choose(group, name, image, Address::new(other.0, other.1, 1), 0, known)?;
    }
    Ok(())
}
