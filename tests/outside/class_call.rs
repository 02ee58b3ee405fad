//! pz_pass, pz_begin and pz_step beside the second class; and a message that is begun and taken on
//! step by step until it ends, beside the way that it is passed at once.

use crate::chart::Refusal;
use crate::chart_draft::{station_bytes, Station};
use crate::class::{Class, DELIVERED, MESSAGE, TABLES, UNDER_WAY, WAY, WITHOUT_ROUTE};
use crate::door::{self, hex, Answer};
use crate::group::{Group, Outcome, Stop};
use crate::router::{Table, SIZE};
use crate::table::Tables;
use crate::trace::Routes;
use crate::wire::Address;

// Beginnings of routes that are looked at: where each of them leads on, more tell nothing.
const FEW: usize = 20;

/// What the three calls are handed, and the second class of it.
pub struct Handed {
    pub chart: Vec<u8>,
    pub tables: Vec<u8>,
    class: Class,
}

/// Gives the image of these tables, and after them a byte as often as there is room.
pub fn lay_tables(tables: &[Table], filler: u8) -> Vec<u8> {
    let mut images: Vec<u8> = tables.iter().flat_map(Table::lay).collect();
    images.resize(TABLES, filler);
    images
}

impl Handed {
    pub fn new(chart: &[u8], tables: Vec<u8>) -> Handed {
        Handed { chart: chart.to_vec(), class: Class::of(chart, &tables), tables }
    }

    /// A chart with the tables that are made from it, those past its nodes out of range.
    pub fn made(chart: &[u8]) -> Handed {
        Handed::new(chart, lay_tables(&Tables::of(chart).all(), 0xff))
    }

    /// Gives the nodes of the chart, none of a refused one.
    pub fn stations(&self) -> Vec<Station> {
        self.class.stations()
    }

    /// Prints the way of the chart's question as examples/class.c does.
    pub fn print(&self) -> String {
        self.class.print()
    }

    fn told(&self) -> String {
        let counted = self.stations().len() * SIZE;
        let tables = &self.tables[..counted.min(self.tables.len())];
        format!("tables {} of {} bytes, chart {}", hex(tables), self.tables.len(), hex(&self.chart))
    }
}

/// Calls pz_pass and lends it a way of so many bytes.
pub fn try_pass(
    group: &mut Group,
    name: &str,
    handed: &Handed,
    from: Station,
    to: Address,
    room: usize,
) -> Result<Answer, Stop> {
    let came = door::pass(&handed.chart, &handed.tables, from, to, room);
    group.compare(&came, &handed.class.pass(from, to, room), || {
        format!("{name}: pz_pass, {from:?} to {to}, way of {room}, {}", handed.told())
    })?;
    Ok(came)
}

/// Calls pz_begin and lends it an image of so many bytes.
pub fn try_begin(
    group: &mut Group,
    name: &str,
    handed: &Handed,
    from: Station,
    to: Address,
    room: usize,
) -> Result<Answer, Stop> {
    let came = door::begin(&handed.chart, &handed.tables, from, to, room);
    group.compare(&came, &handed.class.begin(from, to, room), || {
        format!("{name}: pz_begin, {from:?} to {to}, image of {room}, {}", handed.told())
    })?;
    Ok(came)
}

/// Calls pz_step on an image.
pub fn try_step(
    group: &mut Group,
    name: &str,
    handed: &Handed,
    to: Address,
    message: &[u8],
) -> Result<Answer, Stop> {
    let came = door::step(&handed.chart, &handed.tables, to, message);
    group.compare(&came, &handed.class.step(to, message), || {
        format!("{name}: pz_step to {to}, message {}, {}", hex(message), handed.told())
    })?;
    Ok(came)
}

/// Makes the three calls, the last with a message at a place, and gives the number and the place
/// that came of each.
pub fn all_refusals(
    group: &mut Group,
    name: &str,
    handed: &Handed,
    (from, place): (Station, usize),
    to: Address,
) -> Result<[Refusal; 3], Stop> {
    let passed = try_pass(group, name, handed, from, to, WAY)?;
    let begun = try_begin(group, name, handed, from, to, MESSAGE)?;
    let stepped = try_step(group, name, handed, to, &[place as u8, 0, 0, 0, 0])?;
    Ok([
        (passed.number, passed.numbers_beside()[2]),
        (begun.number, begun.first_beside()),
        (stepped.number, stepped.first_beside()),
    ])
}

// ---- journeys ----

/// What became of a message: the number that came, and where it is 0 the way and the ending.
pub struct Journey {
    pub number: u8,
    pub way: Vec<u8>,
    pub ending: u8,
}

// Begins a message and takes it on until it ends, but not for more steps than there are nodes;
// gives the messages.
fn messages(
    group: &mut Group,
    name: &str,
    handed: &Handed,
    from: Station,
    to: Address,
) -> Result<Vec<Vec<u8>>, Stop> {
    let begun = try_begin(group, name, handed, from, to, MESSAGE)?;
    if begun.number != 0 {
        return Ok(Vec::new());
    }
    let mut messages = vec![begun.bytes().to_vec()];
    for _ in 0..handed.stations().len() {
        let last = &messages[messages.len() - 1];
        if last[4] != UNDER_WAY {
            break;
        }
        let came = try_step(group, name, handed, to, last)?;
        messages.push(came.bytes().to_vec());
    }
    Ok(messages)
}

/// Passes a message at once and step by step, and checks that these are the same: the same number,
/// or the same nodes and ending, within as many steps as there are nodes; and one step more changes
/// nothing.
pub fn journey(
    group: &mut Group,
    name: &str,
    handed: &Handed,
    from: Station,
    to: Address,
) -> Result<Journey, Stop> {
    let came = try_pass(group, name, handed, from, to, WAY)?;
    let beside = came.numbers_beside();
    let (way, ending) = (came.bytes()[..beside[0].min(WAY)].to_vec(), beside[1] as u8);
    let messages = messages(group, name, handed, from, to)?;
    let told = || format!("{name}: {from:?} to {to}, {messages:?}, not {way:?} and {ending}");
    let Some(last) = messages.last() else {
        group.check(came.number != 0, told)?;
        return Ok(Journey { number: came.number, way, ending });
    };
    // The last step goes over a link only where it comes to a node that was met.
    let mut places: Vec<u8> = messages.iter().map(|message| message[0]).collect();
    if (1..=3).contains(&last[4]) {
        places.pop();
    }
    let ended = last[4] != UNDER_WAY && last[4] == ending;
    group.check(came.number == 0 && ended && places == way, told)?;
    let after = try_step(group, name, handed, to, last)?;
    group.check(after.bytes() == last, told)?;
    Ok(Journey { number: came.number, way, ending })
}

// Whether the second list of routes has one: where there are more beginnings than are looked at,
// each of them leads on to the end.
fn has_route(chart: &[u8], from: Station, to: Station) -> bool {
    let rest = &chart[..chart.len() - 2 * station_bytes(from).len()];
    let asked = [rest, &station_bytes(from), &station_bytes(to)].concat();
    Routes::of(&asked, FEW).map_or(true, |routes| !routes.list().is_empty())
}

/// From each node to each by the tables that are made from the chart: delivered exactly where there
/// is a route, and by as many links as the node is away.
pub fn made(group: &mut Group, name: &str, chart: &[u8]) -> Outcome {
    let tables = Tables::of(chart);
    let handed = Handed::made(chart);
    for from in handed.stations() {
        for to in handed.stations() {
            let address = Address::new(to.0, to.1, (from.1 + to.1) % 64);
            let came = journey(group, name, &handed, from, address)?;
            let links = match from == to {
                true => Some(0),
                false => tables.onward(from, to).map(|onward| onward.links),
            };
            let (ending, places) = match links {
                Some(links) => (DELIVERED, links + 1),
                None => (WITHOUT_ROUTE, 1),
            };
            let held = came.number == 0
                && (came.ending, came.way.len()) == (ending, places)
                && has_route(chart, from, to) == (came.ending == DELIVERED);
            group.check(held, || {
                let Journey { number, way, ending } = came;
                let came = format!("{number}, {way:?} and {ending}, chart {}", hex(chart));
                format!("{name}: {from:?} to {to:?} in {links:?} links\n  came {came}")
            })?;
        }
    }
    Ok(())
}
