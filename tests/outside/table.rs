//! A second maker of routing tables from a chart (document 02, Eight), and it makes them twice: by
//! distances, each found by going outward from a station; and by the request's own sentence, from a
//! list of all routes.

use crate::chart::{self, Field, Refusal, StationBytes, END, NODE, STATION};
use crate::chart_draft::{station_bytes, Station};
use crate::door::{Expected, Given};
use crate::router::{Entry, Table, EVERYTHING, MOST_ENTRIES, ONE_NODE, SIZE};
use crate::sheet::slashed;
use crate::trace::Routes;
use std::collections::BTreeMap;

type EndBytes = [u8; END];

// What stands at an entry's place that is not used.
const UNUSED: Entry = Entry { kind: EVERYTHING, brigade: 0, node: 0, port: 0, on: 0 };

/// How one station is left for another: the port, and how many links there are on the way.
#[derive(Clone, Copy, PartialEq, Debug)]
pub struct Onward {
    pub port: u8,
    pub links: usize,
}

// A link as it is passed, from its near end to its far one.
struct Way {
    near: EndBytes,
    far: EndBytes,
}

/// The tables of all nodes of a chart, or the chart's refusal.
pub struct Tables(Result<Made, Refusal>);

struct Made {
    nodes: Vec<StationBytes>,
    labels: BTreeMap<StationBytes, String>,
    ways: Vec<Way>,
    // By where one stands and where one wants to come to.
    onward: BTreeMap<[StationBytes; 2], Onward>,
}

fn station_of(bytes: &[u8]) -> StationBytes {
    [bytes[0], bytes[1], bytes[2]]
}

// The links of a chart as they can be passed, in order of their places.
fn ways(fields: &[Field]) -> Vec<Way> {
    let mut ways = Vec::new();
    for link in fields.iter().filter(|field| field.is_link() && field.body[8] == 1) {
        let ends: Vec<EndBytes> = link.ends().collect();
        if link.direction() != 2 {
            ways.push(Way { near: ends[0], far: ends[1] });
        }
        if link.direction() != 1 {
            ways.push(Way { near: ends[1], far: ends[0] });
        }
    }
    ways
}

impl Made {
    fn of(fields: &[Field]) -> Made {
        let bodies: Vec<&[u8]> = fields.iter().filter(|f| f.tag == NODE).map(|f| f.body).collect();
        let label = |body: &&[u8]| {
            (station_of(body), String::from_utf8_lossy(&body[STATION..]).into_owned())
        };
        Made {
            nodes: bodies.iter().map(|body| station_of(body)).collect(),
            labels: bodies.iter().map(label).collect(),
            ways: ways(fields),
            onward: BTreeMap::new(),
        }
    }

    fn ways_from(&self, from: StationBytes) -> impl Iterator<Item = &Way> {
        self.ways.iter().filter(move |way| station_of(&way.near) == from)
    }

    // How many links lead to each station that is reached from one, itself by none.
    fn distances(&self, from: StationBytes) -> BTreeMap<StationBytes, usize> {
        let mut found = BTreeMap::from([(from, 0)]);
        let mut row = vec![from];
        for links in 1.. {
            let mut next = Vec::new();
            for way in row.iter().flat_map(|station| self.ways_from(*station)) {
                let far = station_of(&way.far);
                if !found.contains_key(&far) {
                    found.insert(far, links);
                    next.push(far);
                }
            }
            if next.is_empty() {
                break;
            }
            row = next;
        }
        found
    }

    fn table(&self, own: StationBytes) -> Table {
        let numbers = |[brigade, high, low]: StationBytes| {
            (usize::from(brigade), usize::from(high) * 256 + usize::from(low))
        };
        let mut entries = Vec::new();
        for to in &self.nodes {
            if let Some(Onward { port, .. }) = self.onward.get(&[own, *to]) {
                let (brigade, node) = numbers(*to);
                entries.push(Entry { kind: ONE_NODE, brigade, node, port: (*port).into(), on: 1 });
            }
        }
        let count = entries.len();
        entries.resize(MOST_ENTRIES, UNUSED);
        let (brigade, node) = numbers(own);
        Table { brigade, node, count, entries }
    }

    fn named(&self, station: StationBytes) -> String {
        match self.labels[&station].as_str() {
            "" => slashed(&station),
            label => format!("{} {label}", slashed(&station)),
        }
    }
}

impl Tables {
    /// Makes the tables by distances: the first link from where one stands that leads to a station
    /// one link nearer.
    pub fn of(chart: &[u8]) -> Tables {
        let made = chart::read(chart).map(|fields| {
            let mut made = Made::of(&fields);
            let away: BTreeMap<StationBytes, BTreeMap<StationBytes, usize>> =
                made.nodes.iter().map(|from| (*from, made.distances(*from))).collect();
            for (from, found) in &away {
                for (to, links) in found.iter().filter(|(_, links)| **links > 0) {
                    let nearer =
                        |way: &&Way| away[&station_of(&way.far)].get(to) == Some(&(links - 1));
                    let way = made.ways_from(*from).find(nearer).expect("a way that leads nearer");
                    let onward = Onward { port: way.near[STATION], links: *links };
                    made.onward.insert([*from, *to], onward);
                }
            }
            made
        });
        Tables(made)
    }

    /// Makes them by the request's sentence: of all routes those with the fewest links, of these the
    /// first in their order, of that its first link. Not where one list of routes has more
    /// beginnings than this.
    pub fn of_all_routes(chart: &[u8], most: usize) -> Option<Tables> {
        let fields = match chart::read(chart) {
            Ok(fields) => fields,
            Err(refusal) => return Some(Tables(Err(refusal))),
        };
        let mut made = Made::of(&fields);
        let links: Vec<&Field> = fields.iter().filter(|field| field.is_link()).collect();
        // The question is the last field, and its two stations are the last bytes.
        let rest = &chart[..chart.len() - 2 * STATION];
        for from in made.nodes.clone() {
            for to in made.nodes.clone() {
                let asked = [rest, &from, &to].concat();
                let routes = Routes::of_every_walk(&asked, most)?;
                // The first of several that are as short.
                let Some(route) = routes.list().iter().min_by_key(|route| route.len()) else {
                    continue;
                };
                if let Some(first) = route.first() {
                    let mut ends = links[usize::from(*first)].ends();
                    let near = ends.find(|end| station_of(end) == from).expect("a near end");
                    let onward = Onward { port: near[STATION], links: route.len() };
                    made.onward.insert([from, to], onward);
                }
            }
        }
        Some(Tables(Ok(made)))
    }

    /// Whether both have the same ports and distances.
    pub fn agree(&self, other: &Tables) -> bool {
        match (&self.0, &other.0) {
            (Ok(one), Ok(other)) => one.onward == other.onward,
            (Err(one), Err(other)) => one == other,
            _ => false,
        }
    }

    /// Gives the stations of the nodes, none of a refused chart.
    pub fn stations(&self) -> Vec<Station> {
        let nodes = self.0.as_ref().map_or(&[][..], |made| &made.nodes);
        nodes.iter().map(|s| (s[0].into(), usize::from(s[1]) * 256 + usize::from(s[2]))).collect()
    }

    /// Gives the tables of the nodes in their order, none of a refused chart.
    pub fn all(&self) -> Vec<Table> {
        match &self.0 {
            Ok(made) => made.nodes.iter().map(|own| made.table(*own)).collect(),
            Err(_) => Vec::new(),
        }
    }

    /// Gives how one node is left for another; not at all for itself, nor for one without a route.
    pub fn onward(&self, from: Station, to: Station) -> Option<Onward> {
        self.0.as_ref().ok()?.onward.get(&[from, to].map(station_bytes)).copied()
    }

    /// Gives the station and the port that one comes to who leaves a station by a port.
    pub fn far_end(&self, from: Station, port: usize) -> Option<(Station, usize)> {
        let made = self.0.as_ref().ok()?;
        let mut ways = made.ways_from(station_bytes(from));
        let [brigade, high, low, port] = ways.find(|w| usize::from(w.near[STATION]) == port)?.far;
        Some(((brigade.into(), usize::from(high) * 256 + usize::from(low)), port.into()))
    }

    /// Gives what pz_table should for a node and an image of so many bytes: a chart's place is real.
    pub fn expected(&self, node: Station, room: usize) -> Expected {
        let made = match &self.0 {
            Ok(made) => made,
            Err((number, place)) => return Ok(Given::refused_at(*number, *place)),
        };
        let own = station_bytes(node);
        if !made.nodes.contains(&own) {
            return Err(44);
        }
        if room < SIZE {
            return Err(10);
        }
        Ok(Given::new(made.table(own).lay(), &[0]))
    }

    /// Prints the tables of all nodes as examples/tables.c does, or why there is none.
    pub fn print(&self) -> String {
        let made = match &self.0 {
            Ok(made) => made,
            Err((number, place)) => return format!("refused {number} at {place}\n"),
        };
        let mut text = String::new();
        for own in &made.nodes {
            text += &format!("{}\n", made.named(*own));
            for to in &made.nodes {
                if let Some(Onward { port, .. }) = made.onward.get(&[*own, *to]) {
                    let mut ways = made.ways_from(*own);
                    let way = ways.find(|way| way.near[STATION] == *port).expect("a way");
                    let far = slashed(&station_of(&way.far));
                    text += &format!("  {}: out by port {port} to {far}\n", made.named(*to));
                }
            }
        }
        text
    }
}
