//! A second class (document 02, Nine): the nodes of a chart, a table for each, and a message that
//! goes from one to the next. A link is found by the end at which it is left, and the nodes met are
//! those on the way.

use crate::bits;
use crate::chart::{self, Field, Refusal, StationBytes, END, NODE, QUESTION, STATION};
use crate::chart_draft::{station_bytes, Station};
use crate::door::{Expected, Given};
use crate::router::{self, Choice, Table};
use crate::rules::{try_rules, Rule};
use crate::sheet::slashed;
use crate::wire::{Address, HIGHEST_PORT};
use std::collections::BTreeMap;

/// Bytes of the tables of all 16 node places, of the longest way and of a message.
pub const TABLES: usize = 16 * router::SIZE;
pub const WAY: usize = 17;
pub const MESSAGE: usize = 5;

// How a message stands.
pub const UNDER_WAY: u8 = 0;
pub const DELIVERED: u8 = 1;
pub const WITHOUT_ROUTE: u8 = 2;
pub const WITHOUT_LINK: u8 = 3;
pub const MET_BEFORE: u8 = 4;

const ENDINGS: [&str; 5] = [
    "under way",
    "delivered",
    "without a route",
    "at a port that no usable link leaves",
    "at a node that it has met before",
];

// Widths in bits: node place, arrival port, nodes met, ending.
const FIELDS: [usize; 4] = [8, 8, 16, 8];

type EndBytes = [u8; END];

/// A chart and the tables beside it, or the chart's refusal.
pub struct Class(Result<Taken, Refusal>);

struct Taken {
    nodes: Vec<StationBytes>,
    labels: Vec<String>,
    asked: Vec<StationBytes>,
    // By the end where a message leaves, the one where it comes in; no two links share an end.
    across: BTreeMap<EndBytes, EndBytes>,
    // Those of the nodes, or none where the bytes are too few for all places.
    tables: Option<Vec<Table>>,
}

fn station_of(bytes: &[u8]) -> StationBytes {
    [bytes[0], bytes[1], bytes[2]]
}

fn links_across(fields: &[Field]) -> BTreeMap<EndBytes, EndBytes> {
    let mut across = BTreeMap::new();
    for link in fields.iter().filter(|field| field.is_link() && field.body[8] == 1) {
        let ends: Vec<EndBytes> = link.ends().collect();
        if [0, 1].contains(&link.direction()) {
            across.insert(ends[0], ends[1]);
        }
        if [0, 2].contains(&link.direction()) {
            across.insert(ends[1], ends[0]);
        }
    }
    across
}

// Where a message is, or is to begin, and what is lent for it.
struct Request<'a> {
    taken: &'a Taken,
    place: Option<usize>,
    arrival: usize,
    to: Address,
    room: usize,
    needed: usize,
}

impl Request<'_> {
    fn refuse(&self) -> Result<(), u8> {
        let rules: [Rule<Request>; 5] = [
            (50, |r| !r.taken.tables_in_range()),
            (44, |r| r.place.map_or(true, |place| place >= r.taken.nodes.len())),
            (95, |r| r.taken.tables().zip(&r.taken.nodes).any(|(t, node)| t.own() != *node)),
            (51, |r| !r.to.in_range() || r.arrival > HIGHEST_PORT),
            (10, |r| r.room < r.needed),
        ];
        try_rules(&rules, self)
    }
}

impl Taken {
    fn of(fields: &[Field], tables: &[u8]) -> Taken {
        let bodies: Vec<&[u8]> = fields.iter().filter(|f| f.tag == NODE).map(|f| f.body).collect();
        let question = fields.iter().find(|field| field.tag == QUESTION).expect("a question");
        let whole = (tables.len() >= TABLES).then(|| tables.chunks(router::SIZE));
        let take = |image: &[u8]| Table::take(image).expect("a whole table");
        Taken {
            nodes: bodies.iter().map(|body| station_of(body)).collect(),
            labels: bodies
                .iter()
                .map(|body| String::from_utf8_lossy(&body[STATION..]).into_owned())
                .collect(),
            asked: question.stations().collect(),
            across: links_across(fields),
            tables: whole.map(|images| images.take(bodies.len()).map(take).collect()),
        }
    }

    fn tables_in_range(&self) -> bool {
        self.tables.as_ref().map_or(false, |tables| tables.iter().all(Table::in_range))
    }

    fn tables(&self) -> impl Iterator<Item = &Table> {
        self.tables.iter().flatten()
    }

    fn place(&self, station: StationBytes) -> Option<usize> {
        self.nodes.iter().position(|node| *node == station)
    }

    // Where a message goes that came to a node by a port, and by which port it comes in; or how it
    // ends there.
    fn onward(&self, place: usize, arrival: usize, to: Address) -> Result<(usize, usize), u8> {
        let table = self.tables().nth(place).expect("a table");
        let port = match router::choose(table, to, arrival) {
            Ok(Choice::Local(_)) => return Err(DELIVERED),
            Ok(Choice::Out(port)) => port as u8,
            Err(number) => {
                assert_eq!(number, 52, "after the refusals of the class");
                return Err(WITHOUT_ROUTE);
            }
        };
        let [brigade, high, low] = self.nodes[place];
        let far = self.across.get(&[brigade, high, low, port]).ok_or(WITHOUT_LINK)?;
        let next = self.place(station_of(far)).expect("a node at each end");
        Ok((next, far[STATION].into()))
    }

    // The nodes that a message comes to, each with the port that it came in by, and how it ends.
    fn way(&self, from: usize, to: Address) -> (Vec<(usize, usize)>, u8) {
        let mut way = vec![(from, 0)];
        loop {
            let (place, arrival) = way[way.len() - 1];
            match self.onward(place, arrival, to) {
                Err(ending) => return (way, ending),
                Ok((next, port)) => {
                    let met = way.iter().any(|(place, _)| *place == next);
                    way.push((next, port));
                    if met {
                        return (way, MET_BEFORE);
                    }
                }
            }
        }
    }

    // One step of a message.
    fn step(&self, [place, arrival, met, ending]: [usize; 4], to: Address) -> [usize; 4] {
        if ending != UNDER_WAY.into() {
            return [place, arrival, met, ending];
        }
        match self.onward(place, arrival, to) {
            Err(ending) => [place, arrival, met, ending.into()],
            Ok((next, port)) if met / (1 << next) % 2 == 1 => [next, port, met, MET_BEFORE.into()],
            Ok((next, port)) => [next, port, met + (1 << next), UNDER_WAY.into()],
        }
    }

    fn named(&self, place: usize) -> String {
        match self.labels[place].as_str() {
            "" => slashed(&self.nodes[place]),
            label => format!("{} {label}", slashed(&self.nodes[place])),
        }
    }
}

impl Class {
    pub fn of(chart: &[u8], tables: &[u8]) -> Class {
        Class(chart::read(chart).map(|fields| Taken::of(&fields, tables)))
    }

    /// Gives the nodes of the chart, none of a refused one.
    pub fn stations(&self) -> Vec<Station> {
        let nodes = self.0.as_ref().map_or(&[][..], |taken| &taken.nodes);
        nodes.iter().map(|s| (s[0].into(), usize::from(s[1]) * 256 + usize::from(s[2]))).collect()
    }

    // What a call gives of a chart that is taken; of a refused one its number, and after so many
    // numbers that are 0 its place.
    fn answer(&self, numbers: usize, of: impl FnOnce(&Taken) -> Expected) -> Expected {
        match &self.0 {
            Ok(taken) => of(taken),
            Err((number, place)) => {
                let beside = [vec![0; numbers], vec![*place]].concat();
                Ok(Given { number: *number, bytes: Vec::new(), beside })
            }
        }
    }

    /// Gives what pz_pass should, for a way of so many bytes.
    pub fn pass(&self, from: Station, to: Address, room: usize) -> Expected {
        self.answer(2, |taken| {
            let place = taken.place(station_bytes(from));
            Request { taken, place, arrival: 0, to, room, needed: WAY }.refuse()?;
            let (way, ending) = taken.way(place.expect("a node"), to);
            let places: Vec<u8> = way.iter().map(|(place, _)| *place as u8).collect();
            let count = places.len();
            Ok(Given::new(places, &[count, ending.into(), 0]))
        })
    }

    /// Gives what pz_begin should, for an image of so many bytes.
    pub fn begin(&self, from: Station, to: Address, room: usize) -> Expected {
        self.answer(0, |taken| {
            let place = taken.place(station_bytes(from));
            Request { taken, place, arrival: 0, to, room, needed: MESSAGE }.refuse()?;
            let place = place.expect("a node");
            let message = [place, 0, 1 << place, UNDER_WAY.into()];
            Ok(Given::new(bits::lay_fields(&FIELDS, &message), &[0]))
        })
    }

    /// Gives what pz_step should, of an image that may be too short: what it lacks is 0.
    pub fn step(&self, to: Address, image: &[u8]) -> Expected {
        self.answer(0, |taken| {
            let filled = [image, &[0; MESSAGE]].concat();
            let fields = bits::take_fields(&filled, &FIELDS);
            let message = [fields[0], fields[1], fields[2], fields[3]];
            let (place, arrival, room) = (Some(message[0]), message[1], image.len());
            Request { taken, place, arrival, to, room, needed: MESSAGE }.refuse()?;
            Ok(Given::new(bits::lay_fields(&FIELDS, &taken.step(message, to)), &[0]))
        })
    }

    /// Prints the way of a message from the question's first node to port 1 of its second, as
    /// examples/class.c does, or why there is none.
    pub fn print(&self) -> String {
        let taken = match &self.0 {
            Ok(taken) => taken,
            Err((number, place)) => return format!("refused {number} at {place}\n"),
        };
        let [brigade, high, low] = taken.asked[1];
        let node = usize::from(high) * 256 + usize::from(low);
        let start = taken.place(taken.asked[0]).expect("a node that is asked about");
        let (way, ending) = taken.way(start, Address::new(brigade.into(), node, 1));
        let mut text = String::new();
        for (place, port) in way {
            text += &taken.named(place);
            text += &match port {
                0 => "\n".to_string(),
                port => format!(": in by port {port}\n"),
            };
        }
        text + ENDINGS[usize::from(ending)] + "\n"
    }
}
