//! A chart as values, and as the pieces that it is laid from; both may break every rule.

use crate::chart::{lay_field, StationBytes, DIRECTED_LINK, LINK, NODE, QUESTION};
use crate::chart::{MOST_LINKS, MOST_NODES};
use crate::chart_image::{self, FORM, LINK_COUNT, NODE_COUNT};
use crate::wire::Address;

/// A brigade and a node.
pub type Station = (usize, usize);

#[derive(Clone)]
pub struct DraftNode {
    pub station: Station,
    pub label: Vec<u8>,
}

#[derive(Clone, Copy)]
pub struct DraftLink {
    pub ends: [Address; 2],
    pub on: usize,
    pub direction: usize,
}

#[derive(Clone)]
pub struct Draft {
    pub nodes: Vec<DraftNode>,
    pub links: Vec<DraftLink>,
    /// The tag of the links; a plain one is laid without its direction.
    pub form: u8,
    pub from: Station,
    pub to: Station,
}

/// A field before it is laid; the length that is written may be another than the body's.
#[derive(Clone)]
pub struct Piece {
    pub tag: u8,
    pub length: usize,
    pub body: Vec<u8>,
}

impl Piece {
    pub fn new(tag: u8, body: Vec<u8>) -> Piece {
        Piece { tag, length: body.len(), body }
    }

    pub fn lay(&self) -> Vec<u8> {
        lay_field(self.tag, self.length, &self.body)
    }
}

/// Gives the bytes of these pieces.
pub fn lay_pieces(pieces: &[Piece]) -> Vec<u8> {
    pieces.iter().flat_map(Piece::lay).collect()
}

/// Gives the bytes of a station as it stands in a chart.
pub fn station_bytes((brigade, node): Station) -> StationBytes {
    [brigade as u8, (node >> 8) as u8, node as u8]
}

impl DraftNode {
    pub fn new(station: Station, label: &[u8]) -> DraftNode {
        DraftNode { station, label: label.to_vec() }
    }
}

impl DraftLink {
    /// An on link, both ways.
    pub fn new(one: (usize, usize, usize), other: (usize, usize, usize)) -> DraftLink {
        let ends = [one, other].map(|(brigade, node, port)| Address::new(brigade, node, port));
        DraftLink { ends, on: 1, direction: 0 }
    }

    fn body(self) -> Vec<u8> {
        let end = |a: Address| {
            let [brigade, high, low] = station_bytes((a.brigade, a.node));
            [brigade, high, low, a.port as u8]
        };
        [&self.ends.map(end).concat()[..], &[self.on as u8, self.direction as u8]].concat()
    }
}

impl Draft {
    /// S, the chart of document 01.
    pub fn s() -> Draft {
        let nodes = [(1, "Control"), (20, "Hill"), (21, "Hill"), (30, "Quay")];
        let links = [
            [(1, 2), (20, 1)],
            [(1, 3), (21, 1)],
            [(20, 2), (30, 1)],
            [(21, 2), (30, 2)],
            [(20, 3), (21, 3)],
            [(1, 4), (30, 3)],
        ];
        let link = |ends: [(usize, usize); 2]| {
            let [one, other] = ends.map(|(node, port)| (9, node, port));
            DraftLink::new(one, other)
        };
        let mut s = Draft {
            nodes: nodes.map(|(node, label)| DraftNode::new((9, node), label.as_bytes())).to_vec(),
            links: links.map(link).to_vec(),
            form: LINK,
            from: (9, 1),
            to: (9, 30),
        };
        s.links[5].on = 0;
        s
    }

    /// So many nodes 9/100, 9/101 and on, without labels or links, asked from the first to the last.
    pub fn row(count: usize) -> Draft {
        let nodes = (0..count).map(|place| DraftNode::new((9, 100 + place), b"")).collect();
        let last = 100 + count.max(1) - 1;
        Draft { nodes, links: Vec::new(), form: LINK, from: (9, 100), to: (9, last) }
    }

    /// Adds a link between the nodes at two places, at ports that no link has used there.
    pub fn join(&mut self, one: usize, other: usize) {
        let ends = [one, other].map(|place| {
            let (brigade, node) = self.nodes[place].station;
            let free = |port: &usize| !self.is_used(Address::new(brigade, node, *port));
            Address::new(brigade, node, (1..64).find(free).expect("a free port"))
        });
        self.links.push(DraftLink { ends, on: 1, direction: 0 });
    }

    /// The same in the directed form.
    pub fn directed(mut self) -> Draft {
        self.form = DIRECTED_LINK;
        self
    }

    /// Gives the directions of the first links, in the directed form.
    pub fn direct(mut self, directions: &[usize]) -> Draft {
        for (link, direction) in self.links.iter_mut().zip(directions) {
            link.direction = *direction;
        }
        self.directed()
    }

    /// Whether a link has this end.
    pub fn is_used(&self, end: Address) -> bool {
        self.links.iter().any(|link| link.ends.contains(&end))
    }

    /// Gives one station another name, wherever it stands.
    pub fn rename(&mut self, old: Station, new: Station) {
        let ends = self.links.iter_mut().flat_map(|link| link.ends.iter_mut());
        for end in ends.filter(|end| (end.brigade, end.node) == old) {
            *end = Address::new(new.0, new.1, end.port);
        }
        let nodes = self.nodes.iter_mut().map(|node| &mut node.station);
        for station in nodes.chain([&mut self.from, &mut self.to]).filter(|at| **at == old) {
            *station = new;
        }
    }

    pub fn pieces(&self) -> Vec<Piece> {
        let node = |n: &DraftNode| [&station_bytes(n.station)[..], &n.label].concat();
        let nodes = self.nodes.iter().map(|n| Piece::new(NODE, node(n)));
        let size = if self.form == DIRECTED_LINK { 10 } else { 9 };
        let link = |link: &DraftLink| Piece::new(self.form, link.body()[..size].to_vec());
        let links = self.links.iter().map(link);
        let question = [self.from, self.to].map(station_bytes).concat();
        nodes.chain(links).chain([Piece::new(QUESTION, question)]).collect()
    }

    pub fn lay(&self) -> Vec<u8> {
        lay_pieces(&self.pieces())
    }

    /// Gives the image of these values, as much of them as it has room for; the counts and the
    /// labels' lengths are the real ones.
    pub fn image(&self) -> Vec<u8> {
        let mut image = vec![0; chart_image::SIZE];
        image[NODE_COUNT] = self.nodes.len() as u8;
        image[LINK_COUNT] = self.links.len() as u8;
        image[FORM] = self.form;
        image[3..6].copy_from_slice(&station_bytes(self.from));
        image[6..9].copy_from_slice(&station_bytes(self.to));
        for (place, node) in self.nodes.iter().take(MOST_NODES).enumerate() {
            let head = [&station_bytes(node.station)[..], &[node.label.len() as u8]].concat();
            let bytes = head.iter().chain(&node.label);
            let room = image[chart_image::node(place)].iter_mut();
            room.zip(bytes).for_each(|(at, byte)| *at = *byte);
        }
        for (place, link) in self.links.iter().take(MOST_LINKS).enumerate() {
            image[chart_image::link(place)].copy_from_slice(&link.body());
        }
        image
    }
}
