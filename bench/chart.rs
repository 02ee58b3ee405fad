//! One call on a chart by an ordinary Rust program, made over and over: chart CALL FILE TIMES.
//! CALL is none, read (a chart's bytes into the 937-byte image of include/poztecameh.h), write (the image's chart as bytes),
//! renew (a chart's bytes in the directed form), net (a chart's bytes into the ends of its links as node places: what comes
//! before a search), table (the 196-byte image of the table of the node that the question begins at) or pass (the node places
//! that a message comes to, from that node to the question's other, by the tables of all nodes as 16 such images). The refusals
//! are those of documents 01 and 02.

/// A value that the compiler knows nothing of.
#[inline(never)]
fn hidden<T>(value: T) -> T {
    unsafe {
        let copy = std::ptr::read_volatile(&value);
        std::mem::forget(value);
        copy
    }
}

const IMAGE: usize = 937;
const TABLE: usize = 196;
const TABLES: usize = 16 * TABLE;
const PLAIN: u8 = 2;
const DIRECTED: u8 = 4;

#[derive(Clone, Copy, PartialEq)]
struct Station {
    brigade: u8,
    node: u16,
}

#[derive(Clone, Copy, PartialEq)]
struct End {
    station: Station,
    port: u8,
}

struct Node {
    station: Station,
    label: Vec<u8>,
}

struct Link {
    a: End,
    b: End,
    on: bool,
    direction: u8,
}

#[derive(Default)]
struct Chart {
    nodes: Vec<Node>,
    links: Vec<Link>,
    form: u8,
    question: Option<(Station, Station)>,
}

fn station(b: &[u8]) -> Station {
    Station { brigade: b[0], node: u16::from_be_bytes([b[1], b[2]]) }
}

fn end(b: &[u8]) -> End {
    End { station: station(b), port: b[3] }
}

impl Station {
    fn in_range(self) -> bool {
        self.node <= 1023
    }

    fn bytes(self) -> [u8; 3] {
        let [high, low] = self.node.to_be_bytes();
        [self.brigade, high, low]
    }
}

impl End {
    fn in_range(self) -> bool {
        self.station.in_range() && (1..=63).contains(&self.port)
    }

    fn bytes(self) -> [u8; 4] {
        let [brigade, high, low] = self.station.bytes();
        [brigade, high, low, self.port]
    }
}

impl Chart {
    fn place(&self, station: Station) -> Option<usize> {
        self.nodes.iter().position(|node| node.station == station)
    }

    fn used(&self, end: End) -> bool {
        self.links.iter().any(|link| link.a == end || link.b == end)
    }

    fn add_node(&mut self, station: Station, label: &[u8]) -> Result<(), u8> {
        if !station.in_range() || !label.iter().all(|byte| (32..=126).contains(byte)) {
            return Err(24);
        }
        if !self.links.is_empty() || self.question.is_some() {
            return Err(25);
        }
        if self.nodes.len() == 16 {
            return Err(26);
        }
        if self.place(station).is_some() {
            return Err(27);
        }
        self.nodes.push(Node { station, label: label.to_vec() });
        Ok(())
    }

    fn add_link(&mut self, form: u8, body: &[u8]) -> Result<(), u8> {
        let direction = body.get(9).copied().unwrap_or(0);
        let link = Link { a: end(body), b: end(&body[4..]), on: body[8] == 1, direction };
        let directions = match form {
            PLAIN => 0..=0,
            DIRECTED => 0..=2,
            _ => return Err(24),
        };
        if body[8] > 1
            || !directions.contains(&direction)
            || !link.a.in_range()
            || !link.b.in_range()
        {
            return Err(24);
        }
        if self.question.is_some() || !self.links.is_empty() && self.form != form {
            return Err(25);
        }
        if self.links.len() == 48 {
            return Err(26);
        }
        if self.place(link.a.station).is_none() || self.place(link.b.station).is_none() {
            return Err(28);
        }
        if link.a.station == link.b.station {
            return Err(29);
        }
        if self.used(link.a) || self.used(link.b) {
            return Err(30);
        }
        self.links.push(link);
        self.form = form;
        Ok(())
    }

    fn ask(&mut self, from: Station, to: Station) -> Result<(), u8> {
        if !from.in_range() || !to.in_range() {
            return Err(24);
        }
        if self.question.is_some() {
            return Err(25);
        }
        if self.place(from).is_none() || self.place(to).is_none() {
            return Err(28);
        }
        self.question = Some((from, to));
        Ok(())
    }

    fn add_field(&mut self, tag: u8, body: &[u8]) -> Result<(), u8> {
        match (tag, body.len()) {
            (1, 3..=27) => self.add_node(station(body), &body[3..]),
            (PLAIN, 9) | (DIRECTED, 10) => self.add_link(tag, body),
            (3, 6) => self.ask(station(body), station(&body[3..])),
            (1..=4, _) => Err(23),
            _ => Err(22),
        }
    }

    /// The chart, or the number of the first bad field and its place.
    fn read(bytes: &[u8]) -> Result<Chart, (u8, usize)> {
        let mut chart = Chart { form: PLAIN, ..Chart::default() };
        let mut at = 0;
        while at < bytes.len() {
            let head = bytes.get(at..at + 3).ok_or((21, at))?;
            let next = at + 3 + usize::from(u16::from_be_bytes([head[1], head[2]]));
            let body = bytes.get(at + 3..next).ok_or((21, at))?;
            chart.add_field(head[0], body).map_err(|number| (number, at))?;
            at = next;
        }
        if chart.question.is_none() {
            return Err((31, bytes.len()));
        }
        Ok(chart)
    }

    /// The chart that an image holds, or its number.
    fn of_image(image: &[u8; IMAGE]) -> Result<Chart, u8> {
        if image[0] > 16 || image[1] > 48 {
            return Err(26);
        }
        let mut chart = Chart::default();
        for node in image[9..457].chunks_exact(28).take(usize::from(image[0])) {
            let label = node[4..].get(..usize::from(node[3])).ok_or(23)?;
            chart.add_node(station(node), label)?;
        }
        for link in image[457..].chunks_exact(10).take(usize::from(image[1])) {
            chart.add_link(image[2], link)?;
        }
        chart.ask(station(&image[3..]), station(&image[6..]))?;
        Ok(chart)
    }

    fn put_image(&self, image: &mut [u8; IMAGE]) {
        image.fill(0);
        image[0] = self.nodes.len() as u8;
        image[1] = self.links.len() as u8;
        image[2] = self.form;
        if let Some((from, to)) = self.question {
            image[3..6].copy_from_slice(&from.bytes());
            image[6..9].copy_from_slice(&to.bytes());
        }
        for (node, part) in self.nodes.iter().zip(image[9..457].chunks_exact_mut(28)) {
            part[..3].copy_from_slice(&node.station.bytes());
            part[3] = node.label.len() as u8;
            part[4..4 + node.label.len()].copy_from_slice(&node.label);
        }
        for (link, part) in self.links.iter().zip(image[457..].chunks_exact_mut(10)) {
            part[..4].copy_from_slice(&link.a.bytes());
            part[4..8].copy_from_slice(&link.b.bytes());
            part[8] = u8::from(link.on);
            part[9] = link.direction;
        }
    }

    fn bytes(&self, form: u8) -> Vec<u8> {
        let mut bytes = Vec::with_capacity(1113);
        for node in &self.nodes {
            bytes.extend([1, 0, 3 + node.label.len() as u8]);
            bytes.extend(node.station.bytes());
            bytes.extend(&node.label);
        }
        for link in &self.links {
            bytes.extend([form, 0, if form == DIRECTED { 10 } else { 9 }]);
            bytes.extend(link.a.bytes());
            bytes.extend(link.b.bytes());
            bytes.push(u8::from(link.on));
            if form == DIRECTED {
                bytes.push(link.direction);
            }
        }
        if let Some((from, to)) = self.question {
            bytes.extend([3, 0, 6]);
            bytes.extend(from.bytes());
            bytes.extend(to.bytes());
        }
        bytes
    }

    /// The ends of each link that is on, and those of the question, as places of nodes.
    fn net(&self) -> Option<(Vec<(usize, usize, bool)>, usize, usize)> {
        let (from, to) = self.question?;
        let mut ends = Vec::with_capacity(48);
        for link in &self.links {
            ends.push((self.place(link.a.station)?, self.place(link.b.station)?, link.on));
        }
        Some((ends, self.place(from)?, self.place(to)?))
    }

    /// For each node its links that can be passed from there, in order of place: the node that each leads to, and its port here.
    fn links_out(&self) -> Option<Vec<Vec<(usize, u8)>>> {
        let mut out = vec![Vec::new(); self.nodes.len()];
        for link in self.links.iter().filter(|link| link.on) {
            let (a, b) = (self.place(link.a.station)?, self.place(link.b.station)?);
            if link.direction != 2 {
                out[a].push((b, link.a.port));
            }
            if link.direction != 1 {
                out[b].push((a, link.b.port));
            }
        }
        Some(out)
    }

    /// For each node the port by which a route with the fewest links to it leaves: breadth first, in order of link places, a node
    /// takes the port of the one that it is come to from.
    fn ports(&self, from: usize) -> Option<Vec<Option<u8>>> {
        let out = self.links_out()?;
        let mut ports = vec![None; self.nodes.len()];
        let mut queue = std::collections::VecDeque::with_capacity(16);
        for &(node, port) in &out[from] {
            if node != from && ports[node].is_none() {
                ports[node] = Some(port);
                queue.push_back(node);
            }
        }
        while let Some(node) = queue.pop_front() {
            for &(next, _) in &out[node] {
                if next != from && ports[next].is_none() {
                    ports[next] = ports[node];
                    queue.push_back(next);
                }
            }
        }
        Some(ports)
    }

    fn put_table(&self, own: Station, image: &mut [u8; TABLE]) -> u8 {
        let Some(ports) = self.place(own).and_then(|place| self.ports(place)) else {
            return 44;
        };
        let mut count = 0;
        let (head, entries) = image.split_at_mut(4);
        let mut parts = entries.chunks_exact_mut(6);
        for (node, port) in self.nodes.iter().zip(ports) {
            if let Some(port) = port {
                let [brigade, high, low] = node.station.bytes();
                parts.next().unwrap().copy_from_slice(&[0, brigade, high, low, port, 1]);
                count += 1;
            }
        }
        for part in parts {
            part.copy_from_slice(&[2, 0, 0, 0, 0, 0]);
        }
        head[..3].copy_from_slice(&own.bytes());
        head[3] = count;
        0
    }
}

fn read(bytes: &[u8], image: &mut [u8; IMAGE]) -> u8 {
    match Chart::read(bytes) {
        Ok(chart) => {
            chart.put_image(image);
            0
        }
        Err((number, _)) => number,
    }
}

fn put(bytes: &[u8], out: &mut [u8]) -> u8 {
    match out.get_mut(..bytes.len()) {
        Some(part) => {
            part.copy_from_slice(bytes);
            0
        }
        None => 10,
    }
}

fn write(image: &[u8; IMAGE], out: &mut [u8]) -> u8 {
    match Chart::of_image(image) {
        Ok(chart) => put(&chart.bytes(chart.form), out),
        Err(number) => number,
    }
}

fn renew(bytes: &[u8], out: &mut [u8]) -> u8 {
    match Chart::read(bytes) {
        Ok(chart) => put(&chart.bytes(DIRECTED), out),
        Err((number, _)) => number,
    }
}

fn table(bytes: &[u8], own: Station, image: &mut [u8; TABLE]) -> u8 {
    match Chart::read(bytes) {
        Ok(chart) => chart.put_table(own, image),
        Err((number, _)) => number,
    }
}

/// What an entry of a table is for.
#[derive(Clone, Copy)]
enum Target {
    One(Station),
    Brigade(u8),
    Everything,
}

struct Entry {
    target: Target,
    port: u8,
    on: bool,
}

struct Table {
    own: Station,
    entries: Vec<Entry>,
}

impl Table {
    /// The table in an image, or 50.
    fn of_image(image: &[u8]) -> Result<Table, u8> {
        let own = station(image);
        let count = usize::from(image[3]);
        if !own.in_range() || count > 32 {
            return Err(50);
        }
        let mut entries = Vec::with_capacity(count);
        for part in image[4..TABLE].chunks_exact(6).take(count) {
            let target = match part[0] {
                0 => Target::One(station(&part[1..])),
                1 => Target::Brigade(part[1]),
                2 => Target::Everything,
                _ => return Err(50),
            };
            let named = !matches!(target, Target::One(node) if !node.in_range());
            if !named || part[5] > 1 || !(1..=63).contains(&part[4]) {
                return Err(50);
            }
            entries.push(Entry { target, port: part[4], on: part[5] == 1 });
        }
        Ok(Table { own, entries })
    }

    /// The port by which a message for a station leaves that came in by the arrival port, if an entry qualifies.
    fn out(&self, to: Station, arrival: u8) -> Option<u8> {
        self.entries
            .iter()
            .find(|entry| {
                entry.on
                    && entry.port != arrival
                    && match entry.target {
                        Target::One(node) => node == to,
                        Target::Brigade(brigade) => brigade == to.brigade,
                        Target::Everything => true,
                    }
            })
            .map(|entry| entry.port)
    }
}

impl Chart {
    /// Where a message comes in that leaves a node by a port: a node place and a port.
    fn across(&self, from: Station, port: u8) -> Option<(usize, u8)> {
        let here = End { station: from, port };
        for link in self.links.iter().filter(|link| link.on) {
            if link.direction != 2 && link.a == here {
                return Some((self.place(link.b.station)?, link.b.port));
            }
            if link.direction != 1 && link.b == here {
                return Some((self.place(link.a.station)?, link.a.port));
            }
        }
        None
    }
}

/// Puts the node places that a message comes to into the way, and gives how it ends: 1 delivered, 2 without a route, 3 without a
/// link, 4 at a node met before.
fn pass(bytes: &[u8], images: &[u8], from: Station, to: End, way: &mut Vec<u8>) -> Result<u8, u8> {
    let chart = Chart::read(bytes).map_err(|(number, _)| number)?;
    if images.len() < TABLES {
        return Err(50);
    }
    let mut tables = Vec::with_capacity(16);
    for image in images.chunks_exact(TABLE).take(chart.nodes.len()) {
        tables.push(Table::of_image(image)?);
    }
    let mut at = chart.place(from).ok_or(44)?;
    if tables.iter().zip(&chart.nodes).any(|(table, node)| table.own != node.station) {
        return Err(95);
    }
    if !to.station.in_range() || to.port > 63 {
        return Err(51);
    }
    let mut met = vec![false; chart.nodes.len()];
    let mut arrival = 0;
    way.clear();
    loop {
        way.push(at as u8);
        if met[at] {
            return Ok(4);
        }
        met[at] = true;
        let table = &tables[at];
        if table.own == to.station {
            return Ok(1);
        }
        let Some(port) = table.out(to.station, arrival) else {
            return Ok(2);
        };
        let Some((next, come_in)) = chart.across(chart.nodes[at].station, port) else {
            return Ok(3);
        };
        at = next;
        arrival = come_in;
    }
}

fn main() {
    let words: Vec<String> = std::env::args().collect();
    let bytes = std::fs::read(&words[2]).unwrap();
    let mut image = [0u8; IMAGE];
    let mut out = [0u8; 4096];
    let mut entries = [0u8; TABLE];
    assert_eq!(read(&bytes, &mut image), 0);
    assert_eq!(write(&image, &mut out), 0);
    assert_eq!(out[..bytes.len()], bytes[..]);
    let own = station(&image[3..]);
    let to = End { station: station(&image[6..]), port: 1 };
    let mut tables = [0u8; TABLES];
    let nodes = image[9..457].chunks_exact(28).take(usize::from(image[0]));
    for (node, part) in nodes.zip(tables.chunks_exact_mut(TABLE)) {
        assert_eq!(table(&bytes, station(node), part.try_into().unwrap()), 0);
    }
    let mut way = Vec::with_capacity(17);
    let mut ending = 0;
    for _ in 0..words[3].parse().unwrap() {
        match words[1].as_str() {
            "none" => {}
            "read" => assert_eq!(read(hidden(&bytes), hidden(&mut image)), 0),
            "write" => assert_eq!(write(hidden(&image), hidden(&mut out)), 0),
            "renew" => assert_eq!(renew(hidden(&bytes), hidden(&mut out)), 0),
            "net" => {
                assert!(hidden(Chart::read(hidden(&bytes)).ok().and_then(|chart| chart.net()))
                    .is_some())
            }
            "table" => assert_eq!(table(hidden(&bytes), hidden(own), hidden(&mut entries)), 0),
            "pass" => {
                let (bytes, tables) = (hidden(&bytes), hidden(&tables));
                ending = pass(bytes, tables, hidden(own), hidden(to), hidden(&mut way)).unwrap();
            }
            other => panic!("nothing {other}"),
        }
    }
    if words[1] == "pass" {
        entries[0] = way.len() as u8;
        entries[1] = ending;
        entries[2..2 + way.len()].copy_from_slice(&way);
    }
    println!("{} {} {}", sum_of(&image), sum_of(&out), sum_of(&entries));
}

fn sum_of(bytes: &[u8]) -> u64 {
    bytes.iter().fold(0, |sum: u64, &byte| sum.wrapping_mul(31).wrapping_add(u64::from(byte)))
}
