//! Drawn charts and images, sound and damaged: in their values, in the fields they are laid from,
//! and in their bytes.

use crate::chart::{Refusal, DIRECTED_LINK, LINK, NODE, QUESTION};
use crate::chart::{MOST_LABEL, MOST_LINKS, MOST_NODES};
use crate::chart_call::{try_move, try_read, try_write};
use crate::chart_draft::{lay_pieces, Draft, DraftLink, DraftNode, Piece, Station};
use crate::chart_image::{self, FORM, LINK_COUNT, NODE_COUNT, SIZE};
use crate::draw::Draw;
use crate::group::{Group, Outcome, Tally, Tests};
use crate::routing::draw_station;
use crate::wire::Address;
use std::collections::HashSet;

pub const GROUPS: &[Tests] =
    &[("chart reads", reads), ("chart writes", writes), ("chart moves drawn", moves)];

// Sound charts that are drawn, and how often each of them is damaged anew.
const READ: usize = 60_000;
const WRITTEN: usize = 12_000;
const MOVED: usize = 12_000;
const ANEW: usize = 4;

// Times that each number must come, in each kind of field that can earn it.
const OFTEN: u64 = 300;

type Fault<T> = fn(&mut T, &mut Draw);

// ---- sound charts ----

/// Draws a station that is not among these.
pub fn draw_other(draw: &mut Draw, others: &[Station]) -> Station {
    loop {
        let any = (draw.below(256), draw.below(1024));
        let station = match draw.below(3) {
            0 => any,
            _ => draw_station(draw),
        };
        if !others.contains(&station) {
            return station;
        }
    }
}

/// Draws so many nodes; some have the same label, or none.
pub fn draw_nodes(draw: &mut Draw, count: usize) -> Vec<DraftNode> {
    let mut nodes: Vec<DraftNode> = Vec::new();
    let mut stations = Vec::new();
    for _ in 0..count {
        stations.push(draw_other(draw, &stations));
        let any = draw.within(1, MOST_LABEL);
        let size = draw.one_of(&[0, any, any, MOST_LABEL]);
        let drawn = (0..size).map(|_| draw.within(32, 126) as u8).collect();
        let label = match nodes.last() {
            Some(node) if draw.below(3) == 0 => node.label.clone(),
            _ => drawn,
        };
        nodes.push(DraftNode { station: stations[stations.len() - 1], label });
    }
    nodes
}

// Draws an end of a node that no link has; many ports are alike from one node to the next.
fn draw_end(draw: &mut Draw, draft: &Draft, place: usize) -> Address {
    let (brigade, node) = draft.nodes[place].station;
    loop {
        let any = draw.within(1, 63);
        let few = draw.within(1, 4);
        let end = Address::new(brigade, node, draw.one_of(&[few, any, 63]));
        if !draft.is_used(end) {
            return end;
        }
    }
}

/// Adds a link between two different nodes, on more often than not.
pub fn draw_link(draw: &mut Draw, draft: &mut Draft) {
    let count = draft.nodes.len();
    let one = draw.below(count);
    let other = (one + draw.within(1, count - 1)) % count;
    draw_link_between(draw, draft, one, other);
}

/// Adds a link between the nodes at these places.
pub fn draw_link_between(draw: &mut Draw, draft: &mut Draft, one: usize, other: usize) {
    let ends = [draw_end(draw, draft, one), draw_end(draw, draft, other)];
    draft.links.push(DraftLink { ends, on: draw.one_of(&[1, 1, 1, 0]), direction: 0 });
}

/// Leaves a chart plain, or gives it the directed form: every link both ways, or most, or few.
pub fn draw_form(draw: &mut Draw, draft: &mut Draft) {
    let directions: &[usize] =
        draw.one_of(&[&[0], &[0], &[0], &[0, 0, 0, 0, 1, 2], &[0, 1, 2], &[0, 1], &[1, 2]]);
    if directions.len() > 1 || draw.below(3) == 0 {
        draft.form = DIRECTED_LINK;
    }
    draft.links.iter_mut().for_each(|link| link.direction = draw.one_of(directions));
}

/// Draws a chart that keeps every rule, of each size class.
pub fn draw_draft(draw: &mut Draw) -> Draft {
    let few = draw.within(2, 5);
    let many = draw.within(6, 15);
    let count = draw.one_of(&[1, 2, few, few, few, few, few, few, many, many, MOST_NODES]);
    let nodes = draw_nodes(draw, count);
    let [from, to] = [draw.below(count), draw.below(count)].map(|place| nodes[place].station);
    let mut draft = Draft { nodes, links: Vec::new(), form: LINK, from, to };
    if count > 1 {
        let few = draw.within(2, 8);
        let many = draw.within(9, 47);
        let links = draw.one_of(&[0, 1, few, few, few, few, few, few, many, MOST_LINKS]);
        (0..links).for_each(|_| draw_link(draw, &mut draft));
    }
    draw_form(draw, &mut draft);
    draft
}

// ---- faults in values ----

fn change_node(d: &mut Draft, draw: &mut Draw, change: Fault<DraftNode>) {
    if !d.nodes.is_empty() {
        let place = draw.below(d.nodes.len());
        change(&mut d.nodes[place], draw);
    }
}

fn change_link(d: &mut Draft, draw: &mut Draw, change: Fault<DraftLink>) {
    if !d.links.is_empty() {
        let place = draw.below(d.links.len());
        change(&mut d.links[place], draw);
    }
}

fn change_end(d: &mut Draft, draw: &mut Draw, change: Fault<Address>) {
    if !d.links.is_empty() {
        let place = draw.below(d.links.len());
        change(&mut d.links[place].ends[draw.below(2)], draw);
    }
}

fn stations(d: &Draft) -> Vec<Station> {
    d.nodes.iter().map(|node| node.station).collect()
}

// Gives the end of a link a station that is not written.
fn lose_end(d: &mut Draft, draw: &mut Draw) {
    let (brigade, node) = draw_other(draw, &stations(d));
    if !d.links.is_empty() {
        let place = draw.below(d.links.len());
        let end = &mut d.links[place].ends[draw.below(2)];
        *end = Address::new(brigade, node, end.port);
    }
}

fn lose_question(d: &mut Draft, draw: &mut Draw) {
    let station = draw_other(draw, &stations(d));
    match draw.below(2) {
        0 => d.from = station,
        _ => d.to = station,
    }
}

// Writes a node a second time, often under another label.
fn repeat_node(d: &mut Draft, draw: &mut Draw) {
    let count = d.nodes.len();
    if count > 1 {
        let place = draw.below(count);
        let other = (place + draw.within(1, count - 1)) % count;
        match draw.below(3) {
            0 => d.nodes[place] = d.nodes[other].clone(),
            _ => d.nodes[place].station = d.nodes[other].station,
        }
    }
}

// Gives a link an end that another has.
fn repeat_end(d: &mut Draft, draw: &mut Draw) {
    let count = d.links.len();
    if count > 1 {
        let place = draw.below(count);
        let other = (place + draw.within(1, count - 1)) % count;
        d.links[place].ends[draw.below(2)] = d.links[other].ends[draw.below(2)];
    }
}

fn crowd_nodes(d: &mut Draft, draw: &mut Draw) {
    let count = MOST_NODES + draw.within(1, 3);
    while d.nodes.len() < count {
        let station = draw_other(draw, &stations(d));
        d.nodes.push(DraftNode { station, label: vec![] });
    }
}

fn crowd_links(d: &mut Draft, draw: &mut Draw) {
    let different: HashSet<Station> = stations(d).into_iter().collect();
    // A node written twice has too few ports for the ends of both.
    if d.nodes.len() > 1 && different.len() == d.nodes.len() {
        while d.links.len() <= MOST_LINKS {
            draw_link(draw, d);
        }
    }
}

const DRAFT_FAULTS: [Fault<Draft>; 25] = [
    |d, draw| change_node(d, draw, |n, draw| n.label.resize(draw.within(25, 40), b'x')),
    |d, draw| change_node(d, draw, |n, draw| n.label.resize(draw.one_of(&[25, 255]), b'x')),
    |d, draw| {
        change_node(d, draw, |n, draw| n.label.push(draw.one_of(&[0, 10, 31, 127, 128, 160, 255])))
    },
    |d, draw| change_node(d, draw, |n, draw| n.station.1 = draw.bad_node()),
    |d, draw| change_node(d, draw, |n, _| n.label.clear()),
    |d, draw| change_end(d, draw, |e, draw| e.node = draw.bad_node()),
    |d, draw| change_end(d, draw, |e, draw| e.port = draw.bad_port()),
    |d, draw| change_end(d, draw, |e, _| e.port = 0),
    |d, draw| change_link(d, draw, |l, draw| l.on = draw.one_of(&[2, 3, 128, 255])),
    |d, draw| change_link(d, draw, |l, _| l.on ^= 1),
    |d, draw| change_link(d, draw, |l, draw| l.direction = draw.one_of(&[3, 4, 128, 255])),
    |d, draw| change_link(d, draw, |l, draw| l.direction = draw.below(3)),
    |d, _| d.form = if d.form == LINK { DIRECTED_LINK } else { LINK },
    |d, draw| d.from.1 = draw.bad_node(),
    |d, draw| d.to.1 = draw.bad_node(),
    |d, draw| {
        change_link(d, draw, |l, draw| {
            let Address { brigade, node, .. } = l.ends[0];
            l.ends[1] = Address::new(brigade, node, draw.within(1, 63));
        })
    },
    |d, draw| change_link(d, draw, |l, _| l.ends[0] = l.ends[1]),
    lose_end,
    lose_end,
    lose_question,
    repeat_node,
    repeat_node,
    repeat_end,
    crowd_nodes,
    crowd_links,
];

// ---- faults in fields ----

fn change_piece(p: &mut Vec<Piece>, draw: &mut Draw, change: Fault<Piece>) {
    if !p.is_empty() {
        let place = draw.below(p.len());
        change(&mut p[place], draw);
    }
}

fn resize_body(p: &mut Piece, size: usize) {
    p.body.resize(size, 1);
    p.length = size;
}

// Gives one link the other tag, and a body to fit.
fn mix(p: &mut [Piece], draw: &mut Draw) {
    let is_link = |piece: &&mut Piece| [LINK, DIRECTED_LINK].contains(&piece.tag);
    let mut links: Vec<&mut Piece> = p.iter_mut().filter(is_link).collect();
    if !links.is_empty() {
        let place = draw.below(links.len());
        let link = &mut links[place];
        match link.tag {
            LINK => {
                link.tag = DIRECTED_LINK;
                link.body.push(draw.below(3) as u8);
            }
            _ => {
                link.tag = LINK;
                link.body.pop();
            }
        }
        link.length = link.body.len();
    }
}

const PIECE_FAULTS: [Fault<Vec<Piece>>; 16] = [
    |p, draw| mix(p, draw),
    |p, draw| mix(p, draw),
    |p, draw| {
        let (one, other) = (draw.below(p.len()), draw.below(p.len()));
        p.swap(one, other);
    },
    |p, draw| {
        let piece = p.remove(draw.below(p.len()));
        p.insert(draw.below(p.len() + 1), piece);
    },
    |p, draw| {
        let piece = p[draw.below(p.len())].clone();
        p.insert(draw.below(p.len() + 1), piece);
    },
    |p, draw| p.push(p[draw.below(p.len())].clone()),
    |p, _| p.push(p[p.len() - 1].clone()),
    |p, draw| {
        p.remove(draw.below(p.len()));
    },
    |p, _| {
        p.pop();
    },
    |p, draw| change_piece(p, draw, |f, draw| f.tag = draw.one_of(&[0, 1, 2, 3, 4, 5, 255])),
    |p, draw| {
        change_piece(p, draw, |f, draw| f.length = draw.one_of(&[0, 3, 6, 9, 10, 256, 65535]))
    },
    |p, draw| change_piece(p, draw, |f, draw| f.length = (f.length + 2 * draw.below(2)).max(1) - 1),
    |p, draw| change_piece(p, draw, |f, draw| resize_body(f, f.body.len() + draw.within(1, 3))),
    |p, draw| change_piece(p, draw, |f, draw| resize_body(f, draw.below(f.body.len() + 1))),
    |p, draw| {
        change_piece(p, draw, |f, draw| {
            if !f.body.is_empty() {
                let place = draw.below(f.body.len());
                f.body[place] ^= 1 << draw.below(8);
            }
        })
    },
    |p, _| p.reverse(),
];

// ---- faults in bytes ----

const BYTE_FAULTS: [Fault<Vec<u8>>; 10] = [
    |b, _| b.clear(),
    |b, draw| b.truncate(draw.below(b.len() + 1)),
    |b, _| {
        b.pop();
    },
    |b, draw| {
        let size = draw.within(1, 40);
        b.extend(draw.bytes(size));
    },
    |b, draw| b.push(draw.one_of(&[0, 1, 2, 3, 4, 255])),
    |b, draw| {
        if !b.is_empty() {
            b.remove(draw.below(b.len()));
        }
    },
    |b, draw| b.insert(draw.below(b.len() + 1), draw.below(256) as u8),
    |b, draw| {
        if !b.is_empty() {
            let place = draw.below(b.len());
            b[place] ^= 0x80 >> draw.below(8);
        }
    },
    |b, draw| {
        let size = draw.within(0, 60);
        *b = draw.bytes(size);
    },
    |b, draw| {
        // Noise that begins as a field may.
        let size = draw.within(3, 1200);
        *b = draw.bytes(size);
        b[0] = draw.one_of(&[NODE, LINK, QUESTION, DIRECTED_LINK]);
        b[1] = 0;
        b[2] = draw.one_of(&[3, 6, 9, 10, 27, 28]);
    },
];

/// Gives the bytes of a chart with none, one or several faults.
pub fn damage(draw: &mut Draw, mut draft: Draft) -> Vec<u8> {
    for _ in 0..draw.one_of(&[0, 0, 0, 1, 1, 2, 3]) {
        draw.one_of(&DRAFT_FAULTS)(&mut draft, draw);
    }
    let mut pieces = draft.pieces();
    for _ in 0..draw.one_of(&[0, 0, 0, 0, 1, 2]) {
        if !pieces.is_empty() {
            draw.one_of(&PIECE_FAULTS)(&mut pieces, draw);
        }
    }
    let mut chart = lay_pieces(&pieces);
    for _ in 0..draw.one_of(&[0, 0, 0, 0, 0, 1, 2]) {
        draw.one_of(&BYTE_FAULTS)(&mut chart, draw);
    }
    chart
}

// ---- reads ----

// How often each number came, apart for what begins at the place that came with it.
struct Tallies {
    accepted: Tally,
    node: Tally,
    link: Tally,
    directed: Tally,
    question: Tally,
    other: Tally,
    end: Tally,
}

impl Tallies {
    fn saw(&mut self, chart: &[u8], (number, place): Refusal) {
        let tally = match (number, chart.get(place)) {
            (0 | 10, _) => &mut self.accepted,
            (_, Some(&NODE)) => &mut self.node,
            (_, Some(&LINK)) => &mut self.link,
            (_, Some(&DIRECTED_LINK)) => &mut self.directed,
            (_, Some(&QUESTION)) => &mut self.question,
            (_, Some(_)) => &mut self.other,
            (_, None) => &mut self.end,
        };
        tally.saw(number);
    }
}

fn reads(group: &mut Group, draw: &mut Draw) -> Outcome {
    let mut tallies = Tallies {
        accepted: Tally::new("pz_chart_read, accepted"),
        node: Tally::new("pz_chart_read, a node refused"),
        link: Tally::new("pz_chart_read, a plain link refused"),
        directed: Tally::new("pz_chart_read, a directed link refused"),
        question: Tally::new("pz_chart_read, a question refused"),
        other: Tally::new("pz_chart_read, another tag refused"),
        end: Tally::new("pz_chart_read, the end refused"),
    };
    for _ in 0..READ {
        let draft = draw_draft(draw);
        for _ in 0..ANEW {
            let chart = damage(draw, draft.clone());
            let lent = draw.one_of(&[SIZE, SIZE, SIZE, SIZE, SIZE, 0, SIZE - 1, SIZE + 1, 1000]);
            let came = try_read(group, "drawn", &chart, lent)?;
            tallies.saw(&chart, came);
        }
    }
    tallies.accepted.settle_often(group, &[0, 10], OFTEN)?;
    tallies.node.settle_often(group, &[21, 23, 24, 25, 26, 27], OFTEN)?;
    tallies.link.settle_often(group, &[21, 23, 24, 25, 26, 28, 29, 30], OFTEN)?;
    tallies.directed.settle_often(group, &[21, 23, 24, 25, 26, 28, 29, 30], OFTEN)?;
    tallies.question.settle_often(group, &[21, 23, 24, 25, 28], OFTEN)?;
    tallies.other.settle_often(group, &[21, 22], OFTEN)?;
    tallies.end.settle_often(group, &[31], OFTEN)
}

// ---- writes ----

// Puts noise, or what would be refused or be in the way, where a writer does not look.
fn fill_unlooked(image: &mut [u8], draw: &mut Draw) {
    let filler = draw.one_of(&[0, 1, 127, 255]);
    let is_noise = draw.below(2) == 0;
    for place in chart_image::unlooked(image) {
        image[place] = if is_noise { draw.below(256) as u8 } else { filler };
    }
    // The first node again in the place after the last, and so the first link.
    let [nodes, links] = chart_image::counts(image);
    if draw.below(2) == 0 && nodes < MOST_NODES && links < MOST_LINKS {
        image.copy_within(chart_image::node(0), chart_image::node(nodes).start);
        image.copy_within(chart_image::link(0), chart_image::link(links).start);
    }
}

const IMAGE_FAULTS: [Fault<Vec<u8>>; 6] = [
    |i, draw| i[NODE_COUNT] = draw.one_of(&[17, 18, 32, 128, 255]),
    |i, draw| i[LINK_COUNT] = draw.one_of(&[49, 50, 64, 128, 255]),
    |i, draw| i[FORM] = draw.one_of(&[0, 1, 2, 3, 4, 5, 255]),
    |i, draw| i[NODE_COUNT] = draw.below(17) as u8,
    |i, draw| i[LINK_COUNT] = draw.below(49) as u8,
    |i, draw| {
        let place = draw.below(SIZE);
        i[place] ^= 1 << draw.below(8);
    },
];

// Gives the image of a chart with none, one or several faults, and a size for the chart's buffer.
fn damage_image(draw: &mut Draw, mut draft: Draft) -> (Vec<u8>, usize) {
    for _ in 0..draw.one_of(&[0, 0, 0, 1, 1, 1, 2, 3]) {
        draw.one_of(&DRAFT_FAULTS)(&mut draft, draw);
    }
    let mut image = draft.image();
    if draw.below(4) > 0 {
        fill_unlooked(&mut image, draw);
    }
    for _ in 0..draw.one_of(&[0, 0, 0, 0, 1, 2]) {
        draw.one_of(&IMAGE_FAULTS)(&mut image, draw);
    }
    let noise = draw.bytes(40);
    image.extend(noise);
    image.truncate(draw.one_of(&[SIZE, SIZE, SIZE, SIZE, SIZE, SIZE + 1, SIZE + 40, SIZE - 1, 0]));
    let size = draft.lay().len();
    let less = draw.below(size);
    let more = draw.within(size + 1, size + 100);
    (image, draw.one_of(&[size, size, size, size, size - 1, less, more]))
}

fn writes(group: &mut Group, draw: &mut Draw) -> Outcome {
    let mut tally = Tally::new("pz_chart_write");
    for _ in 0..WRITTEN {
        let draft = draw_draft(draw);
        for _ in 0..ANEW {
            let (image, room) = damage_image(draw, draft.clone());
            tally.saw(try_write(group, "drawn", &image, room)?);
        }
    }
    tally.settle_often(group, &[0, 10, 23, 24, 26, 27, 28, 29, 30], OFTEN)
}

// ---- moves ----

fn moves(group: &mut Group, draw: &mut Draw) -> Outcome {
    let mut renewed = Tally::new("pz_chart_renew");
    let mut restored = Tally::new("pz_chart_restore");
    for _ in 0..MOVED {
        let draft = draw_draft(draw);
        for _ in 0..ANEW {
            let chart = damage(draw, draft.clone());
            let size = chart.len();
            let links = draft.links.len();
            let any = draw.below(size + 2 * links + 1);
            let room = draw.one_of(&[1113, size + links, size, any]);
            renewed.saw(try_move(group, "drawn", DIRECTED_LINK, &chart, room)?.0);
            let room = draw.one_of(&[1113, size, size.saturating_sub(links), any]);
            restored.saw(try_move(group, "drawn", LINK, &chart, room)?.0);
        }
    }
    let refusals: Vec<u8> = (21..=31).collect();
    renewed.settle_often(group, &[&[0, 10], &refusals[..]].concat(), OFTEN)?;
    restored.settle_often(group, &[&[0, 10], &refusals[..], &[32]].concat(), OFTEN)
}
