//! Charts with a refusal that is known beforehand: worked by hand, both sides of every limit, cut
//! and lengthened, in the order of the refusals, and with every value of every byte.

use crate::chart::{DIRECTED_LINK, LINK, NODE, QUESTION};
use crate::chart::{LONGEST, MOST_LABEL, MOST_LINKS, MOST_NODES};
use crate::chart_call::{known, known_read, try_read, try_write};
use crate::chart_draft::{lay_pieces, Draft, DraftLink, DraftNode, Piece};
use crate::chart_image::SIZE;
use crate::chart_image::{self, DIRECTION, FORM, LABEL, LABEL_LENGTH, LINK_COUNT, NODE_COUNT, ON};
use crate::door::{self, Given};
use crate::draw::Draw;
use crate::group::{Group, Outcome, Tests};
use crate::rules::{break_rules, Breach};
use crate::wire::Address;

pub const GROUPS: &[Tests] = &[
    ("chart by hand", by_hand),
    ("chart limits", limits),
    ("chart forms", forms),
    ("chart fields", fields),
    ("chart lengths", lengths),
    ("chart order", order),
    ("chart image order", image_order),
    ("chart sweeps", sweeps),
];

// A length whose low sixteen bits are all 0.
const LONG: usize = 1 << 16;

// ---- by hand ----

/// S, worked by hand.
pub const S: [u8; 124] = [
    1, 0, 10, 9, 0, 1, b'C', b'o', b'n', b't', b'r', b'o', b'l', //
    1, 0, 7, 9, 0, 20, b'H', b'i', b'l', b'l', //
    1, 0, 7, 9, 0, 21, b'H', b'i', b'l', b'l', //
    1, 0, 7, 9, 0, 30, b'Q', b'u', b'a', b'y', //
    2, 0, 9, 9, 0, 1, 2, 9, 0, 20, 1, 1, //
    2, 0, 9, 9, 0, 1, 3, 9, 0, 21, 1, 1, //
    2, 0, 9, 9, 0, 20, 2, 9, 0, 30, 1, 1, //
    2, 0, 9, 9, 0, 21, 2, 9, 0, 30, 2, 1, //
    2, 0, 9, 9, 0, 20, 3, 9, 0, 21, 3, 1, //
    2, 0, 9, 9, 0, 1, 4, 9, 0, 30, 3, 0, //
    3, 0, 6, 9, 0, 1, 9, 0, 30,
];

// The start of its image, then the links' part, worked by hand.
const S_HEAD: [u8; 9] = [4, 6, 2, 9, 0, 1, 9, 0, 30];
const S_NODES: [&[u8]; 4] = [
    &[9, 0, 1, 7, b'C', b'o', b'n', b't', b'r', b'o', b'l'],
    &[9, 0, 20, 4, b'H', b'i', b'l', b'l'],
    &[9, 0, 21, 4, b'H', b'i', b'l', b'l'],
    &[9, 0, 30, 4, b'Q', b'u', b'a', b'y'],
];
const S_LINKS: [u8; 60] = [
    9, 0, 1, 2, 9, 0, 20, 1, 1, 0, 9, 0, 1, 3, 9, 0, 21, 1, 1, 0, //
    9, 0, 20, 2, 9, 0, 30, 1, 1, 0, 9, 0, 21, 2, 9, 0, 30, 2, 1, 0, //
    9, 0, 20, 3, 9, 0, 21, 3, 1, 0, 9, 0, 1, 4, 9, 0, 30, 3, 0, 0,
];

/// S in the directed form with three directions, worked by hand.
pub const ONE_WAY: [u8; 130] = [
    1, 0, 10, 9, 0, 1, b'C', b'o', b'n', b't', b'r', b'o', b'l', //
    1, 0, 7, 9, 0, 20, b'H', b'i', b'l', b'l', //
    1, 0, 7, 9, 0, 21, b'H', b'i', b'l', b'l', //
    1, 0, 7, 9, 0, 30, b'Q', b'u', b'a', b'y', //
    4, 0, 10, 9, 0, 1, 2, 9, 0, 20, 1, 1, 1, //
    4, 0, 10, 9, 0, 1, 3, 9, 0, 21, 1, 1, 0, //
    4, 0, 10, 9, 0, 20, 2, 9, 0, 30, 1, 1, 0, //
    4, 0, 10, 9, 0, 21, 2, 9, 0, 30, 2, 1, 0, //
    4, 0, 10, 9, 0, 20, 3, 9, 0, 21, 3, 1, 2, //
    4, 0, 10, 9, 0, 1, 4, 9, 0, 30, 3, 0, 0, //
    3, 0, 6, 9, 0, 1, 9, 0, 30,
];

/// Its directions.
pub const DIRECTIONS: [usize; 6] = [1, 0, 0, 0, 2, 0];

fn by_hand(group: &mut Group, _: &mut Draw) -> Outcome {
    let mut image = vec![0; 937];
    image[..9].copy_from_slice(&S_HEAD);
    for (place, node) in S_NODES.iter().enumerate() {
        image[9 + 28 * place..][..node.len()].copy_from_slice(node);
    }
    image[457..][..S_LINKS.len()].copy_from_slice(&S_LINKS);

    let read = door::chart_read(&S, 937);
    let expected = Ok(Given::new(image.clone(), &[0]));
    group.compare(&read, &expected, || "pz_chart_read of S".to_string())?;
    let written = door::chart_write(&image, 124);
    let expected = Ok(Given::new(S.to_vec(), &[124]));
    group.compare(&written, &expected, || "pz_chart_write of S".to_string())?;
    group.check(Draft::s().lay() == S, || "S is not laid as by hand".to_string())?;
    group.check(Draft::s().image() == image, || "S has not the image by hand".to_string())?;

    image[2] = 4;
    image[466] = 1;
    image[506] = 2;
    let read = door::chart_read(&ONE_WAY, 937);
    let expected = Ok(Given::new(image.clone(), &[0]));
    group.compare(&read, &expected, || "pz_chart_read of S, one way".to_string())?;
    let written = door::chart_write(&image, 130);
    let expected = Ok(Given::new(ONE_WAY.to_vec(), &[130]));
    group.compare(&written, &expected, || "pz_chart_write of S, one way".to_string())?;
    let one_way = Draft::s().direct(&DIRECTIONS);
    group.check(one_way.lay() == ONE_WAY, || "S, one way, is not laid as by hand".to_string())?;
    group.check(one_way.image() == image, || "S, one way: not the image by hand".to_string())?;
    known_read(group, "P13", (31, 0), &[])?;
    known_read(group, "P14", (24, 0), &[1, 0, 3, 9, 4, 0])
}

// ---- limits of values ----

type Change = fn(&mut Draft);

// Sets the first or the last byte of the second node's label, of the greatest length.
fn set_label(d: &mut Draft, at: usize, byte: u8) {
    d.nodes[1].label = vec![b'x'; MOST_LABEL];
    d.nodes[1].label[at] = byte;
}

// Gives the chart so many nodes, alike but for the node number, and nothing else.
fn hold_nodes(d: &mut Draft, count: usize) {
    *d = Draft::row(count);
}

// Gives the chart two nodes, and so many links between them.
fn hold_links(d: &mut Draft, count: usize) {
    hold_nodes(d, 2);
    (0..count).for_each(|_| d.join(0, 1));
}

// Gives the chart the directed form, and its links directions.
fn direct(d: &mut Draft, directions: &[usize]) {
    *d = d.clone().direct(directions);
}

// The fields of S begin at 0, 13, 23 and 33, at 43 and each twelfth after it, and at 115; directed
// links at 43 and each thirteenth after it, and the question at 121.
const LIMITS: [(&str, u8, usize, Change); 109] = [
    ("as it is", 0, 0, |_| ()),
    ("a label of 0", 0, 0, |d| d.nodes[1].label.clear()),
    ("every label of 0", 0, 0, |d| d.nodes.iter_mut().for_each(|node| node.label.clear())),
    ("every label the same", 0, 0, |d| d.nodes.iter_mut().for_each(|n| n.label = vec![b'x'; 5])),
    ("a label of 24", 0, 0, |d| d.nodes[1].label = vec![b'x'; 24]),
    ("a label of 25", 23, 13, |d| d.nodes[1].label = vec![b'x'; 25]),
    ("a label of 26", 23, 13, |d| d.nodes[1].label = vec![b'x'; 26]),
    ("a label of 252", 23, 13, |d| d.nodes[1].label = vec![b'x'; 252]),
    ("a label of 253, whose field is 256", 23, 13, |d| d.nodes[1].label = vec![b'x'; 253]),
    ("a label of 255", 23, 13, |d| d.nodes[1].label = vec![b'x'; 255]),
    ("the last label of 25", 23, 33, |d| d.nodes[3].label = vec![b'x'; 25]),
    ("a label begins with 31", 24, 13, |d| set_label(d, 0, 31)),
    ("a label begins with 32", 0, 0, |d| set_label(d, 0, 32)),
    ("a label begins with 126", 0, 0, |d| set_label(d, 0, 126)),
    ("a label begins with 127", 24, 13, |d| set_label(d, 0, 127)),
    ("a label ends with 31", 24, 13, |d| set_label(d, 23, 31)),
    ("a label ends with 32", 0, 0, |d| set_label(d, 23, 32)),
    ("a label ends with 126", 0, 0, |d| set_label(d, 23, 126)),
    ("a label ends with 127", 24, 13, |d| set_label(d, 23, 127)),
    ("a label with 0", 24, 13, |d| set_label(d, 12, 0)),
    ("a label with a line feed", 24, 13, |d| set_label(d, 12, 10)),
    ("a label with 160, 32 in seven bits", 24, 13, |d| set_label(d, 12, 160)),
    ("a label with 255", 24, 13, |d| set_label(d, 12, 255)),
    ("the last label with 127", 24, 33, |d| d.nodes[3].label = vec![127]),
    ("node 0", 0, 0, |d| d.rename((9, 30), (9, 0))),
    ("node 1023", 0, 0, |d| d.rename((9, 30), (9, 1023))),
    ("node 1024", 24, 33, |d| d.rename((9, 30), (9, 1024))),
    ("node 65535", 24, 33, |d| d.rename((9, 30), (9, 65535))),
    ("the first node 1024", 24, 0, |d| d.rename((9, 1), (9, 1024))),
    ("brigade 0", 0, 0, |d| d.rename((9, 30), (0, 30))),
    ("brigade 255", 0, 0, |d| d.rename((9, 30), (255, 30))),
    ("an end's node 1024", 24, 43, |d| d.links[0].ends[0].node = 1024),
    ("an end's node 1025, 1 in ten bits", 24, 43, |d| d.links[0].ends[0].node = 1025),
    ("the other end's node 1024", 24, 43, |d| d.links[0].ends[1].node = 1024),
    ("the last link's node 1024", 24, 103, |d| d.links[5].ends[1].node = 1024),
    ("port 0", 24, 43, |d| d.links[0].ends[0].port = 0),
    ("port 1", 0, 0, |d| d.links[0].ends[0].port = 1),
    ("port 63", 0, 0, |d| d.links[0].ends[0].port = 63),
    ("port 64", 24, 43, |d| d.links[0].ends[0].port = 64),
    ("port 66, 2 in six bits", 24, 43, |d| d.links[0].ends[0].port = 66),
    ("port 255", 24, 43, |d| d.links[0].ends[0].port = 255),
    ("the other port 0", 24, 43, |d| d.links[0].ends[1].port = 0),
    ("the other port 1", 0, 0, |d| d.links[0].ends[1].port = 1),
    ("the other port 63", 0, 0, |d| d.links[0].ends[1].port = 63),
    ("the other port 64", 24, 43, |d| d.links[0].ends[1].port = 64),
    ("an off link's port 0", 24, 103, |d| d.links[5].ends[0].port = 0),
    ("an off link's port 64", 24, 103, |d| d.links[5].ends[1].port = 64),
    ("off", 0, 0, |d| d.links[0].on = 0),
    ("on", 0, 0, |d| d.links[5].on = 1),
    ("on 2", 24, 43, |d| d.links[0].on = 2),
    ("on 128", 24, 43, |d| d.links[0].on = 128),
    ("on 255", 24, 43, |d| d.links[0].on = 255),
    ("the last link's on 2", 24, 103, |d| d.links[5].on = 2),
    ("directed, all both ways", 0, 0, |d| direct(d, &[])),
    ("directed, each direction", 0, 0, |d| direct(d, &[0, 1, 2, 2, 1, 0])),
    ("direction 3", 24, 43, |d| direct(d, &[3])),
    ("direction 128", 24, 43, |d| direct(d, &[128])),
    ("direction 255", 24, 43, |d| direct(d, &[255])),
    ("an off link's direction 2", 0, 0, |d| direct(d, &[0, 0, 0, 0, 0, 2])),
    ("an off link's direction 3", 24, 108, |d| direct(d, &[0, 0, 0, 0, 0, 3])),
    ("a directed link's on 2", 24, 56, |d| {
        direct(d, &[]);
        d.links[1].on = 2;
    }),
    ("a directed link's port 64", 24, 56, |d| {
        direct(d, &[]);
        d.links[1].ends[1].port = 64;
    }),
    ("48 directed links", 0, 0, |d| {
        hold_links(d, 48);
        direct(d, &[2; 48]);
    }),
    ("49 directed links", 26, 636, |d| {
        hold_links(d, 49);
        direct(d, &[1; 49]);
    }),
    ("no links, directed", 0, 0, |d| {
        d.links.clear();
        direct(d, &[]);
    }),
    ("one link out, and one back at the same ends", 30, 121, |d| {
        direct(d, &[1]);
        d.links.push(DraftLink { direction: 2, ..d.links[0] });
    }),
    ("a directed link from a node to itself", 29, 43, |d| {
        direct(d, &[1]);
        d.links[0].ends[1].node = 1;
    }),
    ("asked from node 1024", 24, 115, |d| d.from.1 = 1024),
    ("asked from node 1025, 1 in ten bits", 24, 115, |d| d.from.1 = 1025),
    ("asked to node 1024", 24, 115, |d| d.to.1 = 1024),
    ("16 nodes", 0, 0, |d| hold_nodes(d, 16)),
    ("17 nodes", 26, 96, |d| hold_nodes(d, 17)),
    ("255 nodes", 26, 96, |d| hold_nodes(d, 255)),
    ("48 links", 0, 0, |d| hold_links(d, 48)),
    ("49 links", 26, 588, |d| hold_links(d, 49)),
    ("63 links", 26, 588, |d| hold_links(d, 63)),
    ("neighbours alike", 27, 23, |d| d.nodes[2].station = (9, 20)),
    ("neighbours alike but for the label", 27, 33, |d| d.nodes[3].station = (9, 21)),
    ("first and last alike", 27, 33, |d| d.nodes[3] = d.nodes[0].clone()),
    ("first and last alike but for the label", 27, 33, |d| d.nodes[3].station = (9, 1)),
    ("15th and 16th alike", 27, 90, |d| {
        hold_nodes(d, 16);
        d.nodes[15] = d.nodes[14].clone();
    }),
    ("alike but for the brigade", 0, 0, |d| d.rename((9, 21), (8, 20))),
    ("alike but for the node's high byte", 0, 0, |d| d.rename((9, 21), (9, 276))),
    ("alike but for the node's low byte", 0, 0, |d| d.rename((9, 21), (9, 148))),
    ("brigade and node exchanged", 0, 0, |d| d.rename((9, 21), (20, 9))),
    ("no nodes", 28, 0, |d| hold_nodes(d, 0)),
    ("no nodes, but links", 28, 0, |d| d.nodes.clear()),
    ("no links", 0, 0, |d| d.links.clear()),
    ("one node asked from itself to itself", 0, 0, |d| hold_nodes(d, 1)),
    ("an end at no node", 28, 43, |d| d.links[0].ends[0] = Address::new(9, 2, 2)),
    ("the other end at no node", 28, 43, |d| d.links[0].ends[1] = Address::new(9, 2, 1)),
    ("an end at a node but for the brigade", 28, 43, |d| d.links[0].ends[0].brigade = 8),
    ("an end at a node but for the high byte", 28, 43, |d| d.links[0].ends[0].node = 257),
    ("the last link at no node", 28, 103, |d| d.links[5].ends[1].node = 29),
    ("asked from no node", 28, 115, |d| d.from = (9, 2)),
    ("asked from a node but for the brigade", 28, 115, |d| d.from = (8, 1)),
    ("asked to no node", 28, 115, |d| d.to = (9, 286)),
    ("a node to itself", 29, 91, |d| d.links[4].ends[1] = Address::new(9, 20, 60)),
    ("an end to itself", 29, 91, |d| d.links[4].ends[1] = d.links[4].ends[0]),
    ("an off link from a node to itself", 29, 103, |d| d.links[5].ends[0].node = 30),
    ("one end used by the link before", 30, 55, |d| d.links[1].ends[0].port = 2),
    ("one end used as one by the first", 30, 103, |d| d.links[5].ends[0].port = 2),
    ("one end used as the other", 30, 103, |d| d.links[5].ends[0] = Address::new(9, 20, 1)),
    ("the other end used as the other", 30, 103, |d| d.links[5].ends[1].port = 1),
    ("the other end used as one", 30, 103, |d| d.links[5] = DraftLink::new((9, 30, 60), (9, 1, 2))),
    ("an end used by an off link", 30, 115, |d| {
        d.links.push(DraftLink::new((9, 1, 4), (9, 20, 60)))
    }),
    ("a link twice", 30, 115, |d| d.links.push(d.links[0])),
    ("a link twice, the other way", 30, 115, |d| {
        let [one, other] = d.links[0].ends;
        d.links.push(DraftLink { ends: [other, one], on: 1, direction: 0 });
    }),
    ("48th link's end used by the first", 30, 576, |d| {
        hold_links(d, 48);
        d.links[47].ends[1].port = 1;
    }),
];

fn limits(group: &mut Group, draw: &mut Draw) -> Outcome {
    for (name, number, place, change) in LIMITS {
        let mut draft = Draft::s();
        change(&mut draft);
        let chart = draft.lay();
        known_read(group, name, (number, place), &chart)?;
        // Noise where a writer does not look, then what would be refused, or would be in the way.
        for filler in 0..3 {
            let mut image = draft.image();
            for place in chart_image::unlooked(&image) {
                image[place] = [draw.below(256) as u8, 0xff, 1][filler];
            }
            let came = try_write(group, name, &image, chart.len())?;
            group.known(name, number, came)?;
        }
    }
    Ok(())
}

// ---- forms that only an image can have ----

// Gives the image of S with a form, and a direction for the first and the last link.
fn formed(form: u8, first: u8, last: u8) -> Vec<u8> {
    let mut image = Draft::s().image();
    image[FORM] = form;
    image[chart_image::link(0)][DIRECTION] = first;
    image[chart_image::link(5)][DIRECTION] = last;
    image
}

fn forms(group: &mut Group, _: &mut Draw) -> Outcome {
    for form in 0..=u8::MAX {
        for direction in 0..=u8::MAX {
            for (first, last) in [(direction, 0), (0, direction)] {
                let number = match (form, direction) {
                    (LINK, 0) | (DIRECTED_LINK, 0..=2) => 0,
                    _ => 24,
                };
                let came = try_write(group, "a form", &formed(form, first, last), LONGEST)?;
                group.known("a form", number, came)?;
            }
        }
        // Without links the form is not looked at.
        let mut image = Draft::row(2).image();
        image[FORM] = form;
        let came = try_write(group, "a form without links", &image, LONGEST)?;
        group.known("a form without links", 0, came)?;
        // The nodes come before it, and after it what is wrong in the first link.
        let mut image = formed(form, 0, 0);
        image[chart_image::link(0)][6] = 99;
        let came = try_write(group, "a form and a stranger", &image, LONGEST)?;
        let is_form = form == LINK || form == DIRECTED_LINK;
        group.known("a form and a stranger", if is_form { 28 } else { 24 }, came)?;
        image[chart_image::node(3)][2] = 1;
        let came = try_write(group, "a form and a node twice", &image, LONGEST)?;
        group.known("a form and a node twice", 27, came)?;
    }
    Ok(())
}

// ---- fields out of their order, and of a wrong shape ----

type Rearrange = fn(&mut Vec<Piece>);

/// Gives a plain link the other tag, and the direction both; no other field changes.
pub fn to_directed(piece: &mut Piece) {
    if piece.tag == LINK {
        *piece = Piece::new(DIRECTED_LINK, [&piece.body[..], &[0]].concat());
    }
}

fn to_plain(piece: &mut Piece) {
    if piece.tag == DIRECTED_LINK {
        *piece = Piece::new(LINK, piece.body[..9].to_vec());
    }
}

// Four nodes, six links and the question stand at 0 to 3, 4 to 9 and 10.
const FIELDS: [(&str, u8, usize, Rearrange); 53] = [
    ("all links directed", 0, 0, |p| p.iter_mut().for_each(to_directed)),
    ("the first link directed", 25, 56, |p| to_directed(&mut p[4])),
    ("the last link directed", 25, 103, |p| to_directed(&mut p[9])),
    ("the last link plain", 25, 108, |p| p[4..9].iter_mut().for_each(to_directed)),
    ("mixed, and a direction above 2", 24, 103, |p| {
        to_directed(&mut p[9]);
        p[9].body[9] = 3;
    }),
    ("mixed, and at no node", 25, 103, |p| {
        to_directed(&mut p[9]);
        p[9].body[6] = 99;
    }),
    ("a node after a directed link", 25, 46, |p| {
        p.iter_mut().for_each(to_directed);
        p.swap(3, 4);
    }),
    ("a directed link after the question", 25, 124, |p| {
        p.push(p[4].clone());
        to_directed(&mut p[11]);
    }),
    ("an empty directed link", 23, 43, |p| p[4] = Piece::new(DIRECTED_LINK, vec![])),
    ("a directed link of 9", 23, 43, |p| p[4].tag = DIRECTED_LINK),
    ("a directed link of 11", 23, 43, |p| {
        p[4] = Piece::new(DIRECTED_LINK, [&p[4].body[..], &[0, 0]].concat())
    }),
    ("a node's body under tag 4", 23, 13, |p| p[1].tag = DIRECTED_LINK),
    ("the question's body under tag 4", 23, 115, |p| p[10].tag = DIRECTED_LINK),
    ("no field", 31, 0, |p| p.clear()),
    ("no question", 31, 115, |p| p.truncate(10)),
    ("nodes alone", 31, 43, |p| p.truncate(4)),
    ("a question alone", 28, 0, |p| p.rotate_right(1)),
    ("links first", 28, 0, |p| p.rotate_left(4)),
    ("a node after a link", 25, 45, |p| p.swap(3, 4)),
    ("a node after the last link", 25, 115, |p| p.insert(10, Piece::new(NODE, vec![7, 0, 7]))),
    ("a node twice, after a link", 25, 115, |p| p.insert(10, p[0].clone())),
    ("a link after the question", 25, 112, |p| p.swap(9, 10)),
    ("a link twice, after the question", 25, 124, |p| p.push(p[4].clone())),
    ("a node twice, after the question", 25, 124, |p| p.push(p[0].clone())),
    ("a new node after the question", 25, 124, |p| p.push(Piece::new(NODE, vec![7, 0, 7]))),
    ("the question twice", 25, 124, |p| p.push(p[10].clone())),
    ("another question", 25, 124, |p| p.push(Piece::new(QUESTION, vec![7, 0, 7, 7, 0, 8]))),
    ("no links, a node after the question", 25, 52, |p| {
        p.drain(4..10);
        p.push(Piece::new(NODE, vec![7, 0, 7]));
    }),
    ("a value out of range after the question", 24, 124, |p| {
        p.push(Piece::new(NODE, vec![7, 4, 0]))
    }),
    ("a wrong length after the question", 23, 124, |p| p.push(Piece::new(LINK, vec![0; 8]))),
    ("a wrong tag after the question", 22, 124, |p| p.push(Piece::new(5, vec![]))),
    ("tag 0", 22, 0, |p| p[0].tag = 0),
    ("tag 5", 22, 13, |p| p[1].tag = 5),
    ("tag 255", 22, 43, |p| p[4].tag = 255),
    ("tag 129, 1 in seven bits", 22, 0, |p| p[0].tag = 129),
    ("the question's tag 5", 22, 115, |p| p[10].tag = 5),
    ("an empty node", 23, 0, |p| p[0] = Piece::new(NODE, vec![])),
    ("a node of 2", 23, 0, |p| p[0] = Piece::new(NODE, vec![9, 0])),
    ("a node of 3", 0, 0, |p| p[0] = Piece::new(NODE, vec![9, 0, 1])),
    ("a node of 259, 3 in eight bits", 23, 0, |p| {
        p[0].body.resize(259, b'x');
        p[0].length = 259;
    }),
    ("an empty link", 23, 43, |p| p[4] = Piece::new(LINK, vec![])),
    ("a link of 8", 23, 43, |p| p[4] = Piece::new(LINK, p[4].body[..8].to_vec())),
    ("a link of 10", 23, 43, |p| p[4] = Piece::new(LINK, [&p[4].body[..], &[0]].concat())),
    ("a link of 265, 9 in eight bits", 23, 43, |p| {
        p[4].body.resize(265, 0);
        p[4].length = 265;
    }),
    ("a link with a question's length", 23, 43, |p| p[4] = Piece::new(LINK, vec![9; 6])),
    ("an empty question", 23, 115, |p| p[10] = Piece::new(QUESTION, vec![])),
    ("a question of 5", 23, 115, |p| p[10] = Piece::new(QUESTION, vec![9, 0, 1, 9, 0])),
    ("a question of 7", 23, 115, |p| p[10] = Piece::new(QUESTION, vec![9, 0, 1, 9, 0, 30, 0])),
    ("a question with a link's length", 23, 115, |p| p[10] = Piece::new(QUESTION, vec![0; 9])),
    ("a length one too long at the end", 21, 115, |p| p[10].length = 7),
    ("a length of 65535", 21, 13, |p| p[1].length = 65535),
    ("a length of 262, 6 in eight bits", 21, 115, |p| p[10].length = 262),
    ("a length of 65535 and a wrong tag", 21, 13, |p| {
        p[1].length = 65535;
        p[1].tag = 9;
    }),
];

fn fields(group: &mut Group, _: &mut Draw) -> Outcome {
    for (name, number, place, rearrange) in FIELDS {
        let mut pieces = Draft::s().pieces();
        rearrange(&mut pieces);
        known_read(group, name, (number, place), &lay_pieces(&pieces))?;
    }
    // What is too short for a field's head, whatever it would be.
    for tag in [0, 1, 2, 3, 4, 5, 255] {
        for start in [&[tag][..], &[tag, 0], &[tag, 255]] {
            known_read(group, "a head cut short", (21, 0), start)?;
            let chart = [&S[..], start].concat();
            known_read(group, "a head cut short after the question", (21, 124), &chart)?;
        }
    }
    Ok(())
}

// ---- lengths ----

/// The longest plain chart: 16 nodes with labels of 24, 48 links. One link of each three between
/// neighbours is on, a second one between the middle ones, and one of three from first to last.
pub fn largest() -> Draft {
    let mut draft = Draft::row(MOST_NODES);
    for (place, node) in draft.nodes.iter_mut().enumerate() {
        node.label = format!("station {place:02}, 24-byte name").into_bytes();
    }
    for place in 0..MOST_NODES {
        (0..3).for_each(|_| draft.join(place, (place + 1) % MOST_NODES));
    }
    for (place, link) in draft.links.iter_mut().enumerate() {
        link.on = usize::from(place % 3 == 1 || place == 23);
    }
    draft
}

fn lengths(group: &mut Group, _: &mut Draw) -> Outcome {
    let [plain, directed] = [largest().lay(), largest().directed().lay()];
    let sizes = [plain.len(), directed.len()];
    group.check(sizes == [1065, LONGEST], || format!("the longest have {sizes:?}"))?;
    let small = [Draft::row(1).lay(), Draft::row(16).lay(), S.to_vec(), ONE_WAY.to_vec()];
    for chart in small.into_iter().chain([plain, directed]) {
        let size = chart.len();
        let mut image = vec![0; chart_image::SIZE];
        image.copy_from_slice(door::chart_read(&chart, chart_image::SIZE).bytes());
        for (number, lent) in [(10, 0), (10, 9), (10, 936), (0, 937), (0, 938), (0, LONG)] {
            let name = format!("an image of {lent} for a chart of {size}");
            let came = try_read(group, &name, &chart, lent)?;
            known(group, &name, (number, 0), came)?;
            let mut lengthened = image.clone();
            lengthened.resize(lent, 0xff);
            let came = try_write(group, &name, &lengthened, size)?;
            group.known(&name, number, came)?;
        }
        let rooms = [(10, 0), (10, 1), (10, size - 1), (0, size), (0, size + 1), (0, LONG)];
        for (number, room) in rooms {
            let name = format!("a buffer of {room} for a chart of {size}");
            let came = try_write(group, &name, &image, room)?;
            group.known(&name, number, came)?;
        }
        cuts(group, &chart)?;
        // Long tails, of which the low sixteen bits of the length tell nothing.
        let node = [&[NODE, 0, 3, 200, 0, 7][..], &vec![0; LONG - 6]].concat();
        for (number, tail) in [(21, vec![0xff; LONG]), (22, vec![0; LONG]), (25, node)] {
            let name = format!("a tail of {LONG} after a chart of {size}");
            known_read(group, &name, (number, size), &[&chart[..], &tail].concat())?;
        }
    }
    Ok(())
}

// Cuts a chart at every place: between two fields the question is missing, else the field is cut.
fn cuts(group: &mut Group, chart: &[u8]) -> Outcome {
    let mut start = 0;
    for left in 0..chart.len() {
        let field = 3 + usize::from(chart[start + 1]) * 256 + usize::from(chart[start + 2]);
        if left == start + field {
            start = left;
        }
        let number = if left == start { 31 } else { 21 };
        let name = format!("{left} bytes of a chart of {}", chart.len());
        known_read(group, &name, (number, start), &chart[..left])?;
    }
    Ok(())
}

// ---- order ----

// Fields that are all right, and one after them that is not.
struct Attempt {
    before: Vec<Piece>,
    last: Piece,
    is_cut: bool,
}

// Two nodes and a link between them, and a third node.
fn attempt(last: Piece) -> Attempt {
    let mut draft = Draft::row(3);
    draft.join(0, 1);
    let mut before = draft.pieces();
    before.pop();
    Attempt { before, last, is_cut: false }
}

fn question() -> Piece {
    Piece::new(QUESTION, vec![9, 0, 100, 9, 0, 102])
}

fn lengthen(piece: &mut Piece, size: usize) {
    piece.body.resize(size, b' ');
    piece.length = size;
}

// The last number first, as a later row decides, and may undo what an earlier one needs.
const NODE_BREACHES: [Breach<Attempt>; 8] = [
    (27, |a| a.last.body[2] = 101),
    (26, |a| {
        a.before = Draft::row(MOST_NODES).pieces();
        a.before.pop();
    }),
    (25, |a| a.before.push(Piece::new(LINK, vec![9, 0, 100, 9, 9, 0, 101, 9, 1]))),
    (25, |a| a.before.push(question())),
    (24, |a| a.last.body[1] = 4),
    (23, |a| lengthen(&mut a.last, 28)),
    (22, |a| a.last.tag = 5),
    (21, |a| a.is_cut = true),
];
const LINK_BREACHES: [Breach<Attempt>; 11] = [
    (30, |a| a.last.body[3] = 1),
    (29, |a| a.last.body[6] = 100),
    (28, |a| a.last.body[6] = 99),
    (28, |a| a.last.body[2] = 99),
    (26, |a| {
        let mut draft = Draft::row(3);
        draft.join(0, 1);
        (1..MOST_LINKS).for_each(|_| draft.join(1, 2));
        a.before = draft.pieces();
        a.before.pop();
    }),
    (25, |a| a.before.iter_mut().for_each(to_directed)),
    (25, |a| a.before.push(question())),
    (24, |a| a.last.body[ON] = 2),
    (23, |a| lengthen(&mut a.last, 10)),
    (22, |a| a.last.tag = 5),
    (21, |a| a.is_cut = true),
];
const DIRECTED_BREACHES: [Breach<Attempt>; 11] = [
    (30, |a| a.last.body[3] = 1),
    (29, |a| a.last.body[6] = 100),
    (28, |a| a.last.body[6] = 99),
    (26, |a| {
        let mut draft = Draft::row(3).directed();
        draft.join(0, 1);
        (1..MOST_LINKS).for_each(|_| draft.join(1, 2));
        a.before = draft.pieces();
        a.before.pop();
    }),
    (25, |a| a.before.iter_mut().for_each(to_plain)),
    (25, |a| a.before.push(question())),
    (24, |a| a.last.body[ON] = 2),
    (24, |a| a.last.body[DIRECTION] = 3),
    (23, |a| lengthen(&mut a.last, 9)),
    (22, |a| a.last.tag = 5),
    (21, |a| a.is_cut = true),
];
const QUESTION_BREACHES: [Breach<Attempt>; 7] = [
    (28, |a| a.last.body[2] = 99),
    (28, |a| a.last.body[3] = 8),
    (25, |a| a.before.push(question())),
    (24, |a| a.last.body[4] = 4),
    (23, |a| lengthen(&mut a.last, 7)),
    (22, |a| a.last.tag = 0),
    (21, |a| a.is_cut = true),
];

// Every choice of breaches in one field: the lowest number comes, also before a short image's.
fn order(group: &mut Group, _: &mut Draw) -> Outcome {
    let node = Piece::new(NODE, [&[9, 0, 77][..], b"Hill"].concat());
    let link = Piece::new(LINK, vec![9, 0, 100, 60, 9, 0, 101, 60, 1]);
    let directed = Piece::new(DIRECTED_LINK, vec![9, 0, 100, 60, 9, 0, 101, 60, 1, 2]);
    let fields: [(Piece, &[Breach<Attempt>]); 4] = [
        (node, &NODE_BREACHES),
        (link, &LINK_BREACHES),
        (directed, &DIRECTED_BREACHES),
        (question(), &QUESTION_BREACHES),
    ];
    for (piece, breaches) in fields {
        for chosen in 0..1 << breaches.len() {
            let mut attempt = attempt(piece.clone());
            match piece.tag {
                NODE => attempt.before.truncate(3),
                DIRECTED_LINK => attempt.before.iter_mut().for_each(to_directed),
                _ => (),
            }
            let lowest = break_rules(breaches, chosen, &mut attempt);
            let mut chart = lay_pieces(&attempt.before);
            let place = chart.len();
            chart.extend(attempt.last.lay());
            if attempt.is_cut {
                chart.pop();
            } else if piece.tag != QUESTION {
                chart.extend(question().lay());
            }
            let name = format!("order of field {}", piece.tag);
            for (other, lent) in [(0, SIZE), (10, SIZE - 1), (10, 0)] {
                let came = try_read(group, &name, &chart, lent)?;
                let refusal = lowest.map_or((other, 0), |number| (number, place));
                known(group, &name, refusal, came)?;
            }
        }
    }
    Ok(())
}

// An image and the buffer for its chart.
struct Request {
    image: Vec<u8>,
    size: usize,
    room: usize,
}

impl Request {
    fn node(&mut self, place: usize) -> &mut [u8] {
        &mut self.image[chart_image::node(place)]
    }

    fn link(&mut self, place: usize) -> &mut [u8] {
        &mut self.image[chart_image::link(place)]
    }
}

// The last field first and in it the last number, as a later row decides.
const IMAGE_BREACHES: [Breach<Request>; 17] = [
    (10, |r| r.room -= 1),
    (28, |r| r.image[8] = 99),
    (24, |r| r.image[4] = 4),
    (30, |r| r.link(5)[3] = 2),
    (29, |r| r.link(5)[6] = 1),
    (28, |r| r.link(5)[6] = 99),
    (24, |r| r.link(5)[ON] = 2),
    (24, |r| r.link(5)[DIRECTION] = 1),
    (24, |r| r.link(0)[ON] = 255),
    (24, |r| r.image[FORM] = 3),
    (27, |r| r.node(3)[2] = 1),
    (24, |r| r.node(3)[LABEL] = 127),
    (23, |r| r.node(3)[LABEL_LENGTH] = 25),
    (24, |r| r.node(0)[1] = 4),
    (26, |r| r.image[LINK_COUNT] = 49),
    (26, |r| r.image[NODE_COUNT] = 17),
    (10, |r| r.size = 936),
];

// Every choice of breaches in one image: the first field's lowest number comes.
fn image_order(group: &mut Group, _: &mut Draw) -> Outcome {
    for chosen in 0..1 << IMAGE_BREACHES.len() {
        let mut request =
            Request { image: Draft::s().image(), size: chart_image::SIZE, room: S.len() };
        let lowest = break_rules(&IMAGE_BREACHES, chosen, &mut request);
        request.image.truncate(request.size);
        let came = try_write(group, "order", &request.image, request.room)?;
        group.known("order", lowest.unwrap_or(0), came)?;
    }
    Ok(())
}

// ---- sweeps ----

fn sweeps(group: &mut Group, _: &mut Draw) -> Outcome {
    for place in 0..S.len() {
        for value in 0..=u8::MAX {
            let mut chart = S;
            chart[place] = value;
            try_read(group, "every byte of S", &chart, chart_image::SIZE)?;
        }
    }
    for place in 0..ONE_WAY.len() {
        for value in 0..=u8::MAX {
            let mut chart = ONE_WAY;
            chart[place] = value;
            try_read(group, "every byte of S, one way", &chart, chart_image::SIZE)?;
        }
    }
    let image = Draft::s().image();
    // As far as the first of the unused nodes and links, which is not looked at.
    let nodes = 0..chart_image::node(5).start;
    let links = chart_image::link(0).start..chart_image::link(7).start;
    for place in nodes.chain(links) {
        for value in 0..=u8::MAX {
            let mut image = image.clone();
            image[place] = value;
            try_write(group, "every byte of an image", &image, LONGEST)?;
        }
    }
    // Two counts that are each in range or not, over nodes and links that are all right.
    let mut full = largest();
    full.nodes.truncate(3);
    full.links = Vec::new();
    full.to = (9, 102);
    (0..MOST_LINKS).for_each(|place| full.join(place % 2, 2));
    full.nodes.extend((3..MOST_NODES).map(|place| DraftNode::new((7, place), b"x")));
    let mut image = full.image();
    for nodes in 0..=u8::MAX {
        for links in (0..=u8::MAX).filter(|links| nodes < 18 || *links % 16 < 2) {
            image[NODE_COUNT] = nodes;
            image[LINK_COUNT] = links;
            let came = try_write(group, "every count", &image, LONGEST)?;
            let number = match (nodes, links) {
                (17..=255, _) | (_, 49..=255) => 26,
                (0..=2, _) => 28,
                _ => 0,
            };
            group.known("every count", number, came)?;
        }
    }
    Ok(())
}
