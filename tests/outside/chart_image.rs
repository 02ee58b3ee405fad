//! The image of a chart that passes through the door, between its bytes and the chart's fields. The
//! question has the same bytes in both, and so has a directed link; a plain link has the direction
//! 0 after its own. A node has its label's length before the label, and room for the longest.

use crate::chart::{self, lay_field, Field, DIRECTED_LINK, LINK, NODE, QUESTION};
use crate::chart::{MOST_LABEL, MOST_LINKS, MOST_NODES};
use std::iter::repeat;
use std::ops::Range;

pub const SIZE: usize = 937;

pub const NODE_COUNT: usize = 0;
pub const LINK_COUNT: usize = 1;
pub const FORM: usize = 2;
const QUESTION_AT: Range<usize> = 3..9;
const NODE_SIZE: usize = 28;
const NODES_AT: usize = 9;
const LINK_SIZE: usize = 10;
const LINKS_AT: usize = NODES_AT + MOST_NODES * NODE_SIZE;

// Bytes within a node.
pub const LABEL_LENGTH: usize = 3;
pub const LABEL: usize = 4;

// Bytes within a link.
pub const ON: usize = 8;
pub const DIRECTION: usize = 9;

/// Gives the bytes of the node at this place.
pub fn node(place: usize) -> Range<usize> {
    NODES_AT + place * NODE_SIZE..NODES_AT + (place + 1) * NODE_SIZE
}

/// Gives the bytes of the link at this place.
pub fn link(place: usize) -> Range<usize> {
    LINKS_AT + place * LINK_SIZE..LINKS_AT + (place + 1) * LINK_SIZE
}

/// Gives the numbers of nodes and of links.
pub fn counts(image: &[u8]) -> [usize; 2] {
    [NODE_COUNT, LINK_COUNT].map(|at| image[at].into())
}

/// Gives the bytes that a writer does not look at: nodes, links and parts of labels past their
/// counts, the form where there are no links, and what follows the image.
pub fn unlooked(image: &[u8]) -> Vec<usize> {
    let [nodes, links] = counts(image);
    let past_label = |place: usize| {
        let label = node(place).start + LABEL;
        let length = usize::from(image[node(place).start + LABEL_LENGTH]);
        label + length.min(MOST_LABEL)..label + MOST_LABEL
    };
    (0..nodes.min(MOST_NODES))
        .flat_map(past_label)
        .chain((nodes..MOST_NODES).flat_map(node))
        .chain((links..MOST_LINKS).flat_map(link))
        .chain((FORM..=FORM).filter(|_| links == 0))
        .chain(SIZE..image.len())
        .collect()
}

/// Gives the image of an accepted chart's fields.
pub fn lay(fields: &[Field]) -> Vec<u8> {
    let bodies = |tag| fields.iter().filter(move |f| f.tag == tag).map(|f| f.body);
    let mut image = vec![0; SIZE];
    for (place, body) in bodies(NODE).enumerate() {
        let (station, label) = body.split_at(LABEL_LENGTH);
        let bytes = [station, &[label.len() as u8], label].concat();
        image[node(place)][..bytes.len()].copy_from_slice(&bytes);
        image[NODE_COUNT] += 1;
    }
    for (place, field) in fields.iter().filter(|field| field.is_link()).enumerate() {
        image[link(place)][..field.body.len()].copy_from_slice(field.body);
        image[LINK_COUNT] += 1;
    }
    image[FORM] = chart::form(fields);
    for body in bodies(QUESTION) {
        image[QUESTION_AT].copy_from_slice(body);
    }
    image
}

/// Gives the chart of an image whose counts are in range. A label that says it is longer than its
/// room is filled up with blanks. A form that is no link's tag, and a direction that a plain link
/// has no byte for, become an on byte out of range.
pub fn take(image: &[u8]) -> Vec<u8> {
    let [nodes, links] = counts(image);
    let mut chart = Vec::new();
    for bytes in (0..nodes).map(|place| &image[node(place)]) {
        let length = bytes[LABEL_LENGTH].into();
        let label = bytes[LABEL..].iter().chain(repeat(&b' ')).take(length);
        let body: Vec<u8> = bytes[..LABEL_LENGTH].iter().chain(label).copied().collect();
        chart.extend(lay_field(NODE, body.len(), &body));
    }
    for bytes in (0..links).map(|place| &image[link(place)]) {
        chart.extend(match (image[FORM], bytes[DIRECTION]) {
            (DIRECTED_LINK, _) => lay_field(DIRECTED_LINK, LINK_SIZE, bytes),
            (LINK, 0) => lay_field(LINK, DIRECTION, &bytes[..DIRECTION]),
            _ => lay_field(LINK, DIRECTION, &[&bytes[..ON], &[255]].concat()),
        });
    }
    let question = &image[QUESTION_AT];
    chart.extend(lay_field(QUESTION, question.len(), question));
    chart
}
