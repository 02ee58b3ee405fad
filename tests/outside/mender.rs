//! A second mender, from document 02, Twelve: fields are cut off from the front, and each is judged
//! beside those that were kept.

use crate::chart::{self, judge, Field, LONGEST, NODE, QUESTION};
use crate::rules::{try_rules, Rule};

/// The longest input that is mended, and the longest list beside a chart that is kept.
pub const LONGEST_DAMAGED: usize = 65535;
pub const LONGEST_LIST: usize = 65520;

// What the numbers of dropped fields mean, from 21 on.
const MEANINGS: [&str; 10] = [
    "the field is cut short",
    "the tag is not 1, 2, 3 or 4",
    "the tag does not allow the length",
    "a value of the field is out of its range",
    "a node stands after a link, links of tag 2 and of tag 4 are mixed, or something stands after \
     the question",
    "a 17th node or a 49th link",
    "the node is written twice",
    "an end or the question names a node that is not written",
    "the link joins a node to itself",
    "an earlier link uses one of the ends",
];

/// A field that is dropped: where it begins, its number, and how many bytes are kept before it.
pub struct Dropped {
    pub place: usize,
    pub number: u8,
    pub kept_before: usize,
}

/// What is kept of an input, and what is dropped.
pub struct Mended {
    size: usize,
    has_question: bool,
    pub kept: Vec<u8>,
    pub dropped: Vec<Dropped>,
}

impl Mended {
    pub fn of(input: &[u8]) -> Mended {
        let mut fields = Vec::new();
        let (mut kept, mut dropped) = (Vec::new(), Vec::new());
        let mut rest = input;
        while !rest.is_empty() {
            let place = input.len() - rest.len();
            let (judged, after) = match Field::cut(rest) {
                Some((field, after)) => (judge(field, &fields).map(|()| field), after),
                None => (Err(21), &[][..]),
            };
            match judged {
                Ok(field) => {
                    fields.push(field);
                    kept.extend(&rest[..rest.len() - after.len()]);
                }
                Err(number) => dropped.push(Dropped { place, number, kept_before: kept.len() }),
            }
            rest = after;
        }
        let has_question = fields.iter().any(|field| field.tag == QUESTION);
        Mended { size: input.len(), has_question, kept, dropped }
    }

    /// Gives the bytes of the list.
    pub fn list(&self) -> Vec<u8> {
        let entry = |d: &Dropped| [(d.place >> 8) as u8, d.place as u8, d.number];
        self.dropped.iter().flat_map(entry).collect()
    }

    /// Gives the refusal for buffers of these sizes, or none.
    pub fn refusal(&self, room: usize, list_room: usize) -> Result<(), u8> {
        let rules: [Rule<(&Mended, usize, usize)>; 4] = [
            (33, |(mended, _, _)| mended.size > LONGEST_DAMAGED),
            (31, |(mended, _, _)| !mended.has_question),
            (10, |(mended, room, _)| mended.kept.len() > *room),
            (10, |(mended, _, list_room)| 3 * mended.dropped.len() > *list_room),
        ];
        try_rules(&rules, &(self, room, list_room))
    }

    /// Gives a line for each dropped field, how many bytes are kept, and what they are read as.
    pub fn print(&self) -> String {
        if let Err(number) = self.refusal(LONGEST, LONGEST_LIST) {
            return format!("refused {number}\n");
        }
        let line = |d: &Dropped| {
            let meaning = MEANINGS[usize::from(d.number) - 21];
            format!("dropped {} at {}: {meaning}\n", d.number, d.place)
        };
        let fields = chart::read(&self.kept).expect("a chart");
        let nodes = fields.iter().filter(|field| field.tag == NODE).count();
        let links = fields.iter().filter(|field| field.is_link()).count();
        let dropped: String = self.dropped.iter().map(line).collect();
        let kept = format!("kept {} of {} bytes\n", self.kept.len(), self.size);
        format!("{dropped}{kept}read: nodes {nodes} links {links}\n")
    }
}
