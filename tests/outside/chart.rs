//! A second reader and writer of charts, from documents 01 and 02. A chart is cut into fields, and
//! each is judged beside those before it; stations and ends are compared as the bytes that stand
//! there.

use crate::chart_image;
use crate::rules::{try_rules, Rule};
use std::ops::RangeInclusive;

pub const MOST_NODES: usize = 16;
pub const MOST_LINKS: usize = 48;
pub const MOST_LABEL: usize = 24;
pub const LONGEST: usize = 1113;

pub const NODE: u8 = 1;
pub const LINK: u8 = 2;
pub const QUESTION: u8 = 3;
pub const DIRECTED_LINK: u8 = 4;

pub const STATION: usize = 3;
pub const END: usize = 4;
const HEAD: usize = 3;

/// A station as it stands in a chart: the brigade, then the node's two bytes.
pub type StationBytes = [u8; STATION];

/// A refusal number, and the place where the field begins that earned it.
pub type Refusal = (u8, usize);

/// A whole field, which may break every other rule.
#[derive(Clone, Copy)]
pub struct Field<'a> {
    pub tag: u8,
    pub body: &'a [u8],
}

impl<'a> Field<'a> {
    /// Cuts the first field off, if it is whole.
    pub fn cut(bytes: &'a [u8]) -> Option<(Field<'a>, &'a [u8])> {
        let head = bytes.get(..HEAD)?;
        let body = bytes[HEAD..].get(..word(&head[1..]))?;
        Some((Field { tag: head[0], body }, &bytes[HEAD + body.len()..]))
    }

    fn lengths(&self) -> RangeInclusive<usize> {
        match self.tag {
            NODE => STATION..=STATION + MOST_LABEL,
            LINK => 9..=9,
            DIRECTED_LINK => 10..=10,
            _ => 6..=6,
        }
    }

    /// Whether the field is a link, of either tag.
    pub fn is_link(&self) -> bool {
        [LINK, DIRECTED_LINK].contains(&self.tag)
    }

    /// Gives the direction of a link: 0 both, 1 first end to second, 2 second to first.
    pub fn direction(&self) -> u8 {
        if self.tag == DIRECTED_LINK {
            self.body[9]
        } else {
            0
        }
    }

    /// Gives the two ends of a link, station and port; no other field has any.
    pub fn ends(self) -> impl Iterator<Item = [u8; END]> + 'a {
        let count = if self.is_link() { 2 } else { 0 };
        self.body.chunks(END).take(count).map(|b| [b[0], b[1], b[2], b[3]])
    }

    /// Gives the stations that the field writes or names.
    pub fn stations(self) -> impl Iterator<Item = StationBytes> + 'a {
        let (apart, count) = match self.tag {
            NODE => (STATION, 1),
            LINK | DIRECTED_LINK => (END, 2),
            _ => (STATION, 2),
        };
        self.body.chunks(apart).take(count).map(|b| [b[0], b[1], b[2]])
    }

    fn in_range(self) -> bool {
        self.stations().all(|station| word(&station[1..]) <= 1023)
            && self.ends().all(|end| (1..=63).contains(&end[STATION]))
            && match self.tag {
                NODE => self.body[STATION..].iter().all(|byte| (32..=126).contains(byte)),
                LINK | DIRECTED_LINK => self.body[8] <= 1 && self.direction() <= 2,
                _ => true,
            }
    }
}

fn word(bytes: &[u8]) -> usize {
    usize::from(bytes[0]) * 256 + usize::from(bytes[1])
}

// A field beside those before it, none of which is refused.
struct Judged<'a> {
    field: Field<'a>,
    earlier: &'a [Field<'a>],
}

impl<'a> Judged<'a> {
    fn is(&self, tag: u8) -> bool {
        self.field.tag == tag
    }

    fn earlier(&self, tag: u8) -> impl Iterator<Item = Field<'a>> {
        self.earlier.iter().copied().filter(move |field| field.tag == tag)
    }

    fn follows(&self, tag: u8) -> bool {
        self.earlier(tag).next().is_some()
    }

    fn is_written(&self, station: StationBytes) -> bool {
        self.earlier(NODE).flat_map(Field::stations).any(|written| written == station)
    }

    fn is_used(&self, end: [u8; END]) -> bool {
        self.earlier.iter().copied().flat_map(Field::ends).any(|used| used == end)
    }

    // Whether a link of another tag than this one's stands before it; to a node any link is other.
    fn follows_other_link(&self) -> bool {
        self.earlier.iter().any(|field| field.is_link() && field.tag != self.field.tag)
    }

    fn is_too_many(&self) -> bool {
        let links = self.earlier.iter().filter(|field| field.is_link()).count();
        self.is(NODE) && self.earlier(NODE).count() >= MOST_NODES
            || self.field.is_link() && links >= MOST_LINKS
    }
}

/// Judges a field beside those before it. 21 is given where a field is cut off, 31 where there is
/// none left to cut.
pub fn judge(field: Field, earlier: &[Field]) -> Result<(), u8> {
    let rules: [Rule<Judged>; 9] = [
        (22, |j| !(NODE..=DIRECTED_LINK).contains(&j.field.tag)),
        (23, |j| !j.field.lengths().contains(&j.field.body.len())),
        (24, |j| !j.field.in_range()),
        (25, |j| j.follows(QUESTION) || !j.is(QUESTION) && j.follows_other_link()),
        (26, |j| j.is_too_many()),
        (27, |j| j.is(NODE) && j.field.stations().any(|station| j.is_written(station))),
        (28, |j| !j.is(NODE) && j.field.stations().any(|station| !j.is_written(station))),
        (29, |j| j.field.is_link() && j.field.body[..3] == j.field.body[4..7]),
        (30, |j| j.field.ends().any(|end| j.is_used(end))),
    ];
    try_rules(&rules, &Judged { field, earlier })
}

/// Gives the fields of a chart, or the refusal.
pub fn read(chart: &[u8]) -> Result<Vec<Field<'_>>, Refusal> {
    let mut earlier = Vec::new();
    let mut rest = chart;
    while !rest.is_empty() {
        let place = chart.len() - rest.len();
        let (field, after) = Field::cut(rest).ok_or((21, place))?;
        judge(field, &earlier).map_err(|number| (number, place))?;
        earlier.push(field);
        rest = after;
    }
    match earlier.iter().any(|field| field.tag == QUESTION) {
        true => Ok(earlier),
        false => Err((31, chart.len())),
    }
}

/// Gives the bytes of a chart's image for a buffer of this size, or the refusal.
pub fn write(image: &[u8], room: usize) -> Result<Vec<u8>, u8> {
    if image.len() < chart_image::SIZE {
        return Err(10);
    }
    let [nodes, links] = chart_image::counts(image);
    if nodes > MOST_NODES || links > MOST_LINKS {
        return Err(26);
    }
    let chart = chart_image::take(image);
    read(&chart).map_err(|(number, _)| number)?;
    if chart.len() > room {
        return Err(10);
    }
    Ok(chart)
}

/// Gives the tag of a chart's links, 2 where it has none.
pub fn form(fields: &[Field]) -> u8 {
    fields.iter().find(|field| field.is_link()).map_or(LINK, |link| link.tag)
}

/// Gives the bytes of a chart with its links under this tag for a buffer of this size, or the
/// refusal.
pub fn move_to(form: u8, chart: &[u8], room: usize) -> Result<Vec<u8>, Refusal> {
    let fields = read(chart)?;
    if form == LINK && fields.iter().any(|field| field.is_link() && field.direction() != 0) {
        return Err((32, 0));
    }
    let mut moved = Vec::new();
    for field in fields {
        moved.extend(match (field.is_link(), form) {
            (true, LINK) => lay_field(LINK, 9, &field.body[..9]),
            (true, _) => {
                let body = [&field.body[..9], &[field.direction()]].concat();
                lay_field(DIRECTED_LINK, 10, &body)
            }
            _ => lay_field(field.tag, field.body.len(), field.body),
        });
    }
    if moved.len() > room {
        return Err((10, 0));
    }
    Ok(moved)
}

/// Lays a field under this tag, its length written as it is or otherwise.
pub fn lay_field(tag: u8, length: usize, body: &[u8]) -> Vec<u8> {
    [&[tag, (length >> 8) as u8, length as u8][..], body].concat()
}
