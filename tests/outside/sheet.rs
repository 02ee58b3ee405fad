//! A second printed sheet, from documents 01 and 02. The fields of a chart are printed one by one,
//! and then the second list of its routes.

use crate::chart::{self, Field, NODE, QUESTION};
use crate::door::{Expected, Given};
use crate::trace::Routes;

pub const LONGEST_INPUT: usize = 4096;

const MOST_ROUTES: usize = 1000;

/// Gives the text of an input, unless there are more beginnings of routes than this.
pub fn print(input: &[u8], most: usize) -> Option<String> {
    if input.len() > LONGEST_INPUT {
        return Some("too long\n".to_string());
    }
    let text = match chart::read(input) {
        Err((number, place)) => format!("refused {number} at {place}\n"),
        Ok(fields) => print_fields(&fields) + &print_routes(&Routes::of(input, most)?),
    };
    Some(text)
}

/// Gives what pz_sheet should for a text and a buffer of this size.
pub fn lent(text: &str, room: usize) -> Expected {
    match text.len() <= room {
        true => Ok(Given::new(text.as_bytes().to_vec(), &[text.len()])),
        false => Err(10),
    }
}

/// Gives the numbers of a station or an end, with slashes between.
pub fn slashed(bytes: &[u8]) -> String {
    let node = u16::from_be_bytes([bytes[1], bytes[2]]);
    let ports: String = bytes[3..].iter().map(|port| format!("/{port}")).collect();
    format!("{}/{node}{ports}", bytes[0])
}

fn print_fields(fields: &[Field]) -> String {
    let of = |tag: u8| fields.iter().filter(move |field| field.tag == tag);
    let links: Vec<&Field> = fields.iter().filter(|field| field.is_link()).collect();
    let mut text = format!("nodes {} links {}\n", of(NODE).count(), links.len());
    for (place, node) in of(NODE).enumerate() {
        let (station, label) = node.body.split_at(3);
        text += &format!("{place} {}", slashed(station));
        if !label.is_empty() {
            text += &format!(" {}", String::from_utf8_lossy(label));
        }
        text += "\n";
    }
    for (place, link) in links.iter().enumerate() {
        let ends: Vec<String> = link.ends().map(|end| slashed(&end)).collect();
        let on = ["off", "on"][usize::from(link.body[8])];
        let direction = ["both", "out", "back"][usize::from(link.direction())];
        text += &format!("{place} {} {on} {direction}\n", ends.join(" "));
    }
    for question in of(QUESTION) {
        let asked: Vec<String> = question.stations().map(|station| slashed(&station)).collect();
        text += &format!("from {}\n", asked.join(" to "));
    }
    text
}

fn print_routes(routes: &Routes) -> String {
    let mut lines: Vec<String> = Vec::new();
    for route in routes.list() {
        let places: Vec<String> = route.iter().map(|place| place.to_string()).collect();
        lines.push(if route.is_empty() { "-".to_string() } else { places.join(" ") });
    }
    let last = if lines.len() > MOST_ROUTES { "more" } else { "end" };
    lines.truncate(MOST_ROUTES);
    lines.push(last.to_string());
    lines.iter().map(|line| format!("{line}\n")).collect()
}
