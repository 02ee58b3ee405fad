//! The sample charts of charts/, their sheets, their tables and the way of a message, and what is
//! left of the refused ones, made again here and compared with the files, so that nobody has to
//! believe bytes that can't be read. `outside charts` writes the files.

use crate::chart::{Refusal, NODE};
use crate::chart_call::{known, known_read};
use crate::chart_cases::{largest, to_directed, ONE_WAY, S};
use crate::chart_draft::{lay_pieces, Draft, DraftLink, Piece};
use crate::class_call::{all_refusals, made, Handed};
use crate::draw::Draw;
use crate::group::{Group, Outcome, Tests};
use crate::mender::Mended;
use crate::router::SIZE;
use crate::sheet::{print, LONGEST_INPUT};
use crate::table::Tables;
use crate::table_call::{journeys, try_nodes, try_table};
use crate::trace::Routes;
use crate::trace_call::walk_through;
use crate::trace_cases::thousand;
use crate::trace_combs::{mesh, strands};
use crate::wire::Address;
use std::fs;

pub const GROUPS: &[Tests] = &[("chart samples", samples)];

// Where the tests are started, the root of the project.
const FOLDER: &str = "charts";

// More than any sample has.
const MANY: usize = 100_000;

// Where more fields are dropped, no lines are stored of them.
const MOST_DROPPED: usize = 100;

// A name, the refusal, the number of routes, and the chart.
type Sample = (&'static str, Refusal, usize, fn() -> Vec<u8>);

const ACCEPTED: Refusal = (0, 0);

const SAMPLES: [Sample; 30] = [
    ("s", ACCEPTED, 4, || S.to_vec()),
    ("unlabelled", ACCEPTED, 4, || {
        changed(|d| d.nodes.iter_mut().for_each(|node| node.label.clear()))
    }),
    ("off", ACCEPTED, 2, || changed(|d| d.links[4].on = 0)),
    ("apart", ACCEPTED, 0, || changed(|d| [0, 1].iter().for_each(|&link| d.links[link].on = 0))),
    ("here", ACCEPTED, 1, || changed(|d| d.to = d.from)),
    ("parallel", ACCEPTED, 6, || {
        changed(|d| d.links.push(DraftLink::new((9, 20, 60), (9, 30, 60))))
    }),
    ("one-way", ACCEPTED, 3, || ONE_WAY.to_vec()),
    ("renewed", ACCEPTED, 4, || Draft::s().directed().lay()),
    ("lines", ACCEPTED, 4, || changed(lines_for_labels)),
    ("largest", ACCEPTED, 3, || largest().lay()),
    ("thousand", ACCEPTED, 1000, || thousand(0).lay()),
    ("thousand-one", ACCEPTED, 1001, || thousand(1).lay()),
    ("strands", ACCEPTED, 0, || strands().lay()),
    ("mesh", ACCEPTED, 0, || mesh().lay()),
    ("cut", (21, 115), 0, || S[..120].to_vec()),
    ("tag", (22, 43), 0, || rearranged(|p| p[4].tag = 5)),
    ("length", (23, 13), 0, || changed(|d| d.nodes[1].label = vec![b'x'; 25])),
    ("range", (24, 0), 0, || vec![1, 0, 3, 9, 4, 0]),
    ("direction", (24, 43), 0, || Draft::s().direct(&[3]).lay()),
    ("mixed", (25, 56), 0, || rearranged(|p| to_directed(&mut p[4]))),
    ("after", (25, 124), 0, || rearranged(|p| p.push(Piece::new(NODE, vec![9, 0, 40])))),
    ("crowd", (26, 96), 0, || Draft::row(17).lay()),
    ("twice", (27, 33), 0, || changed(|d| d.nodes[3].station = (9, 20))),
    ("stranger", (28, 43), 0, || changed(|d| d.links[0].ends[1].node = 2)),
    ("loop", (29, 91), 0, || changed(|d| d.links[4].ends[1].node = 20)),
    ("taken", (30, 55), 0, || changed(|d| d.links[1].ends[0].port = 2)),
    ("unasked", (31, 115), 0, || rearranged(|p| p.truncate(10))),
    ("empty", (31, 0), 0, Vec::new),
    ("full", (22, 124), 0, || filled(LONGEST_INPUT)),
    ("overfull", (22, 124), 0, || filled(LONGEST_INPUT + 1)),
];

// Labels that look like other lines of a sheet.
fn lines_for_labels(draft: &mut Draft) {
    let lines = ["end", "0 2", "refused 31 at 0", "1 9/20 Hill"];
    for (node, line) in draft.nodes.iter_mut().zip(lines) {
        node.label = line.as_bytes().to_vec();
    }
}

// Gives S with zeros after it, so many bytes in all.
fn filled(size: usize) -> Vec<u8> {
    let mut bytes = S.to_vec();
    bytes.resize(size, 0);
    bytes
}

// Gives S with one thing changed in its values.
fn changed(change: fn(&mut Draft)) -> Vec<u8> {
    let mut draft = Draft::s();
    change(&mut draft);
    draft.lay()
}

// Gives S with one thing changed in its fields.
fn rearranged(change: fn(&mut Vec<Piece>)) -> Vec<u8> {
    let mut pieces = Draft::s().pieces();
    change(&mut pieces);
    lay_pieces(&pieces)
}

fn file(name: &str, kind: &str) -> String {
    format!("{FOLDER}/{name}.{kind}")
}

// Gives the files of a sample, by their kinds: a refused chart has no tables, and no message is
// passed over it; what is left of it is told instead.
fn files(chart: Vec<u8>, refusal: Refusal) -> Vec<(&'static str, Vec<u8>)> {
    let sheet = print(&chart, MANY).expect("a chart of few routes");
    let mut files = vec![("sheet", sheet.into())];
    let mended = Mended::of(&chart);
    if refusal == ACCEPTED {
        files.push(("tables", Tables::of(&chart).print().into()));
        files.push(("way", Handed::made(&chart).print().into()));
    } else if mended.dropped.len() <= MOST_DROPPED {
        files.push(("mended", mended.print().into()));
    }
    files.push(("chart", chart));
    files
}

/// Writes the sample charts, and what is printed of each.
pub fn write() {
    fs::create_dir_all(FOLDER).expect("a folder for the charts");
    for (name, refusal, _, make) in SAMPLES {
        for (kind, made) in files(make(), refusal) {
            fs::write(file(name, kind), made).expect("a file that can be written");
        }
    }
    println!("charts: {} written", SAMPLES.len());
}

fn samples(group: &mut Group, _: &mut Draw) -> Outcome {
    for (name, refusal, count, make) in SAMPLES {
        let chart = make();
        for (kind, made) in files(chart.clone(), refusal) {
            let stored = fs::read(file(name, kind)).ok();
            group.check(stored == Some(made), || {
                format!("{} is not the one that is made here", file(name, kind))
            })?;
        }
        known_read(group, name, refusal, &chart)?;
        let tables = Tables::of(&chart);
        let images = try_nodes(group, name, &chart, &tables)?;
        journeys(group, name, &tables, &images)?;
        let came = try_table(group, name, &chart, &tables, (9, 2), SIZE)?;
        let number = if refusal == ACCEPTED { (44, 0) } else { refusal };
        known(group, name, number, (came.number, came.first_beside()))?;
        made(group, name, &chart)?;
        let (handed, to) = (Handed::made(&chart), Address::new(9, 30, 1));
        for came in all_refusals(group, name, &handed, ((9, 2), 16), to)? {
            known(group, name, number, came)?;
        }
        let routes = Routes::of(&chart, MANY).expect("a chart of few routes");
        let numbers = walk_through(group, name, &chart, &routes, vec![0; 15], 0)?;
        let end = if refusal == ACCEPTED { 43 } else { refusal.0 };
        group.check(numbers.len() == count + 1 && numbers[count] == end, || {
            format!("{name}\n  expected {count} routes, then {end}\n  came {numbers:?}")
        })?;
    }
    let files = fs::read_dir(FOLDER).into_iter().flatten().flatten();
    let is_chart = |file: &fs::DirEntry| file.path().extension().map_or(false, |e| e == "chart");
    let stored = files.filter(is_chart).count();
    group.check(stored == SAMPLES.len(), || {
        format!("{stored} charts in {FOLDER}, {} are made here", SAMPLES.len())
    })?;
    Ok(())
}
