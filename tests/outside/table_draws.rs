//! Drawn charts of 1 to 16 nodes and their tables, for every node and for others, in images of any
//! size; messages that go by these tables; and damaged charts.

use crate::chart_draft::{Draft, Station};
use crate::chart_draws::{damage, draw_draft, draw_other};
use crate::draw::Draw;
use crate::group::{Group, Outcome, Tally, Tests};
use crate::router::SIZE;
use crate::table::Tables;
use crate::table_call::{journeys, same_tables, try_nodes, try_table};
use crate::trace_draws::draw_net;

pub const GROUPS: &[Tests] = &[("tables drawn", draws), ("tables of few routes", few)];

const DRAWN: usize = 4_000;
const FEW_DRAWN: usize = 1_500;
const ANEW: usize = 4;

// Beginnings of routes between two nodes, up to which all of them are walked.
const FEW: usize = 5_000;

// Times that each number must come.
const OFTEN: u64 = 40;

// Draws a chart of any size, or of a shape with many routes.
fn draw_chart(draw: &mut Draw) -> Draft {
    match draw.below(2) {
        0 => draw_draft(draw),
        _ => draw_net(draw),
    }
}

// Draws a node that a chart may have: one that is there, one that is nearly so, or any.
fn draw_node(draw: &mut Draw, stations: &[Station]) -> Station {
    let [one, other] = match stations.len() {
        0 => [(9, 1); 2],
        count => [0; 2].map(|_| stations[draw.below(count)]),
    };
    let any = (draw.below(256), draw.below(1 << 16));
    let stranger = draw_other(draw, stations);
    let (brigade, node) = one;
    let near = [
        (brigade, other.1),
        (other.0, node),
        (brigade ^ 1 << draw.below(8), node),
        (brigade, node ^ 1 << draw.below(16)),
        (brigade, node % 256 * 256 + node / 256),
    ];
    let near = draw.one_of(&near);
    draw.one_of(&[one, one, one, near, near, stranger, any])
}

fn draw_room(draw: &mut Draw) -> usize {
    let any = draw.below(SIZE);
    draw.one_of(&[SIZE, SIZE, SIZE, SIZE, SIZE + 1, SIZE + 4, 1000, 0, SIZE - 1, any])
}

// The question and the labels are no part of what a table says.
fn ask_anew(draw: &mut Draw, draft: &mut Draft) {
    let stations: Vec<Station> = draft.nodes.iter().map(|node| node.station).collect();
    draft.from = stations[draw.below(stations.len())];
    draft.to = stations[draw.below(stations.len())];
    draft.nodes.iter_mut().for_each(|node| node.label = b"another".to_vec());
}

fn draws(group: &mut Group, draw: &mut Draw) -> Outcome {
    let mut tally = Tally::new("pz_table");
    let [mut none, mut some, mut most] = [0; 3];
    for _ in 0..DRAWN {
        let mut draft = draw_chart(draw);
        let chart = draft.lay();
        let tables = Tables::of(&chart);
        let images = try_nodes(group, "drawn", &chart, &tables)?;
        for image in images.values() {
            let count = usize::from(image[3]);
            none += u64::from(count == 0);
            some += u64::from(0 < count && count + 1 < images.len());
            most += u64::from(count == 15);
        }
        journeys(group, "drawn", &tables, &images)?;
        ask_anew(draw, &mut draft);
        let again = draft.lay();
        for (node, image) in &images {
            let came = try_table(group, "asked anew", &again, &tables, *node, SIZE)?;
            group.check(came.bytes() == image, || "asked anew, another table".to_string())?;
        }
        for _ in 0..ANEW {
            let (node, room) = (draw_node(draw, &tables.stations()), draw_room(draw));
            tally.saw(try_table(group, "drawn", &chart, &tables, node, room)?.number);
            let damaged = damage(draw, draft.clone());
            let (node, room) = (draw_node(draw, &tables.stations()), draw_room(draw));
            let tables = Tables::of(&damaged);
            tally.saw(try_table(group, "damaged", &damaged, &tables, node, room)?.number);
        }
    }
    let counts = [none, some, most];
    group.check(counts.iter().all(|count| *count > OFTEN), || {
        format!("{counts:?} tables without entries, with some and with 15")
    })?;
    let refusals: Vec<u8> = (21..=31).collect();
    tally.settle_often(group, &[&[0, 10], &refusals[..], &[44]].concat(), OFTEN)
}

// Charts whose links are switched off until there are few routes between any two nodes: then the
// tables are those of the request's sentence.
fn few(group: &mut Group, draw: &mut Draw) -> Outcome {
    for _ in 0..FEW_DRAWN {
        let mut draft = draw_chart(draw);
        loop {
            let chart = draft.lay();
            let tables = Tables::of(&chart);
            if same_tables(group, "drawn", &chart, &tables, FEW)? {
                try_nodes(group, "drawn", &chart, &tables)?;
                break;
            }
            let count = draft.links.len();
            draft.links[draw.below(count)].on = 0;
        }
    }
    Ok(())
}
