//! Drawn charts of up to 16 nodes, thinned out until their routes are few: all of them walked
//! through and listed, then junk, short buffers and damaged charts.

use crate::chart::LINK;
use crate::chart_draft::{Draft, Station};
use crate::chart_draws::{damage, draw_form, draw_link, draw_link_between, draw_nodes};
use crate::draw::Draw;
use crate::group::{Group, Outcome, Tally, Tests};
use crate::trace::{Routes, MOST_STEPS, SLOT_SIZE};
use crate::trace_call::{try_first, try_list, try_next, walk_through};

pub const GROUPS: &[Tests] = &[("trace draws", draws)];

const DRAWN: usize = 8_000;
const JUNK: usize = 3;

// Beginnings of routes, which bound the routes and the dead ends alike.
const FEW: [usize; 5] = [40, 40, 100, 100, 400];

// Times that each number must come.
const OFTEN: u64 = 40;

// ---- charts ----

// Joins the nodes from the first to the last, all links on.
fn join_row(draw: &mut Draw, draft: &mut Draft) {
    for place in 1..draft.nodes.len() {
        draw_link_between(draw, draft, place - 1, place);
    }
    draft.links.iter_mut().for_each(|link| link.on = 1);
}

fn sparse(draw: &mut Draw, draft: &mut Draft) {
    let count = draft.nodes.len() + draw.below(5);
    (1..count).for_each(|_| draw_link(draw, draft));
}

fn row(draw: &mut Draw, draft: &mut Draft) {
    join_row(draw, draft);
    (0..draw.below(4)).for_each(|_| draw_link(draw, draft));
}

fn ring(draw: &mut Draw, draft: &mut Draft) {
    join_row(draw, draft);
    draw_link_between(draw, draft, 0, draft.nodes.len() - 1);
    (0..draw.below(3)).for_each(|_| draw_link(draw, draft));
}

// Two or three links between each two neighbours.
fn parallel(draw: &mut Draw, draft: &mut Draft) {
    draft.nodes.truncate(draw.within(2, 5));
    for place in 1..draft.nodes.len() {
        let count = draw.within(1, 4);
        (0..count).for_each(|_| draw_link_between(draw, draft, place - 1, place));
    }
    draw_link(draw, draft);
}

// Two rows side by side.
fn ladder(draw: &mut Draw, draft: &mut Draft) {
    let count = draft.nodes.len();
    (2..count).for_each(|place| draw_link_between(draw, draft, place - 2, place));
    (1..count).step_by(2).for_each(|place| draw_link_between(draw, draft, place - 1, place));
}

fn dense(draw: &mut Draw, draft: &mut Draft) {
    draft.nodes.truncate(6);
    for other in 1..draft.nodes.len() {
        (0..other).for_each(|one| draw_link_between(draw, draft, one, other));
    }
}

// Links among the first half, and among the second, but none between the two.
fn apart(draw: &mut Draw, draft: &mut Draft) {
    let count = draft.nodes.len();
    let half = count / 2;
    for _ in 0..count {
        let (low, high) = draw.one_of(&[(0, half), (half, count)]);
        if high - low > 1 {
            let one = draw.below(high - low);
            let other = (one + draw.within(1, high - low - 1)) % (high - low);
            draw_link_between(draw, draft, low + one, low + other);
        }
    }
}

fn many(draw: &mut Draw, draft: &mut Draft) {
    (0..draw.within(10, 48)).for_each(|_| draw_link(draw, draft));
}

const SHAPES: [fn(&mut Draw, &mut Draft); 10] =
    [sparse, sparse, row, row, ring, parallel, ladder, dense, apart, many];

/// Draws a chart asked from its first node to its last, or from any to any. Nodes and links then
/// change places.
pub fn draw_net(draw: &mut Draw) -> Draft {
    let any = draw.within(2, 16);
    let many = draw.within(12, 16);
    let count = draw.one_of(&[any, any, many, 16]);
    let nodes = draw_nodes(draw, count);
    let mut draft = Draft { nodes, links: Vec::new(), form: LINK, from: (0, 0), to: (0, 0) };
    draw.one_of(&SHAPES)(draw, &mut draft);
    let stations: Vec<Station> = draft.nodes.iter().map(|node| node.station).collect();
    let last = stations.len() - 1;
    let (one, other) = (draw.below(last + 1), draw.below(last + 1));
    let [from, to] = draw.one_of(&[[0, last], [0, last], [last, 0], [one, other], [one, one]]);
    draft.from = stations[from];
    draft.to = stations[to];
    shuffle(draw, &mut draft.nodes);
    if draw.below(4) > 0 {
        shuffle(draw, &mut draft.links);
    }
    for link in &mut draft.links {
        if draw.below(2) == 0 {
            link.ends.reverse();
        }
    }
    draw_form(draw, &mut draft);
    draft
}

fn shuffle<T>(draw: &mut Draw, items: &mut [T]) {
    for place in 1..items.len() {
        items.swap(place, draw.below(place + 1));
    }
}

/// Switches links off until the routes are few.
pub fn thin(draw: &mut Draw, draft: &mut Draft) -> Routes {
    let few = draw.one_of(&FEW);
    loop {
        if let Some(routes) = Routes::of(&draft.lay(), few) {
            return routes;
        }
        let count = draft.links.len();
        draft.links[draw.below(count)].on = 0;
    }
}

// ---- junk ----

// Draws links that follow on one another, on or off, whatever was met before.
fn draw_walk(draw: &mut Draw, draft: &Draft) -> Vec<u8> {
    let mut walk = Vec::new();
    let mut tip = draft.from;
    for _ in 0..draw.below(MOST_STEPS + 1) {
        let at = |place: &usize| {
            let ends = draft.links[*place].ends.map(|end| (end.brigade, end.node));
            ends.contains(&tip)
        };
        let onward: Vec<usize> = (0..draft.links.len()).filter(at).collect();
        if onward.is_empty() {
            break;
        }
        let place = draw.one_of(&onward);
        let [one, other] = draft.links[place].ends.map(|end| (end.brigade, end.node));
        tip = if tip == one { other } else { one };
        walk.push(place as u8);
        if tip == draft.to && draw.below(2) == 0 {
            break;
        }
    }
    walk
}

// Draws what may be taken for a route of the chart, often one that is, and a length.
fn draw_junk(draw: &mut Draw, draft: &Draft, routes: &Routes) -> (Vec<u8>, usize) {
    let mut route = match routes.list() {
        [] => draw_walk(draw, draft),
        list => list[draw.below(list.len())].clone(),
    };
    let any = draw.below(draft.links.len().max(1) + 1) as u8;
    match draw.below(9) {
        0 => route = draw.bytes(MOST_STEPS),
        1 => route.reverse(),
        2 => route.push(any),
        3 => {
            route.pop();
        }
        4 if !route.is_empty() => {
            let place = draw.below(route.len());
            route[place] = draw.one_of(&[any, any, 48, 255]);
        }
        5 if route.len() > 1 => {
            let place = draw.below(route.len() - 1);
            route.swap(place, place + 1);
        }
        6 | 7 => route = draw_walk(draw, draft),
        _ => (),
    }
    let real = route.len();
    let long = draw.one_of(&[16, 255, 256 + real, 1 << 32 | real, usize::MAX]);
    let other = draw.below(16);
    let length = draw.one_of(&[real, real, real, real, other, long]);
    (route, length)
}

// ---- draws ----

// Draws how many bytes of slots are lent, seldom too few for one.
fn draw_slots(draw: &mut Draw, routes: &Routes) -> usize {
    let any = draw.below(SLOT_SIZE * (routes.list().len() + 2));
    draw.one_of(&[0, SLOT_SIZE - 1, any, any, any, any, any, 1 << 12])
}

fn draws(group: &mut Group, draw: &mut Draw) -> Outcome {
    let mut first = Tally::new("pz_first");
    let mut next = Tally::new("pz_next");
    let mut list = Tally::new("pz_routes");
    let mut none = 0;
    for _ in 0..DRAWN {
        let mut draft = draw_net(draw);
        let routes = thin(draw, &mut draft);
        none += u64::from(routes.list().is_empty());
        let chart = draft.lay();
        let room = draw.one_of(&[15, 15, 16, 48, 100]);
        let buffer = draw.bytes(room);
        let length = draw.one_of(&[0, 1, 15, 16, 255, usize::MAX]);
        let numbers = walk_through(group, "drawn", &chart, &routes, buffer, length)?;
        first.saw(numbers[0]);
        numbers[1..].iter().for_each(|number| next.saw(*number));
        let room = draw_slots(draw, &routes);
        list.saw(try_list(group, "drawn", &chart, &routes, room)?.number);

        for _ in 0..JUNK {
            let (route, length) = draw_junk(draw, &draft, &routes);
            let room = draw.one_of(&[15, 15, 15, 16, 30, 30, 14, 0]);
            let mut buffer = route;
            let noise = draw.bytes(30);
            buffer.extend(noise);
            buffer.truncate(room);
            let came = try_next(group, "junk", &chart, &routes, &buffer, length)?;
            next.saw(came.number);
            if room < MOST_STEPS {
                let came = try_first(group, "junk", &chart, &routes, &buffer, length)?;
                first.saw(came.number);
            }
            // A damaged chart often keeps the route.
            let damaged = damage(draw, draft.clone());
            if let Some(routes) = Routes::of(&damaged, FEW[4]) {
                let came = try_next(group, "damaged", &damaged, &routes, &buffer, length)?;
                next.saw(came.number);
                let came = try_first(group, "damaged", &damaged, &routes, &buffer, length)?;
                first.saw(came.number);
                let room = draw_slots(draw, &routes);
                list.saw(try_list(group, "damaged", &damaged, &routes, room)?.number);
            }
        }
    }
    group.check(none > OFTEN, || format!("{none} charts without a route"))?;
    let lengths: Vec<u8> = (0..=15).collect();
    let refusals: Vec<u8> = (21..=31).collect();
    first.settle_often(group, &[&lengths[..], &refusals, &[42, 43]].concat(), OFTEN)?;
    next.settle_often(group, &[&lengths[1..], &refusals, &[41, 42, 43]].concat(), OFTEN)?;
    list.settle_often(group, &[&[0][..], &refusals, &[42, 43]].concat(), OFTEN)
}
