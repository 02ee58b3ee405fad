//! Charts whose routes are known beforehand; junk in the place of a route, the order of the
//! refusals, and every way of switching the links of S on and off.

use crate::chart_cases::{largest, DIRECTIONS, ONE_WAY, S};
use crate::chart_draft::{Draft, Station};
use crate::door::{self, Expected, Given};
use crate::draw::Draw;
use crate::group::{Group, Outcome, Tests};
use crate::rules::{break_rules, Breach};
use crate::trace::{Route, Routes, MOST_STEPS};
use crate::trace_call::{try_first, try_next, walk_through};

pub const GROUPS: &[Tests] = &[
    ("trace stories", stories),
    ("trace shapes", shapes),
    ("trace lengths", lengths),
    ("trace junk", junk),
    ("trace order", order),
    ("trace switches", switches),
    ("trace directions", directions),
];

// More than any chart here has.
const MANY: usize = 100_000;

// Lengths above 15, and some whose low bits alone would be a route's.
const LONG: [usize; 9] = [16, 17, 48, 255, 256, 258, 1 << 16 | 2, 1 << 32 | 2, usize::MAX];

/// Gives the routes of a chart that has not too many.
pub fn routes_of(chart: &[u8]) -> Routes {
    Routes::of(chart, MANY).expect("a chart of few routes")
}

// ---- stories ----

// Makes the calls of a story: first, or next after a route, and what is known to come.
fn story(
    group: &mut Group,
    name: &str,
    chart: &[u8],
    calls: &[(Option<&[u8]>, Expected)],
) -> Outcome {
    for (given, expected) in calls {
        let mut buffer = vec![0xee; 20];
        let route = given.unwrap_or(&[]);
        buffer[..route.len()].copy_from_slice(route);
        let came = match given {
            None => door::first(chart, &buffer, 99),
            Some(_) => door::next(chart, &buffer, route.len()),
        };
        group.compare(&came, expected, || format!("{name}, after {given:?}"))?;
    }
    Ok(())
}

fn route(links: &[u8]) -> Expected {
    Ok(Given::route(links))
}

fn stories(group: &mut Group, _: &mut Draw) -> Outcome {
    story(
        group,
        "P1, P2, P6",
        &S,
        &[
            (None, route(&[0, 2])),
            (Some(&[0, 2]), route(&[0, 4, 3])),
            (Some(&[0, 4, 3]), route(&[1, 3])),
            (Some(&[1, 3]), route(&[1, 4, 2])),
            (Some(&[1, 4, 2]), Err(43)),
            (Some(&[0, 1]), Err(41)),
        ],
    )?;
    let mut draft = Draft::s();
    draft.links[4].on = 0;
    story(
        group,
        "P3",
        &draft.lay(),
        &[
            (None, route(&[0, 2])),
            (Some(&[0, 2]), route(&[1, 3])),
            (Some(&[1, 3]), Err(43)),
            (Some(&[0, 4, 3]), Err(41)),
        ],
    )?;
    let mut draft = Draft::s();
    draft.to = draft.from;
    story(
        group,
        "P4",
        &draft.lay(),
        &[(None, route(&[])), (Some(&[]), Err(43)), (Some(&[0, 4, 1]), Err(41))],
    )?;
    let mut draft = Draft::s();
    draft.links[0].on = 0;
    draft.links[1].on = 0;
    let calls = [(None, Err(43)), (Some(&[][..]), Err(41)), (Some(&[0, 2]), Err(41))];
    story(group, "P5", &draft.lay(), &calls)?;
    // Link 0 out and link 4 back: the second route of S is lost, and asked back one is left.
    story(
        group,
        "one way",
        &ONE_WAY,
        &[
            (None, route(&[0, 2])),
            (Some(&[0, 2]), route(&[1, 3])),
            (Some(&[1, 3]), route(&[1, 4, 2])),
            (Some(&[1, 4, 2]), Err(43)),
            (Some(&[0, 4, 3]), Err(41)),
        ],
    )?;
    let mut draft = Draft::s().direct(&DIRECTIONS);
    [draft.from, draft.to] = [draft.to, draft.from];
    story(
        group,
        "one way, asked back",
        &draft.lay(),
        &[(None, route(&[3, 1])), (Some(&[3, 1]), Err(43)), (Some(&[2, 0]), Err(41))],
    )?;
    // Found by its label, 9/21 would be 9/20.
    let mut draft = Draft::s();
    draft.to = (9, 21);
    story(
        group,
        "a label that two stations have",
        &draft.lay(),
        &[
            (None, route(&[0, 2, 3])),
            (Some(&[0, 2, 3]), route(&[0, 4])),
            (Some(&[0, 4]), route(&[1])),
            (Some(&[1]), Err(43)),
        ],
    )
}

// ---- shapes ----

/// So many nodes in a row, and so many links between neighbours.
pub fn chain(nodes: usize, links: usize) -> Draft {
    let mut draft = Draft::row(nodes);
    for place in 1..nodes {
        (0..links).for_each(|_| draft.join(place - 1, place));
    }
    draft
}

/// Three times ten links in a row, 1,000 routes; and so many more from first to last.
pub fn thousand(more: usize) -> Draft {
    let mut draft = chain(4, 10);
    (0..more).for_each(|_| draft.join(0, 3));
    draft
}

/// Each two of so many nodes joined once.
pub fn complete(nodes: usize) -> Draft {
    let mut draft = Draft::row(nodes);
    for other in 1..nodes {
        (0..other).for_each(|one| draft.join(one, other));
    }
    draft
}

/// The same, asked from one place to another.
pub fn ask(mut draft: Draft, from: usize, to: usize) -> Draft {
    [draft.from, draft.to] = [from, to].map(|place| draft.nodes[place].station);
    draft
}

/// The links from last to first, and each from its other end.
pub fn turn(mut draft: Draft) -> Draft {
    draft.links.reverse();
    draft.links.iter_mut().for_each(|link| link.ends.reverse());
    draft
}

// Gives the number of routes, the least and the greatest, each known beforehand.
fn shapes(group: &mut Group, _: &mut Draw) -> Outcome {
    let up: Vec<u8> = (0..15).collect();
    let down: Vec<u8> = (0..15).rev().collect();
    let mut ring = chain(16, 1);
    ring.join(0, 15);
    let mut apart = complete(5);
    apart.nodes.push(Draft::row(6).nodes[5].clone());
    let full: Vec<u8> = (0..15).map(|place| 3 * place + 1).collect();
    let mut forked = full.clone();
    forked[7] += 1;
    let known: [(&str, usize, &[u8], &[u8], Draft); 17] = [
        ("one node", 1, &[], &[], Draft::row(1)),
        ("two nodes, no link", 0, &[], &[], Draft::row(2)),
        ("one link", 1, &[0], &[0], chain(2, 1)),
        ("one link, back", 1, &[0], &[0], ask(chain(2, 1), 1, 0)),
        ("48 links between two nodes", 48, &[0], &[47], chain(2, 48)),
        ("48 links between two nodes, from one to itself", 1, &[], &[], ask(chain(2, 48), 1, 1)),
        ("a row of 16", 1, &up, &up, chain(16, 1)),
        ("a row of 16, back", 1, &down, &down, ask(chain(16, 1), 15, 0)),
        ("a row of 16, its links turned", 1, &down, &down, turn(chain(16, 1))),
        ("a ring of 16", 2, &up, &[15], ring),
        ("twice two links in a row", 4, &[0, 2], &[1, 3], chain(3, 2)),
        ("each two of 5", 16, &[0, 2, 5, 9], &[6], complete(5)),
        ("each two of 5 and one apart", 0, &[], &[], ask(apart.clone(), 0, 5)),
        ("each two of 5 and one apart, from it", 0, &[], &[], ask(apart, 5, 0)),
        ("the largest chart", 3, &full, &[46], largest()),
        ("1,000 routes", 1000, &[0, 10, 20], &[9, 19, 29], thousand(0)),
        ("1,001 routes", 1001, &[0, 10, 20], &[30], thousand(1)),
    ];
    for (name, count, least, greatest, draft) in known {
        let chart = draft.lay();
        let routes = routes_of(&chart);
        walk_through(group, name, &chart, &routes, vec![0xee; 15], 0)?;
        let list = routes.list();
        let ends = [list.first(), list.last()].map(|route| route.map_or(&[][..], |r| r));
        group.check(list.len() == count && ends == [least, greatest], || {
            format!("{name}: {} routes, from {:?} to {:?}", list.len(), ends[0], ends[1])
        })?;
    }
    let second = routes_of(&largest().lay()).list()[1].clone();
    group.check(second == forked, || format!("the largest chart's second route {second:?}"))?;
    Ok(())
}

// ---- lengths of buffers and routes ----

fn lengths(group: &mut Group, draw: &mut Draw) -> Outcome {
    for draft in [Draft::s(), chain(16, 1), ask(Draft::s(), 0, 0), Draft::row(2), largest()] {
        let chart = draft.lay();
        let routes = routes_of(&chart);
        let list = routes.list();
        for room in [0, 1, 2, 3, 13, 14, 15, 16, 48, 255, 256, 1 << 16] {
            let name = format!("a buffer of {room}");
            let mut buffer = draw.bytes(room);
            let handed_in = [0, 1, 2, 3, 14, 15].iter().chain(&LONG);
            for &length in handed_in {
                try_first(group, &name, &chart, &routes, &buffer, length)?;
                try_next(group, &name, &chart, &routes, &buffer, length)?;
            }
            for route in list {
                let fits = route.len().min(room);
                buffer[..fits].copy_from_slice(&route[..fits]);
                for length in (0..=MOST_STEPS).chain(LONG) {
                    try_next(group, &name, &chart, &routes, &buffer, length)?;
                    let came = try_first(group, &name, &chart, &routes, &buffer, length)?;
                    let number = if room < 15 { 42 } else { list[0].len() as u8 };
                    group.known(&name, number, came.number)?;
                }
                for length in LONG {
                    let came = try_next(group, &name, &chart, &routes, &buffer, length)?;
                    group.known(&name, if room < 15 { 42 } else { 41 }, came.number)?;
                }
            }
        }
    }
    Ok(())
}

// ---- junk ----

// Every list of up to four links on S, some of links that it does not have; the routes alone are
// not refused.
fn junk(group: &mut Group, _: &mut Draw) -> Outcome {
    let places = [0, 1, 2, 3, 4, 5, 6, 48, 255];
    let mut lists: Vec<Route> = vec![vec![]];
    let mut last = lists.clone();
    for _ in 0..4 {
        let longer = |list: &Route| places.map(|place| [&list[..], &[place]].concat());
        last = last.iter().flat_map(longer).collect();
        lists.extend(last.clone());
    }
    let routes = routes_of(&S);
    let mut taken = 0;
    for list in lists {
        let mut buffer = list.clone();
        buffer.resize(16, 2);
        let came = try_next(group, "junk", &S, &routes, &buffer, list.len())?;
        taken += u64::from(came.number != 41);
    }
    group.check(taken == 4, || format!("junk: {taken} lists are routes of S"))?;
    // A walk from 9/1 round to 9/1 is no route, nor one that passes 9/30.
    for list in [&[0, 4, 1][..], &[0, 4, 1, 0, 2], &[0, 0, 0, 2], &[0, 2, 3, 3], &[0, 2, 2, 2]] {
        let mut buffer = list.to_vec();
        buffer.resize(15, 0);
        let came = try_next(group, "junk", &S, &routes, &buffer, list.len())?;
        group.known("junk", 41, came.number)?;
    }
    Ok(())
}

// ---- order ----

struct Request {
    chart: Vec<u8>,
    buffer: Vec<u8>,
    length: usize,
}

// The last number first, as a later row decides.
const BREACHES: [Breach<Request>; 6] = [
    (43, |r| r.buffer[..3].copy_from_slice(&[1, 4, 2])),
    (41, |r| r.length = 4),
    (41, |r| r.length = 255),
    (42, |r| r.buffer.truncate(14)),
    (24, |r| r.chart[54] = 2),
    (21, |r| r.chart.insert(0, 1)),
];

// Every choice of breaches at once: the chart's number, then 42, 41 and 43.
fn order(group: &mut Group, _: &mut Draw) -> Outcome {
    for chosen in 0..1 << BREACHES.len() {
        let buffer = [&[0, 4, 3][..], &[7; 12]].concat();
        let mut request = Request { chart: S.to_vec(), buffer, length: 3 };
        let lowest = break_rules(&BREACHES, chosen, &mut request);
        let Request { chart, buffer, length } = request;
        let routes = routes_of(&chart);
        let came = try_next(group, "order", &chart, &routes, &buffer, length)?;
        group.known("order", lowest.unwrap_or(2), came.number)?;
        // First looks at neither the route nor the length.
        let came = try_first(group, "order", &chart, &routes, &buffer, length)?;
        let number = lowest.filter(|number| ![41, 43].contains(number));
        let is_short = buffer.len() < MOST_STEPS;
        group.known("order", number.unwrap_or(if is_short { 42 } else { 2 }), came.number)?;
    }
    // 43 from first comes after the chart's numbers and 42.
    for (number, room, last) in [(43, 15, 30), (42, 14, 30), (28, 14, 31), (28, 15, 31)] {
        let mut draft = Draft::s();
        draft.links.clear();
        let mut chart = draft.lay();
        chart[51] = last;
        let routes = routes_of(&chart);
        let came = try_first(group, "order", &chart, &routes, &vec![0; room], 0)?;
        group.known("order", number, came.number)?;
    }
    Ok(())
}

// ---- switches ----

// Every choice of on and off for the links of S, from each node to each.
fn switches(group: &mut Group, _: &mut Draw) -> Outcome {
    let stations: Vec<Station> = Draft::s().nodes.iter().map(|node| node.station).collect();
    for chosen in 0..1 << 6 {
        let mut draft = Draft::s();
        for (place, link) in draft.links.iter_mut().enumerate() {
            link.on = chosen >> place & 1;
        }
        for from in &stations {
            for to in &stations {
                [draft.from, draft.to] = [*from, *to];
                let chart = draft.lay();
                let routes = routes_of(&chart);
                walk_through(group, "switches", &chart, &routes, vec![0xee; 17], 9)?;
            }
        }
    }
    Ok(())
}

// ---- directions ----

// Every choice of a direction for the links of S, from each node to each.
fn directions(group: &mut Group, _: &mut Draw) -> Outcome {
    let stations: Vec<Station> = Draft::s().nodes.iter().map(|node| node.station).collect();
    for chosen in 0..3usize.pow(6) {
        let mut draft = Draft::s().directed();
        for (place, link) in draft.links.iter_mut().enumerate() {
            link.on = 1;
            link.direction = chosen / 3usize.pow(place as u32) % 3;
        }
        for from in &stations {
            for to in &stations {
                [draft.from, draft.to] = [*from, *to];
                let chart = draft.lay();
                let routes = routes_of(&chart);
                walk_through(group, "directions", &chart, &routes, vec![0xee; 17], 9)?;
            }
        }
    }
    Ok(())
}
