//! Charts most of which leads nowhere (document 02, Eleven): combs, chains of many links whose end
//! is cut off, meshes beside a node without a link. A walk into their dead ends takes millions of
//! steps; with the look ahead a call takes none of them. And the two second walkers side by side.

use crate::chart_draft::{Draft, Station};
use crate::door::{self, Answer};
use crate::draw::Draw;
use crate::group::{Group, Outcome, Stop, Tests};
use crate::sheet::{lent, print};
use crate::trace::{Routes, MOST_STEPS, SLOT_SIZE};
use crate::trace_call::walk_through;
use crate::trace_cases::{ask, routes_of, turn};
use crate::trace_draws::draw_net;
use std::time::Duration;

pub const GROUPS: &[Tests] =
    &[("trace walkers", walkers), ("trace combs", combs), ("trace dead ends", dead_ends)];

// More than any chart here has, if no dead end is walked into.
const MANY: usize = 1_000;

// Beginnings, with the dead ends, up to which every way is walked.
const SMALL: usize = 20_000;

const DRAWN: usize = 3_000;

// For all calls on the dead ends together.
const LONGEST: Duration = Duration::from_millis(200);

// ---- walkers ----

fn same_lists(group: &mut Group, name: &str, chart: &[u8]) -> Result<usize, Stop> {
    let Some(every) = Routes::of_every_walk(chart, SMALL) else {
        return Ok(0);
    };
    let looked = Routes::of(chart, SMALL).expect("fewer beginnings");
    group.check(looked.list() == every.list(), || {
        let [looked, every] = [&looked, &every].map(|routes| format!("{:?}", routes.list()));
        format!("{name}: {}\n  every way {every}\n  looked ahead {looked}", door::hex(chart))
    })?;
    Ok(1)
}

// The list made by walking every way and the one that leaves dead ends out are the same.
fn walkers(group: &mut Group, draw: &mut Draw) -> Outcome {
    let mut small = 0;
    for _ in 0..DRAWN {
        small += same_lists(group, "drawn", &draw_net(draw).lay())?;
    }
    group.check(small > DRAWN / 2, || format!("{small} of {DRAWN} charts are small"))?;
    let stations: Vec<Station> = Draft::s().nodes.iter().map(|node| node.station).collect();
    for chosen in 0..3usize.pow(6) {
        let direction = |place: usize| chosen / 3usize.pow(place as u32) % 3;
        let mut draft = Draft::s().direct(&[0, 1, 2, 3, 4, 5].map(direction));
        draft.links[5].on = 1;
        for (from, to) in stations.iter().flat_map(|from| stations.iter().map(move |to| (from, to)))
        {
            [draft.from, draft.to] = [*from, *to];
            small = same_lists(group, "directions", &draft.lay())?;
            group.check(small == 1, || "S has few ways".to_string())?;
        }
    }
    Ok(())
}

// ---- combs ----

// Rungs from node 0 to node 1, 2 to 3 and so on, asked from the first node to the last of these.
fn ladder(draft: &mut Draft, nodes: usize) {
    (2..nodes).for_each(|place| draft.join(place - 2, place));
    (1..nodes).step_by(2).for_each(|place| draft.join(place - 1, place));
    [draft.from, draft.to] = [0, nodes - 1].map(|place| draft.nodes[place].station);
}

// A comb's teeth, each two joined, the first of them to these nodes of the ladder.
fn teeth(draft: &mut Draft, first: usize, last: usize, hung_on: &[usize]) {
    for &place in hung_on {
        draft.join(place, first);
    }
    for other in first..=last {
        (first..other).for_each(|one| draft.join(one, other));
    }
}

// A ladder of eight nodes and a comb of seven more. The comb's links come first, so that each is
// tried before those that lead on; or last.
fn comb(hung_on: &[usize], first: bool) -> Draft {
    let mut draft = Draft::row(15);
    if first {
        teeth(&mut draft, 8, 14, hung_on);
    }
    ladder(&mut draft, 8);
    if !first {
        teeth(&mut draft, 8, 14, hung_on);
    }
    draft
}

// Seven teeth of one node, each at its own node of the ladder but the last.
fn single_teeth() -> Draft {
    let mut draft = Draft::row(15);
    (0..7).for_each(|place| draft.join(place, 8 + place));
    ladder(&mut draft, 8);
    draft
}

// The same with the links that hang the comb passed one way: 1 into it, 2 out of it.
fn hung(mut draft: Draft, direction: usize) -> Draft {
    let ladder: Vec<usize> = draft.nodes[..8].iter().map(|node| node.station.1).collect();
    for link in &mut draft.links {
        let [near, far] = link.ends.map(|end| ladder.contains(&end.node));
        if near != far {
            link.direction = if near { direction } else { 3 - direction };
        }
    }
    draft.directed()
}

fn sheet(chart: &[u8]) -> String {
    print(chart, MANY).expect("a chart of few routes")
}

// Every call on each comb, with the number of its routes, known beforehand. A ladder of four rungs
// has eight: each rung is passed or not, and an odd number of them.
fn combs(group: &mut Group, _: &mut Draw) -> Outcome {
    let known = [
        ("at the start", 8, comb(&[0], true)),
        ("at the start, last", 8, comb(&[0], false)),
        ("beside the start", 8, comb(&[1], true)),
        ("in the middle", 8, comb(&[3], true)),
        ("in the middle, last", 8, comb(&[3], false)),
        ("before the end", 8, comb(&[6], true)),
        ("at the end", 8, comb(&[7], true)),
        ("at the end, last", 8, comb(&[7], false)),
        ("seven teeth", 8, single_teeth()),
        ("in the middle, asked back", 8, ask(comb(&[3], true), 7, 0)),
        ("in the middle, its links turned", 8, turn(comb(&[3], true))),
        ("one way in", 8, hung(comb(&[3], true), 1)),
        ("one way out", 8, hung(comb(&[3], true), 2)),
        ("on two nodes, one way in", 8, hung(comb(&[0, 3], true), 1)),
        ("on two nodes, one way out", 8, hung(comb(&[3, 4], true), 2)),
        ("on two nodes", 12, comb(&[0, 3], true)),
        ("on two nodes, last", 12, comb(&[0, 3], false)),
        ("on two nodes of two rungs", 13, comb(&[3, 4], true)),
        ("to the first tooth", 1, ask(comb(&[0], false), 0, 8)),
        ("to the last tooth", 326, ask(comb(&[0], false), 0, 14)),
    ];
    for (name, count, draft) in known {
        let chart = draft.lay();
        let routes = routes_of(&chart);
        walk_through(group, name, &chart, &routes, vec![0xee; MOST_STEPS], 0)?;
        let text = sheet(&chart);
        group.compare(&door::sheet(&chart, text.len()), &lent(&text, text.len()), || {
            format!("{name}: pz_sheet")
        })?;
        group.check(routes.list().len() == count, || {
            format!("{name}: {} routes, not {count}", routes.list().len())
        })?;
    }
    Ok(())
}

// ---- dead ends ----

// Joins neighbours by so many links in all, as even as can be, those that are over at the start.
fn strand(draft: &mut Draft, first: usize, last: usize, mut links: usize) {
    for place in first..last {
        let count = links.div_ceil(last - place);
        (0..count).for_each(|_| draft.join(place, place + 1));
        links -= count;
    }
}

/// A chain of 15 nodes with three or four links from each to the next, and a last node that has
/// none, asked from the first to the last. 40 million ways to begin, and none leads there.
pub fn strands() -> Draft {
    let mut draft = Draft::row(16);
    strand(&mut draft, 0, 14, 48);
    draft
}

/// A ring of 15 nodes, each joined to the next three, and a last node that has no link.
pub fn mesh() -> Draft {
    let mut draft = Draft::row(16);
    for step in 1..=3 {
        (0..15).for_each(|place| draft.join(place, (place + step) % 15));
    }
    draft
}

// With a link from the node asked for, which can't be passed to it.
fn one_way_off(mut draft: Draft) -> Draft {
    draft.links.truncate(47);
    draft.join(14, 15);
    draft.links.last_mut().expect("a link").direction = 2;
    draft.directed()
}

// With one link from the first node to the last, before the others or after them.
fn with_route(mut draft: Draft, first: bool) -> Draft {
    draft.links.truncate(47);
    draft.join(0, 15);
    let count = draft.links.len();
    draft.links.swap(if first { 0 } else { count - 1 }, count - 1);
    draft
}

// A row of three nodes and the last, and a tooth of twelve that hangs on the second and the third.
fn two_hung() -> Draft {
    let mut draft = Draft::row(16);
    strand(&mut draft, 3, 14, 43);
    for (one, other) in [(1, 3), (2, 3), (0, 1), (1, 2), (2, 15)] {
        draft.join(one, other);
    }
    draft
}

// Every link passed from its first end alone.
fn outward(draft: Draft) -> Draft {
    draft.direct(&[1; 48])
}

extern "C" {
    fn clock_gettime(clock: i32, time: *mut [i64; 2]) -> i32;
}

// This thread's processor time, which no other work on the machine lengthens.
fn processor_time() -> Duration {
    let mut time = [0; 2];
    assert_eq!(unsafe { clock_gettime(3, &mut time) }, 0);
    Duration::new(time[0] as u64, time[1] as u32)
}

// Makes a call and adds the time that it takes.
fn timed(spent: &mut Duration, call: impl FnOnce() -> Answer) -> Answer {
    let begun = processor_time();
    let came = call();
    *spent += processor_time() - begun;
    came
}

// Each call once, with the number of routes known beforehand. All of them together take less than a
// millisecond; without the look ahead some ten seconds, and where each step looks at all links
// besides, minutes. Where first alone does not heed it they take half a second.
fn dead_ends(group: &mut Group, _: &mut Draw) -> Outcome {
    let known = [
        ("strands", 0, strands()),
        ("strands, turned", 0, turn(strands())),
        ("strands, outward", 0, outward(strands())),
        ("strands, one way off", 0, one_way_off(strands())),
        ("strands after the route", 1, with_route(strands(), true)),
        ("strands before the route", 1, with_route(strands(), false)),
        ("strands before the route, outward", 1, outward(with_route(strands(), false))),
        ("a tooth on two nodes", 2, two_hung()),
        ("mesh", 0, mesh()),
        ("mesh, turned", 0, turn(mesh())),
        ("mesh, one way off", 0, one_way_off(mesh())),
        ("mesh after the route", 1, with_route(mesh(), true)),
        ("mesh before the route", 1, with_route(mesh(), false)),
    ];
    let mut spent = Duration::ZERO;
    for (name, count, draft) in known {
        let chart = draft.lay();
        let routes = Routes::of(&chart, MANY).expect("a chart of few routes");
        let list = routes.list();
        group.check(list.len() == count, || format!("{name}: {list:?}"))?;
        let mut buffer = vec![0xee; MOST_STEPS];
        let came = timed(&mut spent, || door::first(&chart, &buffer, 0));
        group.compare(&came, &routes.first(&buffer), || format!("{name}: pz_first"))?;
        if let Some(last) = list.last() {
            buffer[..last.len()].copy_from_slice(last);
            let came = timed(&mut spent, || door::next(&chart, &buffer, last.len()));
            let expected = routes.next(&buffer, last.len());
            group.compare(&came, &expected, || format!("{name}: pz_next"))?;
        }
        let room = SLOT_SIZE * 4;
        let came = timed(&mut spent, || door::routes(&chart, room));
        group.compare(&came, &routes.slots(room), || format!("{name}: pz_routes"))?;
        let text = sheet(&chart);
        let came = timed(&mut spent, || door::sheet(&chart, text.len()));
        group.compare(&came, &lent(&text, text.len()), || format!("{name}: pz_sheet"))?;
    }
    group.check(spent < LONGEST, || format!("the calls took {spent:?}"))?;
    Ok(())
}
