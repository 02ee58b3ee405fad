//! Printed sheets beside the second one: document 01's own, the sample charts, both sides of every
//! limit, and drawn charts, sound and damaged, in buffers of any size.

use crate::chart::MOST_LINKS;
use crate::chart_cases::{largest, ONE_WAY, S};
use crate::chart_draft::Draft;
use crate::chart_draws::damage;
use crate::door::{self, hex};
use crate::draw::Draw;
use crate::group::{Group, Outcome, Stop, Tally, Tests};
use crate::sheet::{lent, print, LONGEST_INPUT};
use crate::trace_cases::thousand;
use crate::trace_draws::{draw_net, thin};

pub const GROUPS: &[Tests] = &[
    ("sheet of S", document),
    ("sheet limits", limits),
    ("sheet counts", counts),
    ("sheet rooms", rooms),
    ("sheet draws", draws),
];

// More than any chart here has.
const MANY: usize = 100_000;

const DRAWN: usize = 2_000;

// No sheet is longer.
const LONGEST: usize = 47_369;

const TEXT: &str = "\
nodes 4 links 6
0 9/1 Control
1 9/20 Hill
2 9/21 Hill
3 9/30 Quay
0 9/1/2 9/20/1 on both
1 9/1/3 9/21/1 on both
2 9/20/2 9/30/1 on both
3 9/21/2 9/30/2 on both
4 9/20/3 9/21/3 on both
5 9/1/4 9/30/3 off both
from 9/1 to 9/30
0 2
0 4 3
1 3
1 4 2
end
";

const ONE_WAY_TEXT: &str = "\
nodes 4 links 6
0 9/1 Control
1 9/20 Hill
2 9/21 Hill
3 9/30 Quay
0 9/1/2 9/20/1 on out
1 9/1/3 9/21/1 on both
2 9/20/2 9/30/1 on both
3 9/21/2 9/30/2 on both
4 9/20/3 9/21/3 on back
5 9/1/4 9/30/3 off both
from 9/1 to 9/30
0 2
1 3
1 4 2
end
";

// Compares the sheet in a buffer of this size with a text that is known.
fn known(group: &mut Group, name: &str, input: &[u8], text: &str, room: usize) -> Result<u8, Stop> {
    let came = door::sheet(input, room);
    group.compare(&came, &lent(text, room), || {
        format!("{name}: pz_sheet, a buffer of {room}, input {}", hex(input))
    })?;
    Ok(came.number)
}

fn document(group: &mut Group, _: &mut Draw) -> Outcome {
    let second = print(&S, MANY);
    group
        .check(second.as_deref() == Some(TEXT), || format!("the second sheet of S: {second:?}"))?;
    for room in [TEXT.len(), TEXT.len() + 1, LONGEST - 1, LONGEST, LONGEST + 1] {
        known(group, "S", &S, TEXT, room)?;
    }
    let size = ONE_WAY_TEXT.len();
    for room in [0, size - 1, size, size + 1, LONGEST] {
        known(group, "S, one way", &ONE_WAY, ONE_WAY_TEXT, room)?;
    }
    (0..TEXT.len()).try_for_each(|room| known(group, "S", &S, TEXT, room).map(|_| ()))
}

// The last line of each, and the sheets of inputs that are no charts.
fn limits(group: &mut Group, _: &mut Draw) -> Outcome {
    for (more, last) in
        [(0, "\n9 19 29\nend\n"), (1, "\n9 19 29\nmore\n"), (9, "\n9 19 29\nmore\n")]
    {
        let chart = thousand(more).lay();
        let text = print(&chart, MANY).expect("a chart of few routes");
        group.check(text.ends_with(last), || format!("1,000 routes and {more}: {text}"))?;
        known(group, "1,000 routes", &chart, &text, text.len())?;
        known(group, "1,000 routes", &chart, &text, LONGEST)?;
        known(group, "1,000 routes", &chart, &text, text.len() - 1)?;
    }
    for size in [4095, 4096, 4097, 4098, 65_536, 1_000_000] {
        let text = if size > LONGEST_INPUT { "too long\n" } else { "refused 25 at 124\n" };
        let mut input = S.repeat(size / S.len() + 1);
        input.truncate(size);
        known(group, "S again and again", &input, text, LONGEST)?;
        known(group, "S again and again", &input, text, text.len())?;
        known(group, "S again and again", &input, text, text.len() - 1)?;
    }
    known(group, "no input", &[], "refused 31 at 0\n", 16)?;
    known(group, "node 1,024", &[1, 0, 3, 9, 4, 0], "refused 24 at 0\n", 16)?;
    let mut here = Draft::row(1);
    here.nodes[0].label.clear();
    let chart = here.lay();
    let text = print(&chart, MANY).expect("one route");
    group.check(text.ends_with("\n-\nend\n"), || format!("from a node to itself: {text}"))?;
    known(group, "from a node to itself", &chart, &text, text.len())?;
    let chart = Draft::row(2).lay();
    let text = print(&chart, MANY).expect("no route");
    group.check(text.contains("\nfrom ") && text.ends_with("\nend\n"), || {
        format!("no route: {text}")
    })?;
    known(group, "no route", &chart, &text, text.len())?;
    Ok(())
}

// Every number of links between two nodes, each of them a route.
fn counts(group: &mut Group, _: &mut Draw) -> Outcome {
    for count in 0..=MOST_LINKS {
        let mut draft = Draft::row(2);
        (0..count).for_each(|_| draft.join(0, 1));
        let chart = draft.lay();
        let text = print(&chart, MANY).expect("a chart of few routes");
        // The counts, two nodes, the links, the question, the routes and the last line.
        group.check(text.lines().count() == 5 + 2 * count, || format!("{count} routes: {text}"))?;
        for room in [text.len() - 1, text.len(), LONGEST] {
            known(group, "counts", &chart, &text, room)?;
        }
    }
    Ok(())
}

fn rooms(group: &mut Group, _: &mut Draw) -> Outcome {
    for draft in [Draft::s(), largest(), largest().directed(), Draft::row(16), thousand(1)] {
        let chart = draft.lay();
        let text = print(&chart, MANY).expect("a chart of few routes");
        let near = text.len() - 3..text.len() + 3;
        for room in near.chain([0, 1, 2, LONGEST - 1, LONGEST, LONGEST + 1, 1 << 16]) {
            known(group, "rooms", &chart, &text, room)?;
        }
    }
    Ok(())
}

fn draws(group: &mut Group, draw: &mut Draw) -> Outcome {
    let mut tally = Tally::new("pz_sheet");
    for _ in 0..DRAWN {
        let mut draft = draw_net(draw);
        thin(draw, &mut draft);
        let damaged = damage(draw, draft.clone());
        for input in [draft.lay(), damaged] {
            if let Some(text) = print(&input, MANY) {
                let size = text.len();
                let any = draw.below(size + 40);
                let room = draw.one_of(&[size, size, size - 1, any, 4000, LONGEST]);
                tally.saw(known(group, "drawn", &input, &text, room)?);
            }
        }
    }
    tally.settle(group, &[0, 10])
}
