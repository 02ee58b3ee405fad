//! Charts moved to the other form of links and back: worked by hand, in buffers of any size, in the
//! order of the refusals, and every choice of directions.

use crate::chart::{Refusal, DIRECTED_LINK, LINK, LONGEST};
use crate::chart_call::{known, try_move};
use crate::chart_cases::{largest, ONE_WAY, S};
use crate::chart_draft::Draft;
use crate::door::{self, Answer, Given};
use crate::draw::Draw;
use crate::group::{Group, Outcome, Tests};

pub const GROUPS: &[Tests] =
    &[("chart moves", by_hand), ("chart move rooms", rooms), ("chart move directions", directions)];

type Call = fn(&[u8], usize) -> Answer;

// S in the directed form, worked by hand: what is one way goes both ways.
fn renewed() -> Vec<u8> {
    let mut chart = ONE_WAY.to_vec();
    chart[55] = 0;
    chart[107] = 0;
    chart
}

fn by_hand(group: &mut Group, _: &mut Draw) -> Outcome {
    let cases: [(&str, Call, Vec<u8>, Vec<u8>); 5] = [
        ("S renewed", door::chart_renew, S.to_vec(), renewed()),
        ("S restored", door::chart_restore, renewed(), S.to_vec()),
        ("S copied", door::chart_restore, S.to_vec(), S.to_vec()),
        ("S renewed, copied", door::chart_renew, renewed(), renewed()),
        ("S one way, copied", door::chart_renew, ONE_WAY.to_vec(), ONE_WAY.to_vec()),
    ];
    for (name, call, chart, moved) in cases {
        let size = moved.len();
        let expected = Ok(Given::new(moved, &[size, 0]));
        group.compare(&call(&chart, size), &expected, || name.to_string())?;
        group.compare(&call(&chart, size - 1), &Err(10), || format!("{name}, no room"))?;
    }
    let one_way = door::chart_restore(&ONE_WAY, LONGEST);
    group.compare(&one_way, &Err(32), || "S one way, restored".to_string())?;
    // 32 comes before 10, and after the chart's numbers, whose place is real.
    let cases: [(&str, Refusal, &[u8], usize); 5] = [
        ("one way, no room", (32, 0), &ONE_WAY, 0),
        ("one way, cut", (21, 121), &ONE_WAY[..129], LONGEST),
        ("one way, no question", (31, 121), &ONE_WAY[..121], 0),
        ("nothing", (31, 0), &[], 0),
        ("node 1,024", (24, 0), &[1, 0, 3, 9, 4, 0], 0),
    ];
    for (name, refusal, chart, room) in cases {
        let came = try_move(group, name, LINK, chart, room)?;
        known(group, name, refusal, came)?;
        let came = try_move(group, name, DIRECTED_LINK, chart, room)?;
        let other = if refusal.0 == 32 { (10, 0) } else { refusal };
        known(group, name, other, came)?;
    }
    Ok(())
}

// Without links both forms have the same bytes.
fn rooms(group: &mut Group, _: &mut Draw) -> Outcome {
    for draft in [Draft::s(), largest(), Draft::row(1), Draft::row(16)] {
        let [plain, directed] = [draft.lay(), draft.clone().directed().lay()];
        for (form, size) in [(LINK, plain.len()), (DIRECTED_LINK, directed.len())] {
            for room in (0..size + 2).chain([LONGEST, 1 << 16]) {
                for chart in [&plain, &directed] {
                    let name = format!("a buffer of {room} for a chart of {size}");
                    let came = try_move(group, &name, form, chart, room)?;
                    known(group, &name, (if room < size { 10 } else { 0 }, 0), came)?;
                }
            }
        }
    }
    Ok(())
}

// Every choice of directions for the links of S: one that is not 0 keeps it from being restored,
// whether its link is on or off.
fn directions(group: &mut Group, _: &mut Draw) -> Outcome {
    for chosen in 0..3usize.pow(6) {
        let directions: Vec<usize> = (0..6).map(|place| chosen / 3usize.pow(place) % 3).collect();
        let chart = Draft::s().direct(&directions).lay();
        let came = try_move(group, "directions", LINK, &chart, LONGEST)?;
        known(group, "directions", (if chosen == 0 { 0 } else { 32 }, 0), came)?;
        let came = try_move(group, "directions", DIRECTED_LINK, &chart, chart.len())?;
        known(group, "directions", (0, 0), came)?;
    }
    Ok(())
}
